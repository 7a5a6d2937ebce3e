//! The table of marks and its place in the page, on numbers chosen by hand.

use super::others::{BEGIN_DESK, BEGIN_FORMS, BEGIN_GAPS};
use super::*;
use crate::case::{Case, Group};
use crate::targets::Target;
use model::call::Call;

/// Two cases in three rounds, of which only the first is about marks; the earlier build takes part or not.
fn report(earlier: bool) -> Report {
    let marks = vec![Call::Written { address: 1, n: 8 }];
    let asks = vec![Call::Ask { address: 1 }];
    let mut report = Report {
        plan: Plan {
            states: Vec::new(),
            cases: vec![
                Case::new("some marks", Group::Marking, 0, marks),
                Case::new("an ask", Group::Whole, 0, asks),
            ],
            targets: |_, _| Vec::new(),
        },
        titles: vec!["monitor", "before"],
        rows: vec![
            vec![Some(vec![2.0, 3.0, 9.0]), Some(vec![8.0, 4.0, 10.0])],
            vec![Some(vec![2.0, 2.0, 2.0]), Some(vec![4.0, 4.0, 4.0])],
        ],
        counts: Some(vec![
            vec![Some(50.0), Some(200.0)],
            vec![Some(100.0), Some(100.0)],
        ]),
        rounds: 3,
        versions: "- Before: commit 0123456\n".into(),
    };
    if !earlier {
        report.titles.pop();
        for row in &mut report.rows {
            row.pop();
        }
        for row in report.counts.iter_mut().flatten() {
            row.pop();
        }
    }
    report
}

/// The form with origins beside the plain form, one case, the target missed.
fn forms() -> Report {
    let mut report = report(true);
    report.plan.cases.truncate(1);
    report.plan.targets = |case, _| {
        vec![Target {
            case,
            peer: "plain",
            most: 0.5,
        }]
    };
    report.titles = vec!["origins", "plain", "memset"];
    report.rows.truncate(1);
    report.rows[0].push(Some(vec![1.0, 1.0, 1.0]));
    report.counts = Some(vec![vec![Some(50.0), Some(200.0), None]]);
    report
}

/// The same numbers for place beside C, and for the desk form, where E-ACSL's model is counted too.
fn others() -> Others {
    let mut gaps = forms();
    gaps.titles = vec!["monitor", "C", "memset"];
    gaps.plan.targets = |case, _| {
        vec![Target {
            case,
            peer: "memset",
            most: 6.0,
        }]
    };
    let mut desk = forms();
    desk.titles = vec!["desk", "player", "shadow"];
    desk.counts = Some(vec![vec![Some(50.0), Some(200.0), Some(25.0)]]);
    Others {
        forms: forms(),
        gaps,
        desk,
    }
}

/// A page whose parts are old.
fn page() -> String {
    let part = |begin: &str, words: &str| format!("{begin}old {words}{END}\n\n");
    let others = [
        part(BEGIN_FORMS, "forms"),
        part(BEGIN_GAPS, "gaps"),
        part(BEGIN_DESK, "desk"),
    ]
    .concat();
    let (tables, marks) = (part(BEGIN, "tables"), part(BEGIN_MARKS, "marks"));
    format!("# Page\n\n{tables}{others}Between.\n\n{marks}Last.\n")
}

/// Medians 8 and 3; ratios 0.25, 0.75 and 0.9.
#[test]
fn marks_before_and_after() {
    let table = report(true).mark_table(1);
    let rows: Vec<&str> = table.lines().filter(|line| line.starts_with('|')).collect();
    assert_eq!(rows.len(), 3);
    assert_eq!(
        rows[2],
        "| some marks | 8.00 | 3.00 | 0.75 | 200 | 50 | 0.25 |"
    );
}

#[test]
fn marks_uncounted() {
    let mut report = report(true);
    report.counts = None;
    let table = report.mark_table(1);
    assert!(table.ends_with("| some marks | 8.00 | 3.00 | 0.75 | – | – | – |\n"));
}

/// Medians 3, 8 and 1; ratios to the plain form 0.25, 0.75 and 0.9, to memset 2, 3 and 9.
#[test]
fn forms_side_by_side() {
    let text = forms().form_text();
    assert!(text.contains("| some marks | 0.5 × plain | 0.75 | **missed** |\n"));
    assert!(text.ends_with("| some marks | 3.00 | 8.00 | 0.75 | 1.00 | 3.00 | 50 | 200 | 0.25 |\n"));
}

/// The same ratios, the target met.
#[test]
fn place_beside_c() {
    let text = others().gaps.gap_text();
    assert!(text.contains("| some marks | 6 × memset | 3.00 | met |\n"));
    assert!(text.contains("| ns | ns C | of C | ns memset |"));
    assert!(text.ends_with("| some marks | 3.00 | 8.00 | 0.75 | 1.00 | 3.00 | 50 | 200 | 0.25 |\n"));
}

/// A limit in instructions is held against the library's own count.
#[test]
fn limit_in_instructions() {
    let mut report = report(false);
    report.plan.targets = |case, _| {
        vec![Target {
            case,
            peer: INSTRUCTIONS,
            most: 75.0,
        }]
    };
    let table = report.target_table();
    assert!(table.contains("| some marks | 75 instructions | 50.0 | met |\n"));
    assert!(table.contains("| an ask | 75 instructions | 100 | **missed** |\n"));
}

/// The same ratios, of the instructions too; without E-ACSL's model its columns are empty.
#[test]
fn desk_beside_player() {
    let mut desk = others().desk;
    let text = desk.desk_text();
    assert!(text.contains("| Case | ns desk | ns player | of player | ns shadow | of shadow | instructions desk | instructions player | of player | instructions shadow | of shadow |\n"));
    assert!(text.ends_with(
        "| some marks | 3.00 | 8.00 | 0.75 | 1.00 | 3.00 | 50 | 200 | 0.25 | 25 | 2.00 |\n"
    ));
    desk.titles.pop();
    let text = desk.desk_text();
    assert!(
        text.ends_with("| some marks | 3.00 | 8.00 | 0.75 | – | – | 50 | 200 | 0.25 | – | – |\n")
    );
}

/// Each kind of run leaves what the other writes.
#[test]
fn places_in_the_page() {
    let old = page();
    let marks = report(true).page(&old, &others());
    assert!(marks.contains("old tables") && !marks.contains("old marks"));
    let others_old = ["old forms", "old gaps", "old desk"];
    assert!(others_old.iter().all(|words| marks.contains(words)));
    assert!(marks.contains("- Before: commit 0123456\n\nBoth builds"));
    assert!(marks.ends_with(&format!("| 0.25 |\n{END}\n\nLast.\n")));
    assert!(!marks.contains("an ask"));
    let tables = report(false).page(&old, &others());
    assert!(tables.contains("old marks") && !tables.contains("old tables"));
    assert!(!others_old.iter().any(|words| tables.contains(words)));
    assert!(tables.contains("| some marks | 0.5 × plain |"));
    assert!(tables.contains("| some marks | 6 × memset |"));
    assert!(tables.contains("### The desk form"));
    assert!(tables.contains("| an ask | 2.00 |"));
    assert!(tables.contains(&format!("{END}\n\nBetween.")));
}

#[test]
fn page_has_its_places() {
    let page = include_str!("../../../docs/BENCHMARKS.md");
    let all = [BEGIN, BEGIN_FORMS, BEGIN_GAPS, BEGIN_DESK, BEGIN_MARKS];
    for begin in all {
        assert_eq!(page.matches(begin).count(), 1, "{begin}");
    }
    assert_eq!(page.matches(END).count(), all.len());
}
