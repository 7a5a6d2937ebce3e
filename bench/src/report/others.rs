//! The tables of the comparisons beside the main one: one side beside its peers.

use std::fmt::Write;

use super::{cell, short, whole, Report};

pub(super) const BEGIN_FORMS: &str = "<!-- begin: forms, written by ./bench.sh --docs -->";
pub(super) const BEGIN_GAPS: &str = "<!-- begin: gaps, written by ./bench.sh --docs -->";
pub(super) const BEGIN_DESK: &str = "<!-- begin: desk, written by ./bench.sh --docs -->";

/// The form with origins, place, and the desk form.
pub struct Others {
    pub forms: Report,
    pub gaps: Report,
    pub desk: Report,
}

impl Others {
    /// Where each text goes in the page.
    pub(super) fn parts(&self) -> [(&'static str, String); 3] {
        [
            (BEGIN_FORMS, self.forms.form_text()),
            (BEGIN_GAPS, self.gaps.gap_text()),
            (BEGIN_DESK, self.desk.desk_text()),
        ]
    }

    pub fn text(&self) -> String {
        self.parts().map(|(_, text)| text).join("\n")
    }
}

/// How a table names its first side, and that side's peers: those that are timed, and of these the ones that are counted.
struct Columns {
    own: &'static str,
    timed: [&'static str; 2],
    counted: &'static [&'static str],
}

impl Report {
    /// The tables of a run that sets the form with origins beside the plain form.
    pub(super) fn form_text(&self) -> String {
        let note = " Beside `point`, `copy` and `live` the plain form's call is `ask`.";
        let columns = Columns {
            own: "",
            timed: ["plain", "memset"],
            counted: &["plain"],
        };
        self.targeted("The form with origins", columns, note)
    }

    /// The tables of a run that sets place beside the same in C.
    pub(super) fn gap_text(&self) -> String {
        let columns = Columns {
            own: "",
            timed: ["C", "memset"],
            counted: &["C"],
        };
        self.targeted("place", columns, "")
    }

    /// The table of a run that sets the desk form beside the player's; it has no targets.
    pub(super) fn desk_text(&self) -> String {
        let columns = Columns {
            own: " desk",
            timed: ["player", "shadow"],
            counted: &["player", "shadow"],
        };
        let table = self.peer_table(columns, "");
        format!("### The desk form: time and instructions\n\n{table}")
    }

    fn targeted(&self, title: &str, columns: Columns, note: &str) -> String {
        format!(
            "### {title}: targets\n\n{}\n### {title}: time and instructions\n\n{}",
            self.target_table(),
            self.peer_table(columns, note)
        )
    }

    /// The first side beside its peers. A peer that is not there has empty columns.
    fn peer_table(&self, columns: Columns, note: &str) -> String {
        let Columns {
            own,
            timed,
            counted,
        } = columns;
        let of = |what: &str, peers: &[&str]| -> String {
            let names = peers
                .iter()
                .map(|peer| format!(" | {what} {peer} | of {peer}"));
            names.collect()
        };
        let rule = "---:|".repeat(2 + 2 * (timed.len() + counted.len()));
        let mut table = format!(
            "Nanoseconds a call, median of {} rounds; ratios are the median of the rounds' ratios; instructions a call by callgrind, the loop over the calls included.{note}\n\n\
             | Case | ns{own}{} | instructions{own}{} |\n|---|{rule}\n",
            self.rounds,
            of("ns", &timed),
            of("instructions", counted)
        );
        for (index, case) in self.plan.cases.iter().enumerate() {
            let times = self.times(index, &timed).into_iter();
            let cells: Vec<String> = times
                .chain(self.counted(index, counted))
                .map(cell)
                .collect();
            let _ = writeln!(table, "| {} | {} |", case.title, cells.join(" | "));
        }
        table
    }

    fn side(&self, name: &str) -> Option<usize> {
        self.titles.iter().position(|&title| title == name)
    }

    /// The first side's time, then each peer's and the ratio.
    fn times(&self, case: usize, peers: &[&str]) -> Vec<Option<String>> {
        let mut cells = vec![self.time(case, 0).map(short)];
        for side in peers.iter().map(|peer| self.side(peer)) {
            cells.push(side.and_then(|side| self.time(case, side)).map(short));
            cells.push(side.and_then(|side| self.in_peer(case, side)).map(short));
        }
        cells
    }

    /// The same of the instructions.
    fn counted(&self, case: usize, peers: &[&str]) -> Vec<Option<String>> {
        let own = self.count(case, 0);
        let mut cells = vec![own.map(whole)];
        for side in peers.iter().map(|peer| self.side(peer)) {
            let other = side.and_then(|side| self.count(case, side));
            cells.push(other.map(whole));
            cells.push(own.zip(other).map(|(own, other)| short(own / other)));
        }
        cells
    }
}
