//! The tables of a run, as text in Markdown.

use std::fmt::Write;
use std::fs;
use std::path::Path;

use crate::case::Plan;
use crate::count::Counts;
use crate::measure::{median, ratio, Row};
use crate::plot;
use crate::targets::{Target, INSTRUCTIONS};

mod others;
pub use others::Others;

const PAGE: &str = "BENCHMARKS.md";
const PLOT: &str = "benchmarks.svg";
const BEGIN: &str = "<!-- begin: written by ./bench.sh --docs -->";
const BEGIN_MARKS: &str = "<!-- begin: marks, written by ./bench.sh --before COMMIT --docs -->";
const END: &str = "<!-- end -->";

pub struct Report {
    pub plan: Plan,
    /// The sides in their order; the library is the first.
    pub titles: Vec<&'static str>,
    pub rows: Vec<Row>,
    pub counts: Option<Counts>,
    pub rounds: usize,
    pub versions: String,
}

/// Three digits, and no more decimals than that.
fn short(value: f64) -> String {
    match value {
        v if v >= 100.0 => format!("{v:.0}"),
        v if v >= 10.0 => format!("{v:.1}"),
        v if v >= 0.1 => format!("{v:.2}"),
        v => format!("{v:.3}"),
    }
}

fn whole(value: f64) -> String {
    format!("{value:.0}")
}

fn cell(value: Option<String>) -> String {
    value.unwrap_or("–".into())
}

/// The page with another text between a mark and the next end.
fn replaced(page: &str, begin: &str, text: &str) -> String {
    let (head, rest) = page.split_once(begin).expect("the page has the first mark");
    let (_, tail) = rest.split_once(END).expect("the page has the last mark");
    format!("{head}{begin}\n\n{}\n{END}{tail}", text.trim())
}

impl Report {
    /// Median nanoseconds a call of a case on a side.
    pub fn time(&self, case: usize, side: usize) -> Option<f64> {
        self.rows[case][side].clone().map(median)
    }

    /// The library's time in a peer's.
    fn in_peer(&self, case: usize, side: usize) -> Option<f64> {
        let own = self.rows[case][0].as_ref()?;
        Some(ratio(own, self.rows[case][side].as_ref()?))
    }

    /// Instructions a call of a case on a side.
    fn count(&self, case: usize, side: usize) -> Option<f64> {
        self.counts.as_ref()?[case][side]
    }

    /// The side that is the earlier build, where one takes part.
    fn earlier(&self) -> Option<usize> {
        self.titles.iter().position(|&title| title == "before")
    }

    pub fn text(&self) -> String {
        let mut text = self.versions.clone();
        let _ = writeln!(text, "\n### Targets\n\n{}", self.target_table());
        let _ = writeln!(
            text,
            "### Time\n\nNanoseconds a call, median of {} rounds; in brackets the library's time as so many times the peer's, median of the rounds' ratios.\n\n{}",
            self.rounds,
            self.time_table()
        );
        let _ = writeln!(text, "### Instructions\n\n{}", self.count_table());
        if let Some(earlier) = self.earlier() {
            let _ = writeln!(
                text,
                "### Marks before and after\n\n{}",
                self.mark_table(earlier)
            );
        }
        text
    }

    fn header(&self, skip: &str) -> String {
        let titles = self.titles.iter().filter(|&&title| title != skip);
        let names: Vec<&str> = titles.copied().collect();
        let line = "---:|".repeat(names.len());
        format!("| Case | {} |\n|---|{line}\n", names.join(" | "))
    }

    fn time_table(&self) -> String {
        let mut table = self.header("");
        for (index, case) in self.plan.cases.iter().enumerate() {
            let _ = write!(table, "| {} |", case.title);
            for side in 0..self.titles.len() {
                let cell = match (self.time(index, side), self.in_peer(index, side)) {
                    (Some(time), Some(ratio)) if side > 0 => {
                        format!("{} ({})", short(time), short(ratio))
                    }
                    (Some(time), _) => short(time),
                    _ => cell(None),
                };
                let _ = write!(table, " {cell} |");
            }
            table.push('\n');
        }
        table
    }

    fn count_table(&self) -> String {
        let Some(counts) = &self.counts else {
            return "Not counted: valgrind is not there (Debian: `apt-get install valgrind`).\n"
                .into();
        };
        let mut table = String::from("By callgrind, which does not depend on the machine's load, the loop over the calls included. Of a memset it says little and has no column.\n\n");
        table += &self.header("memset");
        for (case, row) in self.plan.cases.iter().zip(counts) {
            let _ = write!(table, "| {} |", case.title);
            for (title, count) in self.titles.iter().zip(row) {
                if *title != "memset" {
                    let _ = write!(table, " {} |", cell(count.map(whole)));
                }
            }
            table.push('\n');
        }
        table
    }

    /// A target's limit in words, and what the library reaches.
    fn reached(&self, target: &Target) -> (String, Option<f64>) {
        let Target { case, peer, most } = *target;
        if peer == INSTRUCTIONS {
            return (format!("{most} {peer}"), self.count(case, 0));
        }
        let side = self.titles.iter().position(|&title| title == peer);
        let reached = side.and_then(|side| self.in_peer(case, side));
        (format!("{most} × {peer}"), reached)
    }

    fn target_table(&self) -> String {
        let mut table = String::from("| Case | at most | is | |\n|---|---:|---:|---|\n");
        for (index, case) in self.plan.cases.iter().enumerate() {
            for target in (self.plan.targets)(index, case) {
                let (limit, reached) = self.reached(&target);
                let (value, verdict) = match reached {
                    Some(value) if value <= target.most => (short(value), "met"),
                    Some(value) => (short(value), "**missed**"),
                    None => (cell(None), "peer not there"),
                };
                let _ = writeln!(table, "| {} | {limit} | {value} | {verdict} |", case.title);
            }
        }
        table
    }

    /// The cases of marks, this build beside the earlier one.
    fn mark_table(&self, earlier: usize) -> String {
        let mut table = format!(
            "Both builds are linked into one program and measured in the same {} rounds; `after` is the build of this tree. Nanoseconds a call are the median of the rounds, their ratio is the median of the rounds' ratios; instructions a call by callgrind, the loop over the calls included.\n\n\
             | Case | ns before | ns after | after / before | instructions before | instructions after | after / before |\n\
             |---|---:|---:|---:|---:|---:|---:|\n",
            self.rounds
        );
        for (index, case) in self.plan.cases.iter().enumerate() {
            if case.of_marks() {
                let (before, after) = (self.count(index, earlier), self.count(index, 0));
                let cells = [
                    self.time(index, earlier).map(short),
                    self.time(index, 0).map(short),
                    self.in_peer(index, earlier).map(short),
                    before.map(whole),
                    after.map(whole),
                    after
                        .zip(before)
                        .map(|(after, before)| short(after / before)),
                ];
                let _ = writeln!(
                    table,
                    "| {} | {} |",
                    case.title,
                    cells.map(cell).join(" | ")
                );
            }
        }
        table
    }

    /// The tables, with those of the other runs, and the plot into a folder.
    pub fn write(&self, folder: &Path, others: &Others) {
        let text = format!("{}\n{}", self.text(), others.text());
        fs::write(folder.join("tables.md"), text).expect("the tables are written");
        fs::write(folder.join(PLOT), plot::plot(self)).expect("the plot is written");
    }

    /// A run with an earlier build writes the page's table of marks, any other run all other tables, and the plot beside it.
    pub fn write_docs(&self, docs: &Path, others: &Others) {
        let page = docs.join(PAGE);
        let old = fs::read_to_string(&page).expect("the page is there");
        fs::write(&page, self.page(&old, others)).expect("the page is written");
        if self.earlier().is_none() {
            fs::write(docs.join(PLOT), plot::plot(self)).expect("the plot is written");
        }
    }

    fn page(&self, old: &str, others: &Others) -> String {
        match self.earlier() {
            Some(earlier) => {
                let text = format!("{}\n{}", self.versions, self.mark_table(earlier));
                replaced(old, BEGIN_MARKS, &text)
            }
            None => {
                let page = replaced(old, BEGIN, &self.text());
                let put =
                    |page: String, (begin, text): (&str, String)| replaced(&page, begin, &text);
                others.parts().into_iter().fold(page, put)
            }
        }
    }
}

#[cfg(test)]
mod tests;
