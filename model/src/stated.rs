//! The samples of tests/data, which tests/data/README.md describes: calls and runs
//! with what they come to, told to the last byte.
//!
//! The files that were there first are read by [`crate::notation`] too, which
//! takes what is stated for a part of the bytes.
//!
//! - [`notation`], [`origins`]: the lines, without origins and with them.
//! - [`answered`]: right-hand sides as the models give them.

mod answered;
pub mod notation;
pub mod origins;

use std::collections::{BTreeMap, BTreeSet};
use std::fmt;
use std::fs;
use std::path::{Path, PathBuf};

use crate::call::Answer;
use crate::held::Held;
use crate::map::Map;
use crate::origins::bytes;
use crate::origins::call::OriginsCall;
use crate::origins::cells::State;
use notation::Runs;

pub use answered::answered;

/// A sample, and where it stands.
#[derive(Clone, Debug)]
pub struct Sample {
    pub file: String,
    /// The remark before it.
    pub remark: String,
    pub line: String,
    pub told: Told,
}

/// What a line tells.
#[derive(Clone, Debug)]
pub enum Told {
    Plain(notation::Example),
    Origins(origins::Example),
    /// That its left-hand side is no sample: the right-hand side ends with `?`.
    NoSample,
}

impl fmt::Display for Sample {
    fn fmt(&self, out: &mut fmt::Formatter) -> fmt::Result {
        write!(out, "{}: {}", self.file, self.line)
    }
}

/// The folder of the samples, of the recorded runs and of Table 1.
pub fn folder() -> PathBuf {
    Path::new(env!("CARGO_MANIFEST_DIR")).join("tests/data")
}

/// How the name of a file of samples ends.
const SAMPLES: &str = "txt";

/// How the names of the folder's other files end.
const OTHERS: [&str; 4] = ["calls", "expected", "c", "md"];

/// What holds no samples though its name ends like theirs.
const TABLE_1: &str = "table1.txt";

/// The samples that other files state a part of: there these lines are left out.
const WHOLE: &str = "whole.txt";

/// The samples of every file.
pub fn all() -> Vec<Sample> {
    all_of(&folder()).unwrap_or_else(|what| panic!("{what}"))
}

/// The samples of every file of a folder, or what is wrong there: a file of no
/// known kind, a file without samples, a line that is neither remark nor sample,
/// a left-hand side of which two lines tell different things.
pub fn all_of(folder: &Path) -> Result<Vec<Sample>, String> {
    let mut names = Vec::new();
    for entry in fs::read_dir(folder).map_err(|error| error.to_string())? {
        let name = entry.map_err(|error| error.to_string())?.file_name();
        names.push(name.to_string_lossy().into_owned());
    }
    names.sort();
    let mut all: Vec<Sample> = Vec::new();
    for name in names {
        match name.rsplit_once('.') {
            _ if name == TABLE_1 => {}
            Some((_, SAMPLES)) => all.extend(of_file(folder, &name)?),
            Some((_, end)) if OTHERS.contains(&end) => {}
            _ => return Err(format!("{name}: neither samples nor anything known")),
        }
    }
    let whole = all.iter().filter(|sample| sample.file == WHOLE);
    let whole: BTreeSet<String> = whole.map(|sample| left(&sample.line)).collect();
    all.retain(|sample| sample.file == WHOLE || !whole.contains(&left(&sample.line)));
    let mut sides = BTreeMap::new();
    for sample in &all {
        let first = sides.entry(left(&sample.line)).or_insert(sample);
        if !first.told.same(&sample.told) {
            return Err(format!("{sample}: {} tells something else", first.file));
        }
    }
    Ok(all)
}

fn of_file(folder: &Path, name: &str) -> Result<Vec<Sample>, String> {
    let text = fs::read_to_string(folder.join(name));
    let text = text.map_err(|error| format!("{name}: {error}"))?;
    let mut remark = "";
    let mut found = Vec::new();
    for line in text.lines() {
        if let Some(words) = line.strip_prefix('#') {
            remark = words.trim();
        } else if !line.is_empty() {
            found.push(Sample {
                file: name.to_owned(),
                remark: remark.to_owned(),
                line: line.to_owned(),
                told: told(line).ok_or(format!("{name}: neither remark nor sample: {line}"))?,
            });
        }
    }
    match found.is_empty() {
        true => Err(format!("{name}: no sample")),
        false => Ok(found),
    }
}

/// What a line tells, if it is a sample.
pub fn told(line: &str) -> Option<Told> {
    let (_, right) = line.split_once("=>")?;
    if right.ends_with('?') {
        return Some(Told::NoSample);
    }
    let plain = notation::example(line).map(Told::Plain);
    plain.or_else(|| origins::example(line).map(Told::Origins))
}

/// The left-hand side of a line, by whichever document it was stated.
pub fn left(line: &str) -> String {
    let left = line.split("=>").next().unwrap_or(line);
    left.replacen("[0]:", ":", 1).trim_end().to_owned()
}

impl Told {
    /// Whether the same is told, in these words or in others.
    fn same(&self, other: &Told) -> bool {
        use {notation::Example as Plain, origins::Example as Origins};
        match (self, other) {
            (Told::NoSample, Told::NoSample) => true,
            (Told::Plain(Plain::Run(one)), Told::Plain(Plain::Run(other)))
            | (Told::Origins(Origins::Run(one)), Told::Origins(Origins::Run(other))) => {
                one == other
            }
            (Told::Plain(Plain::On(one)), Told::Plain(Plain::On(other))) => {
                (one.answer, one.after()) == (other.answer, other.after())
            }
            (Told::Origins(Origins::On(one)), Told::Origins(Origins::On(other))) => {
                (one.answer, one.after()) == (other.answer, other.after())
            }
            _ => false,
        }
    }
}

impl Sample {
    /// The runs of the calls program with or without origins.
    pub fn runs(&self, origins: bool) -> Option<&Runs> {
        match &self.told {
            Told::Plain(notation::Example::Run(runs)) if !origins => Some(runs),
            Told::Origins(origins::Example::Run(runs)) if origins => Some(runs),
            _ => None,
        }
    }
}

impl Held {
    /// Every call of this form that is told: number, fields and every byte are
    /// the stated ones and the model's. How many there are is returned.
    pub fn every_sample(&self) -> usize {
        let mut samples = 0;
        for sample in all() {
            let Told::Plain(notation::Example::On(told)) = &sample.told else {
                continue;
            };
            if told.map.form != self.form {
                continue;
            }
            let mut lent = told.shadows.clone();
            let said = self.agreed(told.map, &mut lent, told.call);
            assert_eq!(said, told.answer, "{sample}");
            assert_eq!(lent, told.after(), "{sample}");
            samples += 1;
        }
        samples
    }
}

/// The same of a library of the form with origins.
pub fn every_origins_sample(library: fn(Map, &mut State, OriginsCall) -> Answer) -> usize {
    let mut samples = 0;
    for sample in all() {
        let Told::Origins(origins::Example::On(told)) = &sample.told else {
            continue;
        };
        let (mut lent, mut model) = (told.state.clone(), told.state.clone());
        let said = library(told.map, &mut lent, told.call);
        let by_model = bytes::call(told.map, &mut model, told.call);
        assert_eq!((said, by_model), (told.answer, told.answer), "{sample}");
        let after = told.after();
        assert_eq!(lent, after, "{sample}");
        assert_eq!(model, after, "{sample}");
        samples += 1;
    }
    samples
}
