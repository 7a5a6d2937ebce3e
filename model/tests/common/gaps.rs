//! Gaps and places by their definition alone, with no regard to time.

use super::on;
use model::call::{refusal, Answer, Call, Outcome};
use model::form::Form;
use model::image::Shadows;
use model::map::Map;

/// A gap: its first segment and how many there are.
pub type Gap = (usize, usize);

/// Every run of zero segments that no zero segment adjoins, by trying them all.
pub fn gaps(form: Form, heap: &[u8]) -> Vec<Gap> {
    let segments = heap.chunks(form.bytes());
    let zero: Vec<bool> = segments.map(|s| s.iter().max() == Some(&0)).collect();
    let end = zero.len();
    let mut found = Vec::new();
    for i in 0..end {
        for n in 1..=end - i {
            let before = i > 0 && zero[i - 1];
            let after = i + n < end && zero[i + n];
            if zero[i..i + n].iter().all(|&zero| zero) && !before && !after {
                found.push((i, n));
            }
        }
    }
    found
}

/// What the request says, by comparing each gap that fits with all others.
pub fn defined(map: Map, heap: &[u8], length: u32, budget: u32) -> Answer {
    let outcome = || -> Outcome {
        if length == 0 {
            return Err(refusal::ZERO);
        }
        let g = map.form.segment;
        let mut looked_at = gaps(map.form, heap);
        looked_at.truncate(budget as usize);
        let segments = u64::from(length / g) + u64::from(!length.is_multiple_of(g));
        let fits = |gap: &&Gap| gap.1 as u64 > segments;
        let fitting: Vec<&Gap> = looked_at.iter().filter(fits).collect();
        let no_worse = |a: &Gap, b: &Gap| a.1 < b.1 || (a.1 == b.1 && a.0 <= b.0);
        let chosen = |a: &&&Gap| fitting.iter().all(|b| no_worse(a, b));
        let gap = fitting.iter().find(chosen).ok_or(refusal::NO_GAP)?;
        let base = map.heap_start + g * gap.0 as u32 + g;
        let surplus = g * (gap.1 as u32 - 1 - segments as u32);
        Ok([base, looked_at.len() as u32, surplus, 0])
    };
    outcome().into()
}

/// A place on any bytes, of which none may change.
pub fn place(map: Map, bytes: &Shadows, length: u32, budget: u32) -> Answer {
    let mut shadows = bytes.clone();
    let answer = on(map, &mut shadows, Call::Place { length, budget });
    assert!(shadows == *bytes, "{length} {budget}: bytes changed");
    answer
}
