//! A library and the byte-level model beside it, on the same bytes.

use super::{AnyLibrary, Lent};
use crate::call::{Answer, Call};
use crate::map::Map;

/// A library and the model beside it, on the same bytes again and again: large
/// areas are not copied for each call.
pub struct Beside<L: Lent> {
    pub(super) map: Map,
    library: AnyLibrary<L>,
    pub(super) before: L,
    lent: L,
    other: L,
    /// What was changed in the bytes, for the message.
    changed: Vec<(L::Place, u8)>,
}

impl<L: Lent> Beside<L> {
    pub(super) fn new(library: AnyLibrary<L>, map: Map, before: L) -> Self {
        Beside {
            map,
            library,
            lent: before.clone(),
            other: before.clone(),
            before,
            changed: Vec::new(),
        }
    }

    /// One call, held against the byte-level model, and whether it may change bytes.
    /// Where it may not, the model's are not looked at: had it changed one of them,
    /// the next change that is accepted would show it.
    fn made(&mut self, one: L::Call) -> (Answer, bool) {
        let (map, changed) = (self.map, &self.changed);
        let said = (self.library)(map, &mut self.lent, one);
        let model = L::model(map, &mut self.other, one);
        assert_eq!(said, model, "{map:?} {one:?} {changed:?}");
        if said.number != 0 || L::alters_nothing(one) {
            let same = self.lent == self.before;
            assert!(same, "bytes changed: {map:?} {one:?} {changed:?}");
            return (said, false);
        }
        let same = self.lent == self.other;
        assert!(same, "bytes differ: {map:?} {one:?} {changed:?}");
        (said, true)
    }

    /// One call, after which the bytes are what they were.
    pub(super) fn call(&mut self, one: L::Call) -> Answer {
        let (said, may_change) = self.made(one);
        if may_change {
            self.lent.restore(&self.before);
            self.other.restore(&self.before);
        }
        said
    }

    /// What is done after a call, on the bytes that it leaves; then they are what they
    /// were before it.
    pub(super) fn after<T>(&mut self, one: L::Call, then: impl FnOnce(&mut Self) -> T) -> T {
        let kept = self.before.clone();
        self.made(one);
        self.before.restore(&self.lent);
        let done = then(self);
        for state in [&mut self.before, &mut self.lent, &mut self.other] {
            state.restore(&kept);
        }
        done
    }

    pub(super) fn plain(&mut self, one: Call) -> Answer {
        self.call(L::plain(one))
    }

    /// A byte as it is in all three.
    pub(super) fn byte(&mut self, place: impl Into<L::Place>) -> u8 {
        *self.before.byte(place.into())
    }

    fn put(&mut self, place: L::Place, value: u8) {
        for state in [&mut self.before, &mut self.lent, &mut self.other] {
            *state.byte(place) = value;
        }
    }

    /// What is done with another value in this place, which then has its own again.
    pub(super) fn with<T>(
        &mut self,
        place: impl Into<L::Place>,
        value: u8,
        then: impl FnOnce(&mut Self) -> T,
    ) -> T {
        self.with_all(&[(place.into(), value)], then)
    }

    /// The same with other values in several places, each of them once.
    pub(super) fn with_all<T>(
        &mut self,
        all: &[(L::Place, u8)],
        then: impl FnOnce(&mut Self) -> T,
    ) -> T {
        let own: Vec<u8> = all.iter().map(|&(place, _)| self.byte(place)).collect();
        for &(place, value) in all {
            self.put(place, value);
        }
        self.changed.extend(all);
        let done = then(self);
        self.changed.truncate(self.changed.len() - all.len());
        for (&(place, _), byte) in all.iter().zip(own) {
            self.put(place, byte);
        }
        done
    }
}

/// Which numbers the calls of a test gave, and how often.
#[derive(Debug, Default)]
pub(super) struct Met([u32; 16]);

impl Met {
    pub(super) fn add(&mut self, said: Answer) {
        self.0[said.number as usize] += 1;
    }

    pub(super) fn at_least(&self, least: u32, numbers: &[usize]) {
        for &number in numbers {
            assert!(self.0[number] >= least, "{number}: {self:?}");
        }
    }
}
