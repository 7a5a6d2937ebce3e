//! The byte-level model in areas of a few thousand bytes and of the largest sizes, by
//! the clauses of damage and beside the plain list; and that wrong ones are found out.

mod common;

use std::collections::{BTreeMap, BTreeSet};
use std::panic::catch_unwind;

use common::clauses::clauses;
use common::{on, view};
use model::block::Block;
use model::call::{refusal, Answer, Call};
use model::decode::decode;
use model::form::{Form, DESK, FORMS};
use model::generate::layouts::{blocks, map_at, Filling, VARIANTS};
use model::generate::shadows::change_there;
use model::generate::telling::{addresses, places, segments, stack_positions, told, Place};
use model::generate::Scale;
use model::held::Library;
use model::image::{image, Shadows};
use model::map::Map;
use model::plain::{List, PlainList};
use model::random::Random;
use model::reading::{Reading, View};

/// What an address reads as, by the model or by a wrong one.
type Reader = fn(View, u32) -> Reading;

const SIZES: [Scale; 2] = [Scale::Middle, Scale::Full];

/// The bytes that tell show every code, every kind of segment, and numbers on both
/// sides of 2 to the 8 and, at full size, to the 16.
#[test]
fn the_bytes_that_tell() {
    for form in FORMS {
        for scale in SIZES {
            let map = map_at(form, scale, 2);
            let blocks = blocks(map, Filling::Mixed, 2);
            let bytes = image(map, &blocks);
            let stack = stack_positions(map, &blocks).into_iter();
            let codes: BTreeSet<u8> = stack.map(|at| bytes.primary[at] >> 2).collect();
            assert!(codes.into_iter().eq((0..=36).chain(48..=62)), "{map:?}");
            let mut kinds = BTreeSet::new();
            let mut longest = 0;
            for at in segments(map, &blocks) {
                let of = |part: usize| {
                    bytes.heap[at + part] as u32 + 256 * bytes.heap[at + part + 1] as u32
                };
                let number = of(0) + 65_536 * u32::from(bytes.heap[at + 2]);
                longest = longest.max(number);
                kinds.insert((number > 0, number > 1, number > 256, of(form.width) > 0));
            }
            // Free, header, first segment, others, and those whose number has two bytes,
            // with written bits or without.
            assert!(kinds.len() >= 6, "{map:?} {kinds:?}");
            assert_eq!(longest > 65_536, scale == Scale::Full, "{map:?}");
            for end in [0, map.heap_size - 1] {
                assert!(places(map, &blocks).contains(&Place::Heap(end as usize)));
            }
        }
    }
}

/// How often each clause held, at the addresses that changed bytes tell of.
fn clauses_met(form: Form, scale: Scale, reader: Reader) -> BTreeMap<&'static str, u32> {
    let mut met: BTreeMap<&str, u32> = BTreeMap::new();
    for variant in 0..VARIANTS {
        let map = map_at(form, scale, variant);
        let blocks = blocks(map, Filling::Mixed, variant);
        let (right, places) = (image(map, &blocks), places(map, &blocks));
        let mut random = Random::new(variant.into());
        for _ in 0..1500 {
            let mut bytes = right.clone();
            let mut near = Vec::new();
            for _ in 0..1 + random.below(3) {
                let place = random.pick(&places);
                change_there(&mut random, form, &mut bytes, place);
                near.extend(told(map, &blocks, place));
            }
            for address in near {
                let damaged = reader(view(map, &bytes), address) == Reading::Damaged;
                let held = clauses(map, &bytes, address);
                assert_eq!(damaged, !held.is_empty(), "{map:?} {address} {held:?}");
                for clause in held {
                    *met.entry(clause).or_default() += 1;
                }
            }
        }
    }
    met
}

#[test]
fn readings_are_damaged_exactly_when_a_clause_holds() {
    for form in FORMS {
        for scale in SIZES {
            let met = clauses_met(form, scale, |view, address| view.read(address));
            let heap = if form == DESK { 7 } else { 5 };
            assert_eq!(met.len(), heap + 10, "{form:?} {scale:?} {met:?}");
        }
    }
}

/// Whether this is an area in which a mistake is to show: of a few thousand bytes, or
/// of a large size.
fn shows<const FULL: bool>(map: Map) -> bool {
    map.heap_size > 4096 && FULL == (map.heap_size > 16_384)
}

/// Damage reads as no block.
fn no_damage<const FULL: bool>(view: View, address: u32) -> Reading {
    match view.read(address) {
        Reading::Damaged if shows::<FULL>(view.map) => Reading::NoBlock,
        read => read,
    }
}

/// A block that does not fit is no damage.
fn unfitting<const FULL: bool>(view: View, address: u32) -> Reading {
    let mut held = Vec::new();
    if shows::<FULL>(view.map) {
        let [heap, primary, secondary] = [view.heap, view.primary, view.secondary];
        let bytes = Shadows {
            heap: heap.to_vec(),
            primary: primary.to_vec(),
            secondary: secondary.to_vec(),
        };
        held = clauses(view.map, &bytes, address);
    }
    match held[..] {
        ["heap: base + L passes the end"] | ["stack: the block does not fit"] => Reading::NoBlock,
        _ => view.read(address),
    }
}

#[test]
fn wrong_readings_are_found_out() {
    let wrong: [[Reader; 2]; 2] = [
        [no_damage::<false>, no_damage::<true>],
        [unfitting::<false>, unfitting::<true>],
    ];
    for readers in wrong {
        for (reader, scale) in readers.into_iter().zip(SIZES) {
            for form in FORMS {
                let taken = catch_unwind(|| clauses_met(form, scale, reader)).is_ok();
                assert!(!taken, "{form:?} {scale:?}");
            }
        }
    }
}

/// One call that must leave the bytes alone.
fn look(library: Library, map: Map, bytes: &Shadows, call: Call) -> Answer {
    let mut shadows = bytes.clone();
    let answer = library(map, &mut shadows, call);
    assert!(shadows == *bytes, "{call:?} changed bytes");
    answer
}

/// The list that these blocks are recorded in, and marked.
fn recorded(map: Map, blocks: &[Block]) -> PlainList {
    let mut list = PlainList::new(map);
    for block in blocks {
        let (base, length) = (block.base, block.length);
        let begun = match block.literal {
            true => Call::RecordLiteral { base, length },
            false => Call::Record { base, length },
        };
        assert_eq!(list.step(begun).number, 0);
        // Runs of marks, for each byte alone would take too long.
        let mut address = base;
        for run in block.written.chunk_by(bool::eq) {
            let n = run.len() as u32;
            if run[0] && !block.literal {
                assert_eq!(list.step(Call::Written { address, n }).number, 0);
            }
            address += n;
        }
    }
    list
}

/// Audit says what the list says whose image the bytes are, or else 8; and so does
/// each address that tells.
fn audit_is_honest(library: Library, map: Map, bytes: &Shadows) -> bool {
    let said = look(library, map, bytes, Call::Audit);
    let Some(found) = decode(view(map, bytes)) else {
        assert_eq!(said.number, refusal::DAMAGED);
        return false;
    };
    let mut list = recorded(map, &found);
    assert_eq!(list.blocks(), found);
    assert!(image(map, list.blocks()) == *bytes);
    assert_eq!(list.step(Call::Audit), said);
    for address in addresses(map, &found) {
        let call = Call::Ask { address };
        assert_eq!(list.step(call), look(library, map, bytes, call), "{call:?}");
    }
    true
}

/// Bytes that tell, each with one bit the other way.
fn changed_bits(form: Form, scale: Scale, library: Library) {
    let mut accepted = 0;
    for filling in [Filling::Whole, Filling::Mixed] {
        let map = map_at(form, scale, 1);
        let blocks = blocks(map, filling, 1);
        let mut bytes = image(map, &blocks);
        let step = if scale == Scale::Full { 13 } else { 3 };
        for (nth, place) in places(map, &blocks).into_iter().enumerate().step_by(step) {
            let bit = 1 << (nth / step % 8);
            *place.of(&mut bytes) ^= bit;
            accepted += u32::from(audit_is_honest(library, map, &bytes));
            *place.of(&mut bytes) ^= bit;
        }
    }
    assert!(accepted > 3, "{accepted}");
}

#[test]
fn audit_and_readings_of_changed_bits() {
    for form in FORMS {
        for scale in SIZES {
            changed_bits(form, scale, on);
        }
    }
}

/// Audit takes damage for an image of nothing, or leaves a byte out of its count.
fn audits_nothing<const FULL: bool>(map: Map, lent: &mut Shadows, call: Call) -> Answer {
    match on(map, lent, call) {
        said if said.number == 8 && shows::<FULL>(map) => Ok([0; 4]).into(),
        said => said,
    }
}

fn counts_one_less<const FULL: bool>(map: Map, lent: &mut Shadows, call: Call) -> Answer {
    let mut said = on(map, lent, call);
    if call == Call::Audit && said.number == 0 && shows::<FULL>(map) {
        said.fields[3] -= 1;
    }
    said
}

#[test]
fn wrong_audits_are_found_out() {
    let wrong: [[Library; 2]; 2] = [
        [audits_nothing::<false>, audits_nothing::<true>],
        [counts_one_less::<false>, counts_one_less::<true>],
    ];
    for libraries in wrong {
        for (library, scale) in libraries.into_iter().zip(SIZES) {
            for form in FORMS {
                let taken = catch_unwind(|| changed_bits(form, scale, library)).is_ok();
                assert!(!taken, "{form:?} {scale:?}");
            }
        }
    }
}
