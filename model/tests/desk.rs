//! The desk simulator (S-8), worked by hand: the example of document 000, the
//! edges of segments, bases and maps, and numbers of 2 to the 32 or more.

mod common;

use common::{addresses, on, step, view};
use model::call::{refusal, Answer, Call};
use model::decode::decode;
use model::form::DESK;
use model::image::{image, Shadows};
use model::map::Map;
use model::plain::{List, PlainList};
use model::plain_btree::PlainTree;
use model::reading::Reading;

/// A desk's map whose first block can begin at 0x100, as in document 000.
const MAP: Map = Map::new(0xf0, 128, 8, 32).of(DESK);

/// The three models side by side.
struct Models {
    map: Map,
    list: PlainList,
    tree: PlainTree,
    bytes: Shadows,
}

impl Models {
    fn new(map: Map) -> Self {
        Models {
            map,
            list: PlainList::new(map),
            tree: PlainTree::new(map),
            bytes: Shadows::cleared(map),
        }
    }

    fn step(&mut self, call: Call) -> Answer {
        let said = on(self.map, &mut self.bytes, call);
        assert_eq!(self.list.step(call), said, "{call:?}");
        assert_eq!(self.tree.step(call), said, "{call:?}");
        assert_eq!(image(self.map, self.list.blocks()), self.bytes, "{call:?}");
        said
    }

    fn ask(&mut self, address: u32) -> Answer {
        self.step(Call::Ask { address })
    }

    fn record(&mut self, base: u32, length: u32) -> u32 {
        self.step(Call::Record { base, length }).number
    }
}

/// Sixteen bytes: those given from a place on, and zeros.
fn segment(parts: [(usize, &[u8]); 2]) -> [u8; 16] {
    let mut bytes = [0; 16];
    for (at, part) in parts {
        bytes[at..at + part.len()].copy_from_slice(part);
    }
    bytes
}

#[test]
fn the_example_of_document_000() {
    let mut models = Models::new(MAP);
    assert_eq!(models.record(0x100, 40), 0);
    assert_eq!(models.ask(0x126), Ok([0x100, 40, 0x26, 0]).into());
    assert_eq!(models.ask(0x127), Ok([0x100, 40, 0x27, 0]).into());
    for address in (0xf0..0x100).chain(0x128..0x170) {
        assert_eq!(models.ask(address).number, 7, "{address:#x}");
    }
    let (address, n) = (0x126, 1);
    assert_eq!(models.step(Call::Written { address, n }).number, 0);
    assert_eq!(models.ask(0x126), Ok([0x100, 40, 0x26, 1]).into());
    // The header, three segments with bit 6 of the last, and what follows.
    let expected = [
        segment([(0, &[]), (8, &[40])]),
        segment([(0, &[1]), (8, &[0, 0])]),
        segment([(0, &[17]), (8, &[0, 0])]),
        segment([(0, &[33]), (8, &[64, 0])]),
        [0; 16],
        [0; 16],
        [0; 16],
        [0; 16],
    ];
    assert_eq!(models.bytes.heap, expected.concat());
}

#[test]
fn sixteen_bytes_take_one_segment_and_seventeen_two() {
    for (length, segments) in [(1, 1), (16, 1), (17, 2), (32, 2), (33, 3), (48, 3)] {
        let mut models = Models::new(MAP);
        assert_eq!(models.record(0x100, length), 0);
        let heap = models.bytes.heap.chunks(16);
        let taken = heap.filter(|segment| **segment != [0; 16]).count();
        assert_eq!(taken, 1 + segments, "{length}");
        // The next block's header follows at once, and no sooner.
        let next = 0x100 + 16 * segments as u32;
        assert_eq!(models.record(next, 1), 6, "{length}");
        assert_eq!(models.record(next + 16, 1), 0, "{length}");
    }
}

/// Each address of the heap as a base: 4 where the header does not fit, else 5
/// unless it is a multiple of 16, also where it is one of 8.
#[test]
fn every_base() {
    for base in MAP.heap_start..MAP.heap_start + MAP.heap_size {
        let expected = match base {
            ..0x100 => 4,
            _ if base % 16 == 0 => 0,
            _ => 5,
        };
        for record in [
            Call::Record { base, length: 1 },
            Call::RecordWritten { base, length: 1 },
        ] {
            assert_eq!(Models::new(MAP).step(record).number, expected, "{base:#x}");
        }
        let literal = Call::RecordLiteral { base, length: 1 };
        assert_eq!(Models::new(MAP).step(literal).number, 4, "{base:#x}");
    }
}

/// The last segment is the last block's, and one byte further is outside.
#[test]
fn the_last_segments() {
    for (base, length, number) in [(0x160, 16, 0), (0x160, 17, 4), (0x150, 32, 0)] {
        let mut models = Models::new(MAP);
        assert_eq!(models.record(base, length), number, "{base:#x} {length}");
    }
    let mut models = Models::new(MAP);
    assert_eq!(models.record(0x100, 80), 0);
    // Two segments are left: the last free one, and room for its header.
    let (length, budget) = (16, 9);
    let said = models.step(Call::Place { length, budget });
    assert_eq!(said, Ok([0x160, 1, 0, 0]).into());
    assert_eq!(models.record(0x160, 16), 0);
    let said = models.step(Call::Place { length, budget });
    assert_eq!(said, Err(refusal::NO_GAP).into());
    assert_eq!(
        models.step(Call::Audit).fields,
        [2, 0, 96, 0],
        "the heap is full"
    );
}

/// The four numbers of a map.
type Four = (u32, u32, u32, u32);

const GOOD: [Four; 7] = [
    (16, 32, 48, 16),
    (16, 131_072, 131_088, 65_536),
    (4_294_967_248, 32, 8, 16),
    // The stack keeps its multiples of 8.
    (64, 32, 8, 24),
    (64, 32, 24, 40),
    (32, 32, 8, 24),
    (16, 32, 4_294_967_272, 16),
];

/// The first so many of these are good maps of the player.
const OF_THE_PLAYER: usize = 7;
const BAD: [Four; 17] = [
    // Multiples of 8, of which the player's maps are good.
    (8, 32, 64, 16),
    (24, 32, 64, 16),
    (16, 40, 64, 16),
    (16, 24, 64, 16),
    (16, 16, 64, 16),
    (16, 131_064, 262_144, 16),
    (4_294_967_240, 32, 8, 16),
    // No map of the player either.
    (0, 32, 64, 16),
    (16, 0, 64, 16),
    (16, 131_088, 262_144, 16),
    (4_294_967_264, 32, 8, 16),
    (4_294_967_280, 32, 8, 16),
    (16, 32, 44, 16),
    (16, 32, 40, 16),
    (16, 32, 64, 8),
    (16, 32, 64, 20),
    (16, 32, 64, 65_544),
];

#[test]
fn maps_of_the_desk() {
    let of = |(a, b, c, d): Four| Map::new(a, b, c, d);
    for map in GOOD.map(of) {
        assert!(map.good() && map.of(DESK).good(), "{map:?}");
    }
    for (index, map) in BAD.map(of).into_iter().enumerate() {
        assert_eq!(map.good(), index < OF_THE_PLAYER, "{map:?}");
        let map = map.of(DESK);
        assert!(!map.good(), "{map:?}");
        for call in [Call::Clear, Call::Audit, Call::Free { base: 0 }] {
            let lent = Shadows::cleared(map);
            let refused = (Err(refusal::BAD_MAP).into(), lent.clone());
            assert_eq!(step(map, &lent, call), refused, "{map:?}");
        }
    }
}

/// The numbers of an image: their positions, and the addresses that they tell of.
fn numbers(models: &Models) -> Vec<(usize, Vec<u32>)> {
    let mut found = Vec::new();
    for block in models.list.blocks() {
        let first = (block.base - models.map.heap_start) as usize;
        let all: Vec<u32> = (block.base..block.base + block.length).collect();
        found.push((first - 8, all.clone()));
        for (index, addresses) in all.chunks(16).enumerate() {
            found.push((first + 16 * index, addresses.to_vec()));
        }
    }
    found
}

/// Every right number, of a segment or of a length, with something in its upper
/// four bytes: the addresses that it tells of read damaged, and no other changes.
#[test]
fn every_number_of_2_to_the_32_or_more() {
    let mut models = Models::new(MAP);
    for (base, length) in [(0x100, 40), (0x140, 16), (0x160, 9)] {
        assert_eq!(models.record(base, length), 0);
    }
    let numbers = numbers(&models);
    assert_eq!(numbers.len(), 3 + 5);
    for (position, told) in numbers {
        for upper in 4..8 {
            for value in [1, 2, 128, 255] {
                let mut changed = models.bytes.clone();
                changed.heap[position + upper] = value;
                raised(&models, &changed, &told);
            }
        }
    }
}

fn raised(models: &Models, changed: &Shadows, told: &[u32]) {
    let map = models.map;
    assert_eq!(decode(view(map, changed)), None);
    for address in addresses(map) {
        let said = view(map, changed).read(address);
        match told.contains(&address) {
            true => assert_eq!(said, Reading::Damaged, "{address:#x}"),
            // The tail of the last segment reads by the same number.
            false if said == Reading::Damaged => {
                assert_eq!(view(map, &models.bytes).read(address), Reading::NoBlock);
            }
            false => assert_eq!(said, view(map, &models.bytes).read(address)),
        }
    }
    let (address, n, from, base) = (told[0], 1, told[0], told[0]);
    for call in [
        Call::Ask { address },
        Call::Free { base },
        Call::Written { address, n },
        Call::Valid { address, n, from },
        Call::ValidRead { address, n, from },
        Call::Initialised { address, n },
        Call::Next { address },
        Call::Audit,
    ] {
        let refused = (Err(refusal::DAMAGED).into(), changed.clone());
        assert_eq!(step(map, changed, call), refused, "{call:?}");
    }
}
