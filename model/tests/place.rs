//! A place for the next block (S-6): samples and edges worked by hand, on every
//! model.

mod common;

use common::gaps::{defined, place};
use common::{on, on_bytes, texts};
use model::bytes;
use model::call::{refusal, Answer, Call};
use model::decode::decode;
use model::form::{Form, FORMS};
use model::image::Shadows;
use model::map::Map;
use model::notation::{Example, EXAMPLE_MAP};
use model::origins::call::OriginsCall;
use model::plain::{List, PlainList};
use model::plain_btree::PlainTree;
use model::reading::View;
use model::samples::answered;

/// Both lists of these bytes, if they are the image of one.
fn lists_of(map: Map, shadows: &Shadows) -> Option<(PlainList, PlainTree)> {
    let blocks = decode(View {
        map,
        heap: &shadows.heap,
        primary: &shadows.primary,
        secondary: &shadows.secondary,
    })?;
    let (mut list, mut tree) = (PlainList::new(map), PlainTree::new(map));
    for block in blocks {
        let (base, length) = (block.base, block.length);
        list.step(Call::Record { base, length });
        tree.step(Call::Record { base, length });
    }
    Some((list, tree))
}

#[test]
fn every_sample_and_edge() {
    let found = texts("place.txt");
    assert_eq!(found.len(), 113);
    let mut images = 0;
    for (_, line, example) in found {
        let Example::On(told) = example else {
            panic!("no call: {line}");
        };
        on_bytes(&line, &told);
        let question = line.split(" =>").next().expect("a left-hand side");
        let whole = answered(question.as_bytes());
        assert_eq!(String::from_utf8(whole).unwrap(), format!("{line}\n"));
        let Call::Place { length, budget } = told.call else {
            panic!("no place: {line}");
        };
        let by_definition = defined(EXAMPLE_MAP, &told.shadows.heap, length, budget);
        assert_eq!(by_definition, told.answer, "{line}");
        if let Some((mut list, mut tree)) = lists_of(EXAMPLE_MAP, &told.shadows) {
            assert_eq!(list.step(told.call), told.answer, "{line}");
            assert_eq!(tree.step(told.call), told.answer, "{line}");
            images += 1;
        }
    }
    assert!(images > 40, "{images}");
}

/// More gaps than the samples' heap has: a dot is a zero segment. At the desk,
/// whose segments are twice as long, so are lengths, places and surplus.
#[test]
fn several_gaps() {
    let cases: [(&str, u32, u32, Answer); 16] = [
        ("....x..x..x...", 4, 1, Ok([4104, 1, 16, 0]).into()),
        ("....x..x..x...", 4, 2, Ok([4144, 2, 0, 0]).into()),
        ("....x..x..x...", 4, 3, Ok([4144, 3, 0, 0]).into()),
        ("....x..x..x...", 4, 9, Ok([4144, 4, 0, 0]).into()),
        ("....x..x..x...", 9, 3, Ok([4104, 3, 8, 0]).into()),
        ("....x..x..x...", 9, 4, Ok([4192, 4, 0, 0]).into()),
        ("....x..x..x...", 17, u32::MAX, Ok([4104, 4, 0, 0]).into()),
        ("....x..x..x...", 25, u32::MAX, Err(14).into()),
        (".x..xx...x....", 9, 1, Err(14).into()),
        (".x..xx...x....", 9, 2, Err(14).into()),
        (".x..xx...x....", 9, 3, Ok([4152, 3, 0, 0]).into()),
        (".x..xx...x....", 9, 4, Ok([4152, 4, 0, 0]).into()),
        ("x.....x...x....", 16, 9, Ok([4160, 3, 0, 0]).into()),
        ("x.....x...x....", 17, 9, Ok([4192, 3, 0, 0]).into()),
        ("x.....x...x....", 17, 2, Ok([4112, 2, 8, 0]).into()),
        ("x.....x...x....", 33, 9, Err(14).into()),
    ];
    for (picture, length, budget, expected) in cases {
        for form in FORMS {
            placed(form, picture, length, budget, expected);
        }
    }
}

fn placed(form: Form, picture: &str, length: u32, budget: u32, expected: Answer) {
    let times = form.segment / 8;
    let size = form.segment * picture.len() as u32;
    let map = Map::new(4096, size, 65_536, 16).of(form);
    let mut bytes = Shadows::cleared(map);
    for (segment, _) in picture.match_indices('x') {
        bytes.heap[form.bytes() * segment + 5] = 16;
    }
    let Answer { number, mut fields } = expected;
    if number == 0 {
        fields[0] = 4096 + times * (fields[0] - 4096);
        fields[2] *= times;
    }
    let expected = Answer { number, fields };
    // Either of these takes as many segments as the length does at the player.
    for length in [times * length, times * (length - 1) + 1] {
        let said = place(map, &bytes, length, budget);
        assert_eq!(said, expected, "{picture} {length} {budget}");
    }
}

#[test]
fn the_largest_heap() {
    for form in FORMS {
        let highest = (131_072 + form.segment).wrapping_neg();
        for start in [form.segment, highest] {
            the_largest_heap_at(form, start);
        }
    }
}

fn the_largest_heap_at(form: Form, start: u32) {
    let map = Map::new(start, 131_072, 262_144, 16).of(form);
    let g = form.segment;
    let (largest, segments) = (131_072 - g, 131_072 / form.bytes());
    let gaps = segments as u32 / 2;
    let mut bytes = Shadows::cleared(map);
    let mut tree = PlainTree::new(map);
    let mut both = |bytes: &Shadows, length, budget| {
        let said = place(map, bytes, length, budget);
        assert_eq!(tree.step(Call::Place { length, budget }), said);
        said
    };
    let whole = Ok([start + g, 1, 0, 0]).into();
    assert_eq!(both(&bytes, largest, u32::MAX), whole);
    assert_eq!(both(&bytes, largest + 1, u32::MAX), Err(14).into());
    assert_eq!(both(&bytes, u32::MAX, u32::MAX), Err(14).into());
    // Gaps of one segment, and one of two at the very end.
    for segment in (1..segments - 2).step_by(2) {
        bytes.heap[form.bytes() * segment] = 1;
    }
    assert_eq!(place(map, &bytes, g, gaps - 1), Err(14).into());
    let last = Ok([start + largest, gaps, 0, 0]).into();
    assert_eq!(place(map, &bytes, g, gaps), last);
    assert_eq!(place(map, &bytes, g, gaps + 1), last);
    assert_eq!(place(map, &bytes, g + 1, u32::MAX), Err(14).into());
}

/// 1 and 2 come before 3 and 14.
#[test]
fn bad_maps_and_wrong_lengths_come_first() {
    for (length, budget) in [(0, 0), (0, 1), (8, 0), (8, 1), (57, 9)] {
        let call = Call::Place { length, budget };
        let bad = Map::new(4096, 60, 8192, 32);
        let mut bytes = Shadows::cleared(bad);
        assert_eq!(on(bad, &mut bytes, call), Err(refusal::BAD_MAP).into());
        for [heap, primary, secondary] in [[63, 32, 32], [72, 32, 32], [64, 31, 32], [64, 32, 0]] {
            let lent = [heap, primary, secondary].map(|length| vec![0; length]);
            let [mut heap, mut primary, mut secondary] = lent;
            let said = bytes::call(EXAMPLE_MAP, &mut heap, &mut primary, &mut secondary, call);
            assert_eq!(said, Err(refusal::SHADOW_LENGTH).into(), "{call:?}");
        }
    }
}

#[test]
fn place_has_no_kind() {
    let call = Call::Place {
        length: 4,
        budget: 9,
    };
    assert_eq!(call.record_fields(), None);
    for kind in 0..=u16::MAX {
        for fields in [&[4, 9][..], &[4, 9, 0]] {
            let plain = Call::from_record(kind, fields);
            assert!(!matches!(plain, Some(Call::Place { .. })), "{kind}");
            let made = OriginsCall::from_record(kind, fields);
            let place = matches!(made, Some(OriginsCall::Plain(Call::Place { .. })));
            assert!(!place, "{kind}");
        }
    }
}
