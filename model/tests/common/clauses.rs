//! The clauses of "Damaged if", one by one.

use model::form::PLAYER;
use model::image::Shadows;
use model::map::{Area, Map};

/// The clauses that hold for one reading, all of them and in no order of tests.
pub fn clauses(map: Map, shadows: &Shadows, address: u32) -> Vec<&'static str> {
    match map.area(address) {
        Some(Area::Heap) if map.form == PLAYER => {
            heap_clauses(map, [4, 8], &NAMES, shadows, address.into())
        }
        Some(Area::Heap) => heap_clauses(map, [8, 16], &DESK_NAMES, shadows, address.into()),
        Some(Area::Stack) => stack_clauses(map, shadows, address.into()),
        None => vec![],
    }
}

/// The clauses of a heap reading; the last two, of S-8, cannot hold in four bytes.
const NAMES: [&str; 7] = [
    "heap: w - 1 no multiple of 8",
    "heap: base < heap start + 8",
    "heap: L = 0",
    "heap: base + L passes the end",
    "heap: w - 1 >= L",
    "never",
    "never",
];
const DESK_NAMES: [&str; 7] = [
    "heap: w - 1 no multiple of 16",
    "heap: base < heap start + 16",
    "heap: L = 0",
    "heap: base + L passes the end",
    "heap: w - 1 >= L",
    "heap: w of 2 to the 32 or more",
    "heap: L of 2 to the 32 or more",
];

/// A number of so many bytes, if the shadow has them all.
fn number(shadow: &[u8], position: i128, width: i128) -> Option<i128> {
    let byte = |i: i128| {
        Some(i128::from(
            *shadow.get(usize::try_from(position + i).ok()?)?,
        ))
    };
    (0..width).try_fold(0, |sum, i| Some(sum + (byte(i)? << (8 * i))))
}

fn holding(clauses: &[(bool, &'static str)]) -> Vec<&'static str> {
    let kept = clauses.iter().filter(|(holds, _)| *holds);
    kept.map(|&(_, name)| name).collect()
}

/// The first address of an area and the one past it, in whole numbers.
fn ends(map: Map, area: Area) -> (i128, i128) {
    let bounds = map.bounds(area);
    (bounds.start.into(), bounds.end.into())
}

fn heap_clauses(
    map: Map,
    [width, size]: [i128; 2],
    names: &[&'static str; 7],
    shadows: &Shadows,
    address: i128,
) -> Vec<&'static str> {
    let (start, end) = ends(map, Area::Heap);
    let segment = address - address % size;
    let w = number(&shadows.heap, segment - start, width).unwrap();
    if w == 0 {
        return vec![];
    }
    let base = segment - (w - 1);
    let mut held = holding(&[
        ((w - 1) % size != 0, names[0]),
        (base < start + size, names[1]),
        (w >> 32 > 0, names[5]),
    ]);
    // A header below the shadow has no bytes to judge.
    if let Some(length) = number(&shadows.heap, base - size + width - start, width) {
        held.extend(holding(&[
            (length == 0, names[2]),
            (base + length > end, names[3]),
            (w > length, names[4]),
            (length >> 32 > 0, names[6]),
        ]));
    }
    held
}

fn stack_clauses(map: Map, shadows: &Shadows, address: i128) -> Vec<&'static str> {
    let (start, end) = ends(map, Area::Stack);
    let byte = shadows.primary[(address - start) as usize];
    let code = i128::from(byte / 4);
    let mut names = holding(&[
        (code == 0 && byte / 2 % 2 == 1, "stack: bit 1 with code 0"),
        (
            code == 0 && byte % 2 == 1,
            "stack: code 0 with a written bit",
        ),
        (
            (37..=47).contains(&code) || code == 63,
            "stack: code 37 to 47 or 63",
        ),
    ]);
    let block = match code {
        1..=36 => {
            let length = (1..=8).find(|l| code <= l * (l + 1) / 2).unwrap();
            Some((length, code - 1 - length * (length - 1) / 2))
        }
        48..=62 => piece_clauses(shadows, address - start, code - 48, &mut names),
        _ => None,
    };
    if let Some((length, offset)) = block {
        let base = address - offset;
        let fits = base >= start && base + length <= end;
        names.extend(holding(&[(!fits, "stack: the block does not fit")]));
    }
    names
}

/// Length and offset told by a piece, and the clauses that speak of pieces.
fn piece_clauses(
    shadows: &Shadows,
    position: i128,
    j: i128,
    names: &mut Vec<&'static str>,
) -> Option<(i128, i128)> {
    let length = number(&shadows.secondary, position - j, 4);
    let offset = number(&shadows.secondary, position - j + 4, 4);
    let (Some(length), Some(o)) = (length, offset) else {
        names.push("stack: the secondary bytes leave the area");
        return None;
    };
    let last = 8 * (length / 8) - 8;
    names.extend(holding(&[
        (length < 9, "stack: L < 9"),
        (o % 8 != 0, "stack: o no multiple of 8"),
        (o + 8 > length, "stack: o + 8 > L"),
        (
            j > 7 && o != last,
            "stack: j > 7 in a piece other than the last",
        ),
        (o + j >= length, "stack: o + j >= L"),
    ]));
    Some((length, o + j))
}
