//! Table 1 in the samples program's input and stored output: each code of a block
//! in both directions, without bit 1 and with it, in both forms.

mod common;

use std::collections::HashMap;

use common::{right_hand_sides, table1};

#[test]
fn table_1_is_stored_in_both_directions() {
    let sides = right_hand_sides();
    let rows = table1();
    for length in 1..=8 {
        for (word, mark) in [("record", 0), ("record_written", 1), ("record_literal", 3)] {
            let bytes = rows.iter().filter(|row| row.1 == length);
            let bytes: Vec<String> = bytes.map(|row| (4 * row.0 + mark).to_string()).collect();
            let stated = format!("0 then pri@8={}", bytes.join(","));
            assert_eq!(sides[&format!("on: : {word} 8200 {length}")], stated);
        }
    }
    for (code, length, offset) in rows {
        let (position, byte, address) = (8 + offset, 4 * code, 8200 + offset);
        let stated = format!("0 8200 {length} {offset} 0");
        assert_eq!(
            sides[&format!("on: pri@{position}={byte} : ask {address}")],
            stated
        );
        for form in ["on", "on origins"] {
            let given = |low: u8| format!("{form}: pri@{position}={} :", byte + low);
            of_a_literal(&sides, given, address, &format!("8200 {length} {offset}"));
        }
    }
}

/// The codes of long blocks with bit 1, in a block of 15 bytes.
#[test]
fn long_codes_of_literals_are_stored() {
    let sides = right_hand_sides();
    for j in 0..15 {
        let byte = 4 * (48 + j);
        let (offset, address) = (j, 8192 + u32::from(j));
        for form in ["on", "on origins"] {
            let given = |low: u8| format!("{form}: pri@{offset}={} sec@0=15 :", byte + low);
            of_a_literal(&sides, given, address, &format!("8192 15 {offset}"));
        }
    }
}

/// One byte with bit 1, unwritten and written: read as any other, valid only to
/// be read, and not to be written.
fn of_a_literal(
    sides: &HashMap<String, String>,
    given: impl Fn(u8) -> String,
    address: u32,
    told: &str,
) {
    let (unwritten, written) = (given(2), given(3));
    for (question, side) in [
        (format!("{unwritten} ask {address}"), format!("0 {told} 0")),
        (format!("{written} ask {address}"), format!("0 {told} 1")),
        (
            format!("{written} valid {address} 1 {address}"),
            "0 0".to_owned(),
        ),
        (
            format!("{written} valid_read {address} 1 {address}"),
            "0 1".to_owned(),
        ),
        (format!("{unwritten} written {address} 1"), "13".to_owned()),
    ] {
        assert_eq!(sides.get(&question), Some(&side), "{question}");
    }
}
