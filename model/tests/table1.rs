//! The codes of Table 1, in both directions and in the shadow bytes.

mod common;

use common::{on, table1};
use model::call::Call;
use model::image::{stack_code, Shadows};
use model::notation::EXAMPLE_MAP;
use model::reading::short_block;

#[test]
fn codes_in_both_directions() {
    let rows = table1();
    assert_eq!(rows.len(), 36);
    for (index, (code, length, offset)) in rows.into_iter().enumerate() {
        assert_eq!(usize::from(code), index + 1);
        assert_eq!(stack_code(length, offset), code);
        assert_eq!(short_block(code), (length, offset));
    }
}

#[test]
fn codes_in_the_primary_shadow() {
    for (code, length, offset) in table1() {
        let mut shadows = Shadows::cleared(EXAMPLE_MAP);
        let base = 8200;
        on(EXAMPLE_MAP, &mut shadows, Call::Record { base, length });
        assert_eq!(shadows.primary[8 + offset as usize], 4 * code);
        let address = base + offset;
        on(EXAMPLE_MAP, &mut shadows, Call::Written { address, n: 1 });
        assert_eq!(shadows.primary[8 + offset as usize], 4 * code + 1);
        let answer = on(EXAMPLE_MAP, &mut shadows, Call::Ask { address });
        assert_eq!(
            (answer.number, answer.fields),
            (0, [base, length, offset, 1])
        );
        assert!(shadows.secondary.iter().all(|&byte| byte == 0));
        let mut begun = Shadows::cleared(EXAMPLE_MAP);
        let call = Call::RecordWritten { base, length };
        on(EXAMPLE_MAP, &mut begun, call);
        assert_eq!(begun.primary[8 + offset as usize], 4 * code + 1);
        assert!(begun.secondary.iter().all(|&byte| byte == 0));
        let mut literal = Shadows::cleared(EXAMPLE_MAP);
        let call = Call::RecordLiteral { base, length };
        on(EXAMPLE_MAP, &mut literal, call);
        assert_eq!(literal.primary[8 + offset as usize], 4 * code + 3);
        assert!(literal.secondary.iter().all(|&byte| byte == 0));
    }
}

/// Every byte of a short block, whatever its two low bits.
#[test]
fn low_bits_of_short_codes() {
    for (code, length, offset) in table1() {
        for low in 0..4 {
            let mut shadows = Shadows::cleared(EXAMPLE_MAP);
            shadows.primary[8 + offset as usize] = 4 * code + low;
            let (address, n, from) = (8200 + offset, 1, 8200 + offset);
            let mut said = |call| on(EXAMPLE_MAP, &mut shadows, call);
            let ask = said(Call::Ask { address });
            let written = u32::from(low % 2);
            assert_eq!(
                (ask.number, ask.fields),
                (0, [8200, length, offset, written])
            );
            let valid = said(Call::Valid { address, n, from });
            assert_eq!((valid.number, valid.fields[0]), (0, u32::from(low < 2)));
            let readable = said(Call::ValidRead { address, n, from });
            assert_eq!((readable.number, readable.fields[0]), (0, 1));
            let number = if low < 2 { 0 } else { 13 };
            assert_eq!(said(Call::Written { address, n }).number, number);
        }
    }
}

#[test]
fn codes_of_long_blocks_close_with_a_long_piece() {
    for length in 9..=40 {
        for offset in 0..length {
            let pieces = length / 8;
            let whole = offset / 8;
            let expected = if whole < pieces {
                48 + offset % 8
            } else {
                48 + 8 + offset % 8
            };
            assert_eq!(u32::from(stack_code(length, offset)), expected);
        }
    }
}
