//! The way back from a float to its sample, document 02's C-22: what is taken, and what is refused.

mod common;

use std::collections::HashMap;

use common::planes::is_refused;
use common::{every_sample, fraction_bits, part_bits};
use tinladle::{Cause, sample};

/// Every depth, in luma and in chroma.
fn kinds() -> impl Iterator<Item = (u32, bool)> {
    (8..=16).flat_map(|depth| [(depth, false), (depth, true)])
}

/// No sample gives the float, and there are words for it.
fn is_none(depth: u32, chroma: bool, value: f32) {
    let refusal = sample(depth, chroma, value).unwrap_err();
    let answer = (refusal.number(), refusal.place(), refusal.cause());
    assert_eq!(answer, (15, 0, Cause::Float), "{value:?} at depth {depth}, chroma {chroma}");
    assert!(!refusal.detail().is_empty());
}

#[test]
fn each_sample_is_found_by_its_float() {
    for (depth, chroma) in kinds() {
        for given in every_sample(depth) {
            let value = f32::from_bits(part_bits(depth, chroma, given));
            assert_eq!(sample(depth, chroma, value).unwrap(), given, "depth {depth}, chroma {chroma}");
        }
    }
}

#[test]
fn what_is_beside_a_sample_by_however_little_is_none() {
    for (depth, chroma) in kinds() {
        for given in every_sample(depth) {
            let value = f32::from_bits(part_bits(depth, chroma, given));
            is_none(depth, chroma, value.next_up());
            is_none(depth, chroma, value.next_down());
        }
    }
}

#[test]
fn halves_between_two_samples_are_none() {
    for (depth, chroma) in kinds() {
        let middle = if chroma { 1 << depth } else { 0 };
        for half in (1..2 << depth).step_by(2) {
            is_none(depth, chroma, f32::from_bits(fraction_bits(half - middle, depth + 1)));
        }
    }
}

#[test]
fn a_step_past_the_ends_is_none() {
    for (depth, chroma) in kinds() {
        let (least, most) = if chroma { (-(1 << (depth - 1)), (1 << (depth - 1)) - 1) } else { (0, (1 << depth) - 1) };
        let at = |n| f32::from_bits(fraction_bits(n, depth));
        assert_eq!(sample(depth, chroma, at(least)).unwrap(), 0);
        assert_eq!(u32::from(sample(depth, chroma, at(most)).unwrap()), (1 << depth) - 1);
        for n in [least - 1, most + 1, least - (1 << depth), most + (1 << depth)] {
            is_none(depth, chroma, at(n));
        }
    }
    // The same by their names.
    is_none(8, false, 1.0);
    is_none(8, false, -1.0 / 256.0);
    is_none(8, true, 0.5);
    is_none(8, true, -0.5 - 1.0 / 256.0);
    is_none(16, true, 0.5);
    is_none(16, true, -0.5 - 1.0 / 65536.0);
}

/// Floats that no sample of any depth gives, by their bits.
const NEVER: [u32; 26] = [
    0x8000_0000, // -0.0
    0x7F80_0000, // the infinities
    0xFF80_0000,
    0x7FC0_0000, // NaNs that are quiet, signalling and negative
    0x7FC0_0001,
    0x7FFF_FFFF,
    0x7F80_0001,
    0x7FA0_0000,
    0x7FBF_FFFF,
    0xFFC0_0000,
    0xFF80_0001,
    0xFFBF_FFFF,
    0xFFFF_FFFF,
    0x0000_0001, // subnormals, the least and the largest
    0x007F_FFFF,
    0x8000_0001,
    0x807F_FFFF,
    0x0080_0000, // the least and the largest that are normal
    0x8080_0000,
    0x7F7F_FFFF,
    0xFF7F_FFFF,
    0x3DCC_CCCD, // 0.1
    0x3EAA_AAAB, // 1/3
    0x4380_0000, // 256
    0x3F80_0000, // 1
    0xBF80_0000, // -1
];

#[test]
fn what_no_sample_ever_gives() {
    for (depth, chroma) in kinds() {
        for bits in NEVER {
            is_none(depth, chroma, f32::from_bits(bits));
        }
    }
}

#[test]
fn any_float_beside_the_list_of_those_that_samples_give() {
    for (depth, chroma) in kinds() {
        let given: HashMap<u32, u16> =
            every_sample(depth).map(|sample| (part_bits(depth, chroma, sample), sample)).collect();
        assert_eq!(given.len(), 1 << depth, "no two samples give one float");
        let mut taken = 0;
        // Every sign, exponent and start of a mantissa.
        for bits in (0..=0xFFFF_u32).map(|high| high << 16) {
            let wanted = given.get(&bits).copied();
            let found = sample(depth, chroma, f32::from_bits(bits)).map_err(|refusal| refusal.number());
            assert_eq!(found, wanted.ok_or(15), "0x{bits:08x} at depth {depth}, chroma {chroma}");
            taken += usize::from(found.is_ok());
        }
        assert!(taken >= 256, "{taken} at depth {depth}, chroma {chroma}");
    }
}

#[test]
fn a_float_may_be_a_sample_at_one_depth_and_not_at_another() {
    for depth in 8..16 {
        // An odd sample of the next depth lies between two of this one; each of this one is an even one of the next.
        let odd = f32::from_bits(fraction_bits(77, depth + 1));
        is_none(depth, false, odd);
        is_none(depth, true, odd);
        assert_eq!(sample(depth + 1, false, odd).unwrap(), 77);
        assert_eq!(sample(depth + 1, true, odd).unwrap(), 77 + (1 << depth));
        let value = f32::from_bits(fraction_bits(77, depth));
        assert_eq!((sample(depth, false, value).unwrap(), sample(depth + 1, false, value).unwrap()), (77, 154));
    }
    assert_eq!(sample(8, false, 0.5).unwrap(), 128);
    assert_eq!(sample(16, false, 0.5).unwrap(), 32_768);
    // In luma or in chroma alone, or another sample in each.
    is_none(8, true, 0.5);
    is_none(8, false, -0.25);
    assert_eq!(sample(8, true, -0.25).unwrap(), 64);
    assert_eq!((sample(8, false, 0.25).unwrap(), sample(8, true, 0.25).unwrap()), (64, 192));
    assert_eq!((sample(8, false, 0.0).unwrap(), sample(8, true, 0.0).unwrap()), (0, 128));
}

#[test]
fn a_depth_is_refused_before_any_float() {
    for depth in [0, 1, 7, 17, 24, 31, 32, 33, 64, 1 << 31, u32::MAX] {
        for chroma in [false, true] {
            for value in [0.0, 0.25, -0.5, 0.1, -0.0, f32::NAN, f32::INFINITY, f32::NEG_INFINITY] {
                let sentence = format!("a depth is outside 8 to 16: depth {depth}");
                is_refused(sample(depth, chroma, value), 3, 0, &sentence);
            }
        }
    }
}

#[test]
fn the_words_have_the_float_and_its_bits() {
    let cases = [
        (8, false, 0x3F80_0000, "1.0, bits 0x3f800000, in luma of depth 8"),
        (8, true, 0x3F00_0000, "0.5, bits 0x3f000000, in chroma of depth 8"),
        (10, true, 0x8000_0000, "-0.0, bits 0x80000000, in chroma of depth 10"),
        (16, false, 0x7F80_0000, "inf, bits 0x7f800000, in luma of depth 16"),
        (16, false, 0xFF80_0000, "-inf, bits 0xff800000, in luma of depth 16"),
        (12, false, 0x7FC0_0000, "NaN, bits 0x7fc00000, in luma of depth 12"),
        (12, false, 0xFFA0_0001, "NaN, bits 0xffa00001, in luma of depth 12"),
        (9, false, 0x0000_0001, "1e-45, bits 0x00000001, in luma of depth 9"),
    ];
    for (depth, chroma, bits, detail) in cases {
        let sentence = format!("no sample gives the float: {detail}");
        is_refused(sample(depth, chroma, f32::from_bits(bits)), 15, 0, &sentence);
    }
}
