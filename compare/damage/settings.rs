//! Causes 1 to 5: each setting one past both of its ends, and further.

use super::{Kind, kind};

pub const KINDS: &[Kind] = &[
    kind("width below 8", 1, |p, r| {
        p.width = r.pick(&[0, 1, 7]);
        true
    }),
    kind("width no multiple of 8", 1, |p, r| {
        p.width = p.width & !7 | r.pick(&[1, 4, 7]);
        true
    }),
    kind("width above 8192", 1, |p, r| {
        p.width = r.pick(&[8193, 8200, 16384, 1 << 31, u32::MAX - 7, u32::MAX]);
        true
    }),
    kind("height below 8", 1, |p, r| {
        p.height = r.pick(&[0, 1, 7]);
        true
    }),
    kind("height no multiple of 8", 1, |p, r| {
        p.height = p.height & !7 | r.pick(&[1, 4, 7]);
        true
    }),
    kind("height above 8192", 1, |p, r| {
        p.height = r.pick(&[8193, 8200, 16384, 1 << 31, u32::MAX - 7, u32::MAX]);
        true
    }),
    kind("format above 3", 2, |p, r| {
        p.format = r.pick(&[4, 5, 256, 1 << 31, u32::MAX]);
        true
    }),
    kind("luma depth below 8", 3, |p, r| {
        p.luma_depth = r.pick(&[7, 7, 0, 1]);
        true
    }),
    kind("luma depth above 16", 3, |p, r| {
        p.luma_depth = r.pick(&[17, 17, 32, 264, u32::MAX]);
        true
    }),
    kind("chroma depth below 8", 3, |p, r| {
        p.chroma_depth = r.pick(&[7, 7, 0, 1]);
        true
    }),
    kind("chroma depth above 16", 3, |p, r| {
        p.chroma_depth = r.pick(&[17, 17, 32, 264, u32::MAX]);
        true
    }),
    kind("log2 CTB below 4", 4, |p, r| {
        p.log2_ctb = r.pick(&[3, 3, 0, 1]);
        true
    }),
    kind("log2 CTB above 6", 4, |p, r| {
        p.log2_ctb = r.pick(&[7, 7, 32, 64, 260, u32::MAX]);
        true
    }),
    kind("Cb offset below -12", 5, |p, r| {
        p.cb_offset = r.pick(&[-13, -13, -268, i32::MIN]);
        true
    }),
    kind("Cb offset above 12", 5, |p, r| {
        p.cb_offset = r.pick(&[13, 13, 256, i32::MAX]);
        true
    }),
    kind("Cr offset below -12", 5, |p, r| {
        p.cr_offset = r.pick(&[-13, -13, -268, i32::MIN]);
        true
    }),
    kind("Cr offset above 12", 5, |p, r| {
        p.cr_offset = r.pick(&[13, 13, 256, i32::MAX]);
        true
    }),
];
