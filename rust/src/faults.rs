//! The words of a refusal after its cause: what is wrong with what was given, at the place that the library named.
//!
//! Nothing is decided here. Were nothing wrong to be found, the words would be missing, and number and place would
//! stand.

use crate::counted::counted;
use crate::picture::Picture;
use crate::records::{FLAGS, LEFT_EDGE, Slice, TOP_EDGE};
use crate::refusal::Cause;
use crate::settings::{Plane, Settings};

/// The faults that hold, joined.
fn those<const N: usize>(faults: [(bool, String); N]) -> String {
    let holding: Vec<String> = faults.into_iter().filter(|fault| fault.0).map(|fault| fault.1).collect();
    holding.join(", ")
}

fn bad_depth(kind: &str, depth: u32) -> (bool, String) {
    (!(8..=16).contains(&depth), format!("{kind}depth {depth}"))
}

/// What is wrong with settings and planes, of the causes that they alone can have.
pub(crate) fn of_planes(cause: Cause, place: u64, s: &Settings, planes: [&[u16]; 3]) -> String {
    let size = |n: u32| !(8..=Settings::LARGEST).contains(&n) || !n.is_multiple_of(8);
    match cause {
        Cause::Size => {
            those([(size(s.width), format!("width {}", s.width)), (size(s.height), format!("height {}", s.height))])
        }
        Cause::ChromaFormat => format!("format {}", s.chroma_format),
        Cause::Depth => those([bad_depth("luma ", s.luma_depth), bad_depth("chroma ", s.chroma_depth)]),
        Cause::Length => Plane::ALL
            .into_iter()
            .find_map(|plane| plane_length(s, plane, "", planes[plane as usize].len()))
            .unwrap_or_default(),
        Cause::Sample => sample(s, planes, place),
        _ => String::new(),
    }
}

/// What is wrong with a pixel, where the planes are in order.
pub(crate) fn of_pixel(s: &Settings, column: u32, row: u32) -> String {
    those([
        (column >= s.width, format!("column {column} of {}", s.width)),
        (row >= s.height, format!("row {row} of {}", s.height)),
    ])
}

/// What is wrong with a float or with its depth. The bits tell one NaN from another.
pub(crate) fn of_float(cause: Cause, depth: u32, chroma: bool, value: f32) -> String {
    let kind = if chroma { "chroma" } else { "luma" };
    match cause {
        Cause::Depth => those([bad_depth("", depth)]),
        Cause::Float => format!("{value:?}, bits 0x{:08x}, in {kind} of depth {depth}", value.to_bits()),
        _ => String::new(),
    }
}

/// What is wrong with a whole picture.
pub(crate) fn detail(cause: Cause, place: u64, picture: &Picture<'_>, out_lengths: [usize; 3]) -> String {
    let s = &picture.settings;
    let offset = |n: i32| !(-12..=12).contains(&n);
    match cause {
        Cause::Size | Cause::ChromaFormat | Cause::Depth | Cause::Sample => {
            of_planes(cause, place, s, picture.samples())
        }
        Cause::CtbSize => s.log2_ctb.to_string(),
        Cause::ChromaOffset => those([
            (offset(s.cb_qp_offset), format!("Cb offset {}", s.cb_qp_offset)),
            (offset(s.cr_qp_offset), format!("Cr offset {}", s.cr_qp_offset)),
        ]),
        Cause::Length => length(picture, out_lengths),
        Cause::Slice => slice(picture, place),
        Cause::TileStart => tile_start(picture, place),
        Cause::Cell => cell(picture, place),
        // Of no picture.
        Cause::Pixel | Cause::Float => String::new(),
    }
}

/// A plane that is not of its length.
fn plane_length(s: &Settings, plane: Plane, kind: &str, given: usize) -> Option<String> {
    let wanted = s.plane_len(plane);
    let has = || format!("{kind}{plane} has {}, not {wanted}", counted(given as u64, "sample", "samples"));
    (given as u64 != wanted).then(has)
}

/// The first list that is not of its length.
fn length(picture: &Picture<'_>, out_lengths: [usize; 3]) -> String {
    let s = &picture.settings;
    for (plane, out_length) in Plane::ALL.into_iter().zip(out_lengths) {
        for (kind, given) in [("", picture.plane(plane).len()), ("output ", out_length)] {
            if let Some(words) = plane_length(s, plane, kind, given) {
                return words;
            }
        }
    }
    let bytes = |list: &[u8]| counted(list.len() as u64, "byte", "bytes");
    if picture.cells.len() as u64 != s.cell_bytes() {
        return format!("the cells have {}, not {}", bytes(picture.cells), s.cell_bytes());
    }
    let slices = picture.slices;
    if !slices.len().is_multiple_of(Slice::BYTES) {
        return format!("the slices have {}, not a multiple of 4", bytes(slices));
    }
    if slices.len() > Slice::BYTES * Slice::MOST {
        return format!("the slices have {}, above 2400", bytes(slices));
    }
    for (kind, starts, most) in [("column", picture.tile_columns, 20), ("row", picture.tile_rows, 22)] {
        if starts.is_empty() || starts.len() > most {
            return format!("{} tile {kind} starts, not 1 to {most}", starts.len());
        }
    }
    String::new()
}

/// Record number `place` of a list of records.
fn record<const N: usize>(bytes: &[u8], place: u64) -> Option<[u8; N]> {
    let at = usize::try_from(place).ok()?.checked_mul(N)?;
    bytes.get(at..at.checked_add(N)?)?.try_into().ok()
}

fn slice(picture: &Picture<'_>, place: u64) -> String {
    let Some([disabled, beta, tc, across]) = record::<4>(picture.slices, place) else { return String::new() };
    those([
        (disabled > 1, format!("disabled byte {disabled}")),
        (beta > 12, format!("beta offset byte {beta}")),
        (tc > 12, format!("tc offset byte {tc}")),
        (across > 1, format!("filter-across byte {across}")),
    ])
}

fn tile_start(picture: &Picture<'_>, place: u64) -> String {
    let columns = picture.tile_columns.len();
    let place = usize::try_from(place).unwrap_or(usize::MAX);
    let (kind, starts, samples, at) = if place < columns {
        ("column", picture.tile_columns, picture.settings.width, place)
    } else {
        ("row", picture.tile_rows, picture.settings.height, place - columns)
    };
    let Some(&start) = starts.get(at) else { return String::new() };
    // Refusal 4 comes first, so the CTB size is in range here.
    let ctbs = samples.div_ceil(1 << picture.settings.log2_ctb.min(31));
    let begins = format!("tile {kind} {at} starts at CTB {start}");
    if at == 0 && start != 0 {
        format!("{begins}, not 0")
    } else if at > 0 && start <= starts[at - 1] {
        format!("{begins}, not above {}", starts[at - 1])
    } else {
        format!("{begins} of {ctbs}")
    }
}

/// A strength that has no edge flag, or is out of range with it.
fn strength(kind: &str, bs: u8, has_edge: bool) -> (bool, String) {
    if bs > 0 && !has_edge {
        (true, format!("{kind} bS {bs} without its edge flag"))
    } else {
        (bs > 2, format!("{kind} bS {bs}"))
    }
}

fn cell(picture: &Picture<'_>, place: u64) -> String {
    let Some([qp, flags, vertical, horizontal, low, high, six, seven]) = record(picture.cells, place) else {
        return String::new();
    };
    // Refusal 3 comes first, so the depth is in range here.
    let lowest = 64 - 6 * i64::from(picture.settings.luma_depth.saturating_sub(8));
    let own = u16::from_le_bytes([low, high]);
    let (slices, slice) = match picture.slices.len() / Slice::BYTES {
        0 => (1, format!("slice {own}, and without slice records there is slice 0 alone")),
        slices => (slices, format!("slice {own} of {slices}")),
    };
    those([
        (i64::from(qp) < lowest || qp > 64 + 51, format!("QP byte {qp}")),
        (flags & !FLAGS != 0, format!("flags byte {flags}")),
        strength("vertical", vertical, flags & LEFT_EDGE != 0),
        strength("horizontal", horizontal, flags & TOP_EDGE != 0),
        (usize::from(own) >= slices, slice),
        (six != 0, format!("byte 6 is {six}")),
        (seven != 0, format!("byte 7 is {seven}")),
    ])
}

fn sample(s: &Settings, planes: [&[u16]; 3], place: u64) -> String {
    let mut left = place;
    for (plane, samples) in Plane::ALL.into_iter().zip(planes) {
        if left < samples.len() as u64 {
            // Refusal 3 comes first, so the depth is in range here.
            let largest = (1u64 << s.depth(plane).min(16)) - 1;
            return format!("{plane} sample {left} is {}, the largest is {largest}", samples[left as usize]);
        }
        left -= samples.len() as u64;
    }
    String::new()
}
