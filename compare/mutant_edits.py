"""The mutants: each changes one place of the sources, a line for the most part. Where a mutant is argued to change no output, `equal`
says why, by which theorem where there is one."""

from typing import NamedTuple


class Edit(NamedTuple):
    file: str  # crate/file, without .rt
    old: str  # stands once in the file
    new: str
    equal: str = ""
    built: str = "tinladle"  # the crate that shows it: the library, or a program


def rows(*numbers):
    """Rows of a table."""
    return "".join(f"{n}, " for n in range(*numbers)).rstrip()


THRESHOLDS = [
    Edit("thresholds/luma", "(p as u32) + (q as u32) + 1)", "(p as u32) + (q as u32))"),
    Edit("thresholds/luma", "clip_index(51, (average", "clip_index(50, (average"),
    Edit("thresholds/luma", "(average as u32) + 2 * (offset as u32), 76)", "(average as u32) + 2 * (offset as u32), 75)"),
    Edit("thresholds/luma", "26 * ((average", "25 * ((average"),
    Edit("thresholds/luma", "13 * ((bs as usize) - 1)", "13 * (2 - (bs as usize))"),  # the rows of bS 1 and 2 exchanged
    Edit("thresholds/luma", "+ (offset as usize);", "+ 12 - (offset as usize);"),
    Edit("thresholds/luma", "scale(depth, tcs[place] as u16)", "tcs[place] as u16"),
    Edit("thresholds/luma", "if average < 64 {", "if average < 68 {", "no average below 4 has a tc (theorem low-gives-0)"),
    Edit("thresholds/luma", "if average < 64 {", "if average < 69 {", built="segment_bench"),
    # One entry of the table, in its first row, in the middle and in its last row.
    Edit("thresholds/luma_table", "0, // QP 0, bS 1, div2 -6", "1, // QP 0, bS 1, div2 -6", built="segment_bench"),
    Edit("thresholds/luma_table", "2, // QP 26, bS 2, div2 1", "3, // QP 26, bS 2, div2 1", built="segment_bench"),
    Edit("thresholds/luma_table", "24, // QP 51, bS 2, div2 6", "23, // QP 51, bS 2, div2 6", built="segment_bench"),
    # Rows 16, 16 to 28 and 29 to 51 of beta'; rows 18, those above 15 and the last of tc'; rows 34 to 43 of QpC.
    Edit("thresholds/tables", "0, 6, 7, 8,", "0, 0, 7, 8,"),
    Edit("thresholds/tables", rows(6, 19), rows(7, 20)),
    Edit("thresholds/tables", rows(20, 65, 2), rows(19, 64, 2)),
    Edit("thresholds/tables", "0, 1, 1, 1,", "0, 0, 1, 1,"),
    Edit("thresholds/tables", "TC_ROWS[q] as u16", "(TC_ROWS[q] % 16) as u16"),
    Edit("thresholds/tables", "22, 24,\n]", "22, 23,\n]"),
    Edit("thresholds/tables", "33, 33, 34, 34, 35, 35, 36, 36, 37, 37]", "33, 34, 34, 35, 35, 36, 36, 37, 37, 38]"),
    Edit("thresholds/tables", "v << (depth - 8)", "v << (depth - 8) / 2"),
    # The Rust's clip of the chroma index, at 0 and at 57.
    Edit("thresholds/chroma", "if index < 106 {\n        index\n", "if index < 106 {\n        if index < 76 { 76 } else { index }\n",
         "below zero the clip moves no threshold (theorem same-tc)"),
    Edit("thresholds/chroma", "return table_qpc(index);", "return table_qpc(if index < 133 { index } else { 133 });"),
    Edit("thresholds/chroma", "if index < 106 {", "if index < 107 {"),
    Edit("thresholds/chroma", "} else if 119 < index {", "} else if 118 < index {",
         "row 43 of the table is 37, which is also 43 - 6 (theorem qpc-ends)"),
    Edit("thresholds/chroma", "index - 6\n", "index - 7\n"),
    Edit("thresholds/chroma", "if format == 1 {", "if format <= 2 {"),
    Edit("thresholds/chroma", "index.min(127)", "index.min(128)"),
    Edit("thresholds/chroma", "qp + 4 + 2 * (offset as u32)", "qp + 3 + 2 * (offset as u32)"),
    Edit("thresholds/chroma", "ints::clip_index(53,", "ints::clip_index(52,"),
]

DECISION = [
    Edit("lines/decision", "dpq < beta >> 2", "dpq <= beta >> 2"),
    Edit("lines/decision", "ends < beta >> 3", "ends <= beta >> 3"),
    Edit("lines/decision", "step < (5 * (tc as u32) + 1) >> 1", "step < (5 * (tc as u32)) >> 1"),
    Edit("lines/decision", "side_activity(l3.q2, l3.q1, l3.q0)", "side_activity(l0.q2, l0.q1, l0.q0)"),
    Edit("lines/decision", "let dpq3 = dp3 + dq3;", "let dpq3 = dp3 + dq0;"),
    Edit("lines/decision", "let dp = dp0 + dp3;", "let dp = dp0 + dq0;"),
    Edit("lines/decision", "let d = dpq0 + dpq3;", "let d = dpq0 + dpq0;"),
    Edit("lines/decision", "if d >= beta {", "if d > beta {"),
    Edit("lines/decision", "d_sam0 && d_sam(", "d_sam("),
    Edit("lines/decision", "2 * dpq3, l3", "2 * dpq0, l3"),
    Edit("lines/decision", "if d_sam3 {", "if d_sam0 {"),
    Edit("lines/decision", "dp < (beta + (beta >> 1)) >> 3", "dp < (beta + (beta >> 1)) >> 2"),
    Edit("lines/decision", "let d_eq = dq < (", "let d_eq = dq <= ("),
    Edit("lines/decision", "do_p1: d_ep,", "do_p1: d_eq,"),
    Edit("luma_windows/luma", "base + 3 * along, across)", "base + 2 * along, across)"),
]

WINDOWS = [
    Edit("window_lines/rows", "base + across, a.p2, b.p2, c.p2, d.p2)", "base + across, a.p2, c.p2, b.p2, d.p2)"),
    Edit("window_lines/rows", "a.q2, b.q2, c.q2, d.q2)", "a.q2, b.q2, c.q2, c.q2)"),
    Edit("luma_windows/rows", "across, v);",
         "across, Lines { l0: v.l0, l1: v.l1, l2: v.l2, l3: weak_line(t.largest, t.tc, do_q1, do_p1, w.l3) });"),
    Edit("window_lines/line", "take_line(s, base + 2 * along, across)", "take_line(s, base + along, across)"),
    Edit("luma_windows/turned", "take_line(&t[..], j, 4)", "take_line(&t[..], 3 - j, 4)"),
    Edit("luma_windows/luma", "if let LumaDecision::Skip = d {", "if let LumaDecision::Strong = d {"),
    Edit("chroma_windows/chroma", "at + across, a.p0, b.p0, c.p0, d.p0)", "at + across, a.p0, c.p0, b.p0, d.p0)"),
    Edit("chroma_windows/chroma", "let at = base + 2 * across;", "let at = base + 1 * across;"),
    Edit("chroma_windows/chroma", "put_pair(s, at + 1, l.p0, l.q0)", "put_pair(s, at + 1, l.p0, l.q1)"),
]

LINES = [
    Edit("lines/strong", "let d = tc.saturating_add(tc);", "let d = tc;"),
    Edit("lines/strong", "2 * (d as u32) + (e as u32) + 4) >> 3", "2 * (d as u32) + (e as u32) + 3) >> 3"),
    Edit("lines/strong", "(d as u32) + 2) >> 2", "(d as u32) + 1) >> 2"),
    Edit("lines/strong", "(2 * (a as u32) + 3 * (b as u32)", "(3 * (a as u32) + 2 * (b as u32)"),
    Edit("lines/strong", "l.q3, l.q2, l.q1, l.q0, l.p0)", "l.q3, l.q2, l.q1, l.q0, l.q0)"),
    Edit("lines/weak", "1048584", "1048583"),
    Edit("lines/weak", "(tc as u32) * 10 {", "(tc as u32) * 9 {"),
    Edit("lines/weak", "let half = tc >> 1;", "let half = tc;"),
    Edit("lines/weak", "(x0 as u32) + 1) >> 1;", "(x0 as u32)) >> 1;"),
    Edit("lines/weak", "l.q2, l.q1, l.q0, e),", "l.q2, l.q1, l.q0, d),"),
    Edit("lines/delta", "d.min(65536 + w)", "d.min(65537 + w)"),
    Edit("lines/delta", "    ((x as u32) + d).saturating_sub(65536).min(largest as u32) as u16",
         "    let s = ((x as u32) + d).min(65536 + (largest as u32));\n    if s < 65530 { 0 } else { (s - 65536) as u16 }"),
    Edit("lines/delta", ".min(largest as u32)", ".min(65535)"),
    Edit("lines/chroma", "524292", "524291"),
    Edit("lines/chroma", "(4 * (l.p0 as u32) + (l.q1 as u32))", "(4 * (l.p0 as u32) + (l.p1 as u32))"),
]

GATE = [
    Edit("filter/gate", "& !s.disabled", "& !(s.disabled & s.across)"),
    Edit("filter/gate", "p.slice == q.slice", "p.slice <= q.slice"),
    Edit("filter/gate", "slice_at(slices, q.slice as usize)", "slice_at(slices, p.slice as usize)"),
    Edit("filter/gate", "((c.flags / 8 % 2 == 1) & pcm)", "(c.flags / 8 % 2 == 1)"),
    Edit("filter/gate", "(c.flags / 4 % 2 == 1)", "(c.flags / 4 % 4 == 1)"),
    Edit("segments/between", "if luma { 1 } else { 2 }", "if luma { 1 } else { 1 }"),
    Edit("segments/between", "|| !v.same {", "|| (!v.same && input.component.luma) {"),
    Edit("segments/between", "(f.tc > 0).then_some(SegmentFilter::Luma", "(f.tc > 0 || f.beta > 0).then_some(SegmentFilter::Luma",
         "with tc 0 the luma filter, whatever its decision, leaves every sample as it is (theorem tc-zero)"),
    Edit("segments/between", "(f.tc > 0).then_some(SegmentFilter::Chroma", "(f.tc > 0 || f.largest > 0).then_some(SegmentFilter::Chroma",
         "with tc 0 the chroma filter leaves every sample as it is (theorem chroma-tc-zero)"),
    Edit("picture/slices", "beta: 6,", "beta: 5,"),
    Edit("picture/slices", "across: true,", "across: false,",
         "filter across of the empty list's record cannot show: all cells have slice number 0 (theorem across-unseen)"),
    Edit("picture/cells", "u16::from_le_bytes([cells[at + 4], cells[at + 5]])", "(cells[at + 4] as u16) + (cells[at + 5] as u16)"),
]

TILES_AND_POSITIONS = [
    Edit("picture/tiles", "same_tile(starts, p.0, q.0)", "same_tile(starts, q.0, q.0)"),
    Edit("picture/tiles", "same_tile(starts, p, q)", "same_tile(starts, q, q)"),
    Edit("picture/tiles", "**start as usize <= ctb", "(**start as usize) < ctb"),
    Edit("picture/tiles", "p == q || ", "(p == q && p == 0) || ",
         "the lookup that is then made finds one tile for one CTB"),
    Edit("segments/direction", "LumaColumn(q.x.0 - 1)", "LumaColumn(q.x.0)"),
    Edit("segments/direction", "y: q.y - 1", "y: q.y"),
    Edit("picture/rows", "if format == 1 {", "if format == 1 && row < 8 {"),
    Edit("picture/columns", "LumaColumn(2 * self.0)", "LumaColumn(self.0)"),
    # The position that 89, 90 and 91 mistake is the edge flag's too.
    Edit("segments/direction", "luma_row_at(k, l + 1)", "luma_row_at(k, l)",
         "the first and the second sample of a segment lie in one cell in every format (theorem second-sample)"),
    Edit("segments/direction", "luma_row_at(k, l + 1)", "luma_row_at(k, l + 2)"),
    Edit("segments/direction", "luma_column_at(k, l + 1)", "luma_column_at(k, l + 2)"),
    Edit("segments/direction", "q.bsv", "q.bsh"),
    Edit("segments/direction", "q.flags / 2 % 2 == 1", "q.flags % 2 == 1"),
]

PASSES = [
    Edit("strips/vertical", "(8..input.frame.columns)", "(16..input.frame.columns)"),
    Edit("strips/vertical", "(8..input.frame.columns)", "(8..input.frame.columns.saturating_sub(8))"),
    Edit("vertical_pass/lib", ".step_by(4)", ".step_by(8)"),
    Edit("horizontal_pass/lib", "(row0 / 8 + 1) * 8", "(row0 / 8 + 2) * 8"),
    Edit("horizontal_pass/lib", "(first..row1)", "(first..row1.saturating_sub(8))"),
    Edit("strips/horizontal", "(0..input.frame.columns)", "(0..input.frame.columns.saturating_sub(4))"),
    Edit("filter/bands", "(row + height).min(total)", "if row + height < total { row + 4 } else { total }",
         "vertical bands of any number of whole segments give the same planes, by the contract of vertical_band"),
    Edit("filter/bands", "target + 4 - m", "target + 8 - m"),
    Edit("stage/plane", "    vertical_pass(out", "    horizontal_pass(out"),
    Edit("stage/plane", "rows: picture.rows,", "rows: picture.columns,"),  # the vertical pass does not read them
    Edit("stage/components", "depth: settings.chroma_depth,", "depth: settings.luma_depth,"),
    Edit("stage/components", "largest: largest_at(settings.chroma_depth),", "largest: largest_at(settings.luma_depth),"),
    Edit("stage/driver", "biased_offset(settings.cr_qp_offset)", "biased_offset(settings.cb_qp_offset)"),
    Edit("stage/plane", "    out.copy_from_slice(original);", "    for i in 0..original.len() {\n        out[i + 1] = original[i];\n    }"),
]

VERTICAL, HORIZONTAL = "    vertical_pass(out, &input);\n", "    horizontal_pass(out, &input);\n"
RESTORED = "    restore(out, original, cells, r, k, f);\n"
RESTORATION = [
    Edit("stage/plane", VERTICAL + RESTORED, VERTICAL),
    Edit("stage/plane", HORIZONTAL + RESTORED, HORIZONTAL),
    Edit("restore/plane", "row_of_cells(luma_row_at(k, y))", "row_of_cells(y)"),
    Edit("restore/rows", "line[end - 1] = d;", "line[end - 1] = c;"),
    Edit("restore/rows", "let suppressed = sample_suppressed(cells, pcm, n);", "let suppressed = sample_suppressed(cells, true, n);"),
    Edit("restore/marks", "(0..cells.len() / 8)", "(1..cells.len() / 8)",
         "no edge moves a sample of the first cell, so it needs no restoring"),
    Edit("restore/marks", "(0..cells.len() / 8)", "(2..cells.len() / 8)"),
]

CHECKS = [
    Edit("checks/settings", "(8..=8192)", "(8..=8200)"),
    Edit("checks/settings", "(n % 8 != 0)", "(n % 4 != 0)"),
    Edit("checks/settings", "3 < settings.chroma_format", "4 < settings.chroma_format"),
    Edit("checks/settings", "(8..=16)", "(7..=16)"),
    Edit("checks/settings", "(8..=16)", "(8..=17)"),
    Edit("checks/settings", "(4..=6)", "(3..=6)"),
    Edit("checks/settings", "(-12..=12)", "(-12..=13)"),
    Edit("checks/lengths", "(cr != chroma)", "(cr < chroma)"),
    Edit("checks/lengths", "=> bad_planes(settings, y, cb, cr),", "=> bad_planes(settings, y, cb, cb),"),
    Edit("checks/lengths", "(2400 < slices)", "(2404 < slices)"),
    Edit("checks/lengths", "(20 < columns)", "(21 < columns)"),
    Edit("checks/lengths", "(22 < rows)", "(23 < rows)"),
    Edit("list_checks/slices", "(12 < slices[at + 1])", "(13 < slices[at + 1])"),
    Edit("list_checks/slices", "(1 < slices[at + 3])", "(2 < slices[at + 3])"),
    Edit("list_checks/tiles", "starts[k] <= starts[k - 1]", "starts[k] < starts[k - 1]"),
    Edit("list_checks/tiles", "ctbs <= starts[k] as u32", "ctbs < starts[k] as u32"),
    Edit("list_checks/tiles", "(total + size - 1) / size", "total / size"),
    Edit("list_checks/tiles", "first_bad_start(rows, size, settings.height)", "first_bad_start(rows, size, settings.width)"),
    Edit("list_checks/cells", "115 - (least as u32)", "116 - (least as u32)"),
    Edit("list_checks/cells", "(64 - 6 * (depth - 8)) as u8", "(63 - 6 * (depth - 8)) as u8"),
    Edit("list_checks/cells", "{ 2 } else { 0 }", "{ 3 } else { 0 }"),
    Edit("list_checks/cells", "(31 < cell.flags)", "(63 < cell.flags)"),
    Edit("list_checks/cells", "count.min(65536) <= (slice as usize)", "count.min(65536) < (slice as usize)"),
    Edit("list_checks/cells", "16777216 * (seventh as usize)", "16777216 * ((seventh / 2) as usize)"),
    Edit("list_checks/samples", "if largest < plane[k] {", "if largest <= plane[k] {"),
    Edit("list_checks/samples", "256 * *n + 256]", "256 * *n + 255]"),
    Edit("list_checks/samples", "Some(planes.y.len() + k)", "Some(k)"),
    Edit("ledger/settings", "if bad_sizes(settings) {", "if bad_sizes(settings) && !bad_format(settings) {"),
    Edit("ledger/lists", "        return Err(Refusal::Slice(record));",
         "        if first_bad_tile(settings, picture.columns, picture.rows).is_none() {\n"
         "            return Err(Refusal::Slice(record));\n        }"),
    Edit("ledger/numbers", "Refusal::TileStart(_) => 8,", "Refusal::TileStart(_) => 7,"),
    Edit("stage/driver", "    check(picture, Some(lent))?;",
         "    if 0 < outy.len() {\n        outy[0] = 0;\n    }\n    check(picture, Some(lent))?;"),
    Edit("tinladle/deblock", "*place = place_of(answer);", "*place = 0;"),
]

# Document 01, 'Mistakes the port must not make', but offsets from P's slice, which stand above.
MISTAKES = [
    Edit("thresholds/luma", "(p as u32) + (q as u32) + 1)", "(p as u32) + (q as u32) + (if p < 64 && q < 64 { 2 } else { 1 }))"),
    Edit("thresholds/chroma", "} else if 119 < index {",
         "} else if 119 < index && index <= 133 {\n        31 + (index - 106) / 2 + 76\n    } else if 119 < index {"),
    Edit("stage/plane", VERTICAL + RESTORED + HORIZONTAL, HORIZONTAL + RESTORED + VERTICAL),
    Edit("segments/between", "|| !v.same {", "|| !v.same || v.q.flags / 4 % 2 == 1 {"),
    Edit("luma_windows/luma", "filter_turned(s, base, along, d, t);", """for j in 0..4 {
        let at = base + j * along;
        let l = take_line(s, at, 1);
        window_lines::put_line(s, at, 1, lines::luma_line(luma_decision(t.beta, t.tc, l, l).decision, t.largest, t.tc, l));
    }"""),
]

# The empty slice list of document 02's C-13: the record of before, one step further, a disabled one, and for any one record.
EMPTY_LIST = [
    Edit("picture/slices", "tc: 5,", "tc: 6,"),
    Edit("picture/slices", "tc: 5,", "tc: 4,"),
    Edit("picture/slices", "disabled: false,", "disabled: true,"),
    Edit("picture/slices", "if slices.is_empty() {", "if slices.len() <= 4 {"),
]

# The palette cells of document 02's C-19: the bit without a meaning, the PCM switch asked for it, another bit, luma (and 4:4:4) alone, and
# the check of before.
PALETTE = [
    Edit("filter/gate", "(c.flags / 16 % 2 == 1)", "(c.flags / 16 % 2 == 2)"),
    Edit("filter/gate", "(c.flags / 16 % 2 == 1)", "((c.flags / 16 % 2 == 1) & pcm)"),
    Edit("filter/gate", "(c.flags / 16 % 2 == 1)", "(c.flags / 32 % 2 == 1)"),
    Edit("restore/rows", "let suppressed = sample_suppressed(cells, pcm, n);",
         "let suppressed = sample_suppressed(cells, pcm, n) & ((across == 4) | (cells[8 * n + 1] < 16));"),
    Edit("list_checks/cells", "(31 < cell.flags)", "(15 < cell.flags)"),
]

# The rule of document 02's C-14: left out, of one strength alone, the bits exchanged, either bit enough, only where neither strength has
# its edge, strength 2 or 1 alone, another bit, a bit that must stand alone, of strength 0 too, not of marked cells, not of the first
# record; and a pass of its own, after the ranges or before them.
LEFT, TOP = "bad_strength(cell.bsv, cell.flags % 2 == 1)", "bad_strength(cell.bsh, cell.flags / 2 % 2 == 1)"
LARGEST = "if edge { 2 } else { 0 }"
BEGIN = "    (0..cells.len() / 8).find("
RULE = [
    Edit("list_checks/cells", LARGEST, "if edge { 2 } else { 2 }"),
    Edit("list_checks/cells", TOP, "bad_strength(cell.bsh, true)"),
    Edit("list_checks/cells", LEFT, "bad_strength(cell.bsv, true)"),
    Edit("list_checks/cells", f"{LEFT}\n        | {TOP}",
         "bad_strength(cell.bsh, cell.flags % 2 == 1)\n        | bad_strength(cell.bsv, cell.flags / 2 % 2 == 1)"),
    Edit("list_checks/cells", f"{LEFT}\n        | {TOP}",
         "bad_strength(cell.bsv, 0 < cell.flags % 4)\n        | bad_strength(cell.bsh, 0 < cell.flags % 4)"),
    Edit("list_checks/cells", f"{LEFT}\n        | {TOP}",
         f"({LEFT} & {TOP}) | bad_strength(cell.bsv, true) | bad_strength(cell.bsh, true)"),
    Edit("list_checks/cells", LARGEST, "if edge { 2 } else { 1 }"),
    Edit("list_checks/cells", LEFT, f"({LEFT} & (cell.bsv != 2))"),
    Edit("list_checks/cells", "cell.flags / 2 % 2 == 1", "cell.flags / 4 % 2 == 1"),
    Edit("list_checks/cells", "cell.flags % 2 == 1", "cell.flags % 4 == 1"),
    Edit("list_checks/cells", LEFT, "(cell.flags % 2 != 1)"),
    Edit("list_checks/cells", "cell.flags / 2 % 2 == 1", "0 < cell.flags / 2"),
    Edit("list_checks/cells", TOP, f"({TOP} & (0 < n))"),
    Edit("list_checks/cells", BEGIN, """    for k in 0..cells.len() / 8 {
        let c = cell_at(cells, k);
        if bad_qp(c.qp, least) | (31 < c.flags) | (2 < c.bsv) | (2 < c.bsh) | bad_tail(c.slice, cells[8 * k + 6], cells[8 * k + 7], count) {
            return Some(k);
        }
    }
""" + BEGIN),
    Edit("list_checks/cells", BEGIN, """    for k in 0..cells.len() / 8 {
        let c = cell_at(cells, k);
        if ((0 < c.bsv) & (c.flags % 2 == 0)) | ((0 < c.bsh) & (c.flags / 2 % 2 == 0)) {
            return Some(k);
        }
    }
""" + BEGIN),
]

# The conversion of lists (C-14): the bits exchanged, one strength alone, a bit that must stand alone, an edge added in place of the
# strength taken away, all flags cleared, a strength of 1 kept, or one above 2; the first or the last record left out; a last record that is
# not whole converted, or not copied; lengths that differ taken for the same; a refusal that writes; the place not stored; and another
# number.
KEPT = """kept(flags % 2 == 1, cells[at + 2]);
    let horizontal = kept(flags / 2 % 2 == 1, cells[at + 3]);"""
CONVERSION = [
    Edit("conversion/strengths", KEPT, """kept(flags / 2 % 2 == 1, cells[at + 2]);
    let horizontal = kept(flags % 2 == 1, cells[at + 3]);"""),
    Edit("conversion/strengths", "kept(flags % 2 == 1, cells[at + 2])", "cells[at + 2]"),
    Edit("conversion/strengths", "kept(flags / 2 % 2 == 1, cells[at + 3])", "cells[at + 3]"),
    Edit("conversion/strengths", "kept(flags % 2 == 1, cells[at + 2])", "kept(flags % 4 == 1, cells[at + 2])"),
    Edit("conversion/strengths", "    cells[at + 2] = vertical;", "    if vertical < cells[at + 2] { cells[at + 1] = flags + 1; }"),
    Edit("conversion/strengths", "    cells[at + 3] = horizontal;",
         "    if horizontal < cells[at + 3] { cells[at + 1] = 0; }\n    cells[at + 3] = horizontal;"),
    Edit("conversion/strengths", "if edge { bs } else { 0 }", "if edge | (bs == 1) { bs } else { 0 }"),
    Edit("conversion/strengths", "if edge { bs } else { 0 }", "if edge | (2 < bs) { bs } else { 0 }"),
    Edit("conversion/strengths", "0..cells.len() / 8 {", "1..cells.len() / 8 {"),
    Edit("conversion/strengths", "0..cells.len() / 8 {", "0..(cells.len() / 8).saturating_sub(1) {"),
    Edit("conversion/strengths", "0..cells.len() / 8 {", "0..(cells.len() + 4) / 8 {"),
    Edit("conversion/strengths", "out.copy_from_slice(cells);", """let whole = cells.len() / 8 * 8;
    out[..whole].copy_from_slice(&cells[..whole]);"""),
    Edit("conversion/strengths", "if cells.len() != out.len() {", "if out.len() < cells.len() {"),
    Edit("conversion/strengths", "if cells.len() != out.len() {", "if cells.len() / 8 != out.len() / 8 {"),
    Edit("conversion/strengths", "        return false;", "        convert_records(&mut out[..]);\n        return false;"),
    Edit("tinladle/cells", "*place = 0;", "*place = *place;"),
    Edit("tinladle/cells", "        6\n", "        9\n"),
]

# The program convert_cells: parts that tear records, nothing after the first part, a partial record not written, one filled up, a read
# that comes short taken for the end of the input, and a read or a write that fails without a word.
CONVERTER = [
    Edit("conversion_run/parts", "const PART: usize = 32768;", "const PART: usize = 32764;"),
    Edit("conversion_run/parts", "(got == n)", "(n < got)"),
    Edit("conversion_run/parts", ".write_all(made)", ".write_all(&made[..made.len() / 8 * 8])"),
    Edit("conversion_run/parts", "let got = fill(input, errors, list);", "let got = (fill(input, errors, list) + 7) / 8 * 8;"),
    Edit("conversion_run/parts", "if more == 0 {\n            break;",
         "if done + more < list.len() {\n            return done + more;"),
    Edit("conversion_run/parts", '.inspect_err(|_| say(errors, b"the input', '.inspect(|_| say(errors, b"the input'),
    Edit("conversion_run/parts", 'say(errors, b"the output could not be written\\n")',
         '{\n            if list.len() == 0 {\n'
         '                say(errors, b"the output could not be written\\n");\n            }\n        }'),
]

# The counts of document 02's C-20, which the bench prints: the flags the other way round, or not asked; one side's flag for the other;
# a skip that says 1, a strong side that says 2 or 4; Q's count printed for P's, or P's before tc; and the counts of another decision
# where tc is 0.
NONE, STRONG = "SideCounts { p: 0, q: 0 }", "SideCounts { p: 3, q: 3 }"
PRINTED = """tc, b' ');
    out.push_number_then(p, b' ');"""
MADE = """p: 1 + u8::from(do_p1),
            q: 1 + u8::from(do_q1),"""
COUNTS = [
    Edit("lines/counts", MADE, """p: 2 - u8::from(do_p1),
            q: 2 - u8::from(do_q1),"""),
    Edit("lines/counts", MADE, """p: 2,
            q: 2,"""),
    Edit("lines/counts", "u8::from(do_p1)", "u8::from(do_q1)"),
    Edit("lines/counts", "u8::from(do_q1)", "u8::from(do_p1)"),
    Edit("lines/counts", NONE, "SideCounts { p: 1, q: 0 }"),
    Edit("lines/counts", NONE, "SideCounts { p: 0, q: 1 }"),
    Edit("lines/counts", STRONG, "SideCounts { p: 2, q: 3 }"),
    Edit("lines/counts", STRONG, "SideCounts { p: 3, q: 4 }"),
    Edit("bench_lines/lib", "c.p as u16", "c.q as u16"),
    Edit("bench_lines/lib", PRINTED, """p, b' ');
    out.push_number_then(tc, b' ');"""),
    Edit("bench/segment", "lines::with_counts(LumaDecision::Skip)",
         "lines::LumaAnswer { decision: LumaDecision::Skip, counts: lines::with_counts(LumaDecision::Strong).counts }"),
]

# How far samples moved (document 02, C-23), which far_pictures prints: the last of equally far ones, the first place left out, the place
# after, half of the distance, moves up alone; a refusal's place, and one plane for another.
REFUSED = "put_refused(output, number, refusal)"
WITHOUT_PLACE = 'writeln!(output, "{number} {} 0", refusal.number())'
FARTHEST = [
    Edit("moves/lib", "if farthest.distance < distance {", "if farthest.distance <= distance {"),
    Edit("moves/lib", "in 0..before.len()", "in 1..before.len()", "the first sample of a plane lies before every edge and never moves"),
    Edit("moves/lib", "Move { distance, place }", "Move { distance, place: place + 1 }"),
    Edit("moves/lib", "Move { distance, place }", "Move { distance: distance / 2, place }"),
    Edit("moves/lib", "a.abs_diff(b) as u32", "if a < b { (b - a) as u32 } else { 0 }"),
    Edit("picture_text/farthest", REFUSED, WITHOUT_PLACE),
    Edit("picture_text/farthest", "let cb = self.cb;", "let cb = self.cr;"),
    Edit("picture_text/farthest", "cr: farthest_move(before.cr, after.cr)", "cr: farthest_move(before.cb, after.cb)"),
    Edit("picture_text/farthest", "y: farthest_move(before.y, after.y)", "y: farthest_move(after.y, after.y)"),
]

# The checksums of document 02's C-11: no high bytes in the mask, no row in it, or the row after; the high part at depth 8 too, left out at
# 9, left out everywhere, joined without the mask, or the low byte twice; a sum that starts at 1, or is kept modulo 2^31; the last column or
# row left out; width and height exchanged, of luma and of chroma; one component's depth for the other's; Cb for Cr.
CHECKSUM = [
    Edit("checksum/plane", "(n % 256) ^ (n / 256)", "n % 256"),
    Edit("checksum/plane", "folded(x) ^ row", "folded(x)"),
    Edit("checksum/plane", "let row = folded(y);", "let row = folded(y + 1);"),
    Edit("checksum/plane", "if depth <= 8 {", "if depth < 8 {"),
    Edit("checksum/plane", "if depth <= 8 {", "if depth <= 9 {"),
    Edit("checksum/plane", "if depth <= 8 {", "if depth <= 16 {"),
    Edit("checksum/plane", "    with_parts(low, plane, start, width, row, |sample| sample as u32 / 256)", """    let mut sum = low;
    for x in 0..width {
        sum = with_byte(sum, plane[start + x as usize] as u32 / 256, 0);
    }
    sum"""),
    Edit("checksum/plane", "sample as u32 / 256", "sample as u32 % 256"),
    Edit("checksum/plane", "let mut sum = 0;", "let mut sum = 1;"),
    Edit("checksum/plane", "before.wrapping_add(byte ^ mask)", "before.wrapping_add(byte ^ mask) % 2147483648"),
    Edit("checksum/plane", "for x in 0..width {", "for x in 0..width.saturating_sub(1) {"),
    Edit("checksum/plane", "for y in 0..height {", "for y in 0..height.saturating_sub(1) {"),
    Edit("checksum/planes", "settings.width,\n        settings.height,", "settings.height,\n        settings.width,"),
    Edit("checksum/planes", "settings.luma_depth", "settings.chroma_depth"),
    Edit("checksum/planes", "down as u32, settings.chroma_depth", "down as u32, settings.luma_depth"),
    Edit("checksum/planes", "across.0 as u32, down as u32", "down as u32, across.0 as u32"),
    Edit("checksum/planes", "cb: chroma_checksum(settings, planes.cb)", "cb: chroma_checksum(settings, planes.cr)"),
]

# Their checks: 6 before 3, 10 before 6, 3 before 1 and 2; the depths not looked at in format 0; a plane's length taken for another's. And their C
# function: a place not stored, or 0; a refusal that writes; Cb's sum in format 0; two sums, or the two depths, exchanged.
FORMAT = "    check_format(settings)?;\n"
DEPTHS, LENGTHS = (f"    if bad_{name} {{\n        return Err(Refusal::{refusal});\n    }}\n" for name, refusal in [
    ("depths(settings)", "Depth"), ("planes(settings, planes.y.len(), planes.cb.len(), planes.cr.len())", "Lengths")])
SAMPLES = """    if let Some(sample) = first_bad_original(settings, planes) {
        return Err(Refusal::Sample(sample));
    }
"""
CHECKED = [
    Edit("ledger/planes", DEPTHS + LENGTHS, LENGTHS + DEPTHS),
    Edit("ledger/planes", LENGTHS + SAMPLES, SAMPLES + LENGTHS),
    Edit("ledger/planes", FORMAT + DEPTHS, DEPTHS + FORMAT),
    Edit("ledger/planes", "if bad_depths(settings) {", "if bad_depths(settings) & (0 < settings.chroma_format) {"),
    Edit("ledger/planes", "planes.cb.len(), planes.cr.len())", "planes.cb.len(), planes.cb.len())"),
    Edit("tinladle/sums", "*place = 0;", "*place = *place;"),
    Edit("tinladle/sums", "*place = refusal.place();", "*place = 0;"),
    Edit("tinladle/sums", "*place = refusal.place();", "*place = refusal.place();\n            *sum_y = 0;"),
    Edit("tinladle/sums", "*sum_y = luma;\n            0", "*sum_y = luma;\n            *sum_cb = 0;\n            0"),
    Edit("tinladle/sums", "*sum_cb = blue;\n            *sum_cr = red;", "*sum_cb = red;\n            *sum_cr = blue;"),
    Edit("tinladle/sums", "planes_settings(width, height, chroma_format, luma_depth, chroma_depth)",
         "planes_settings(width, height, chroma_format, chroma_depth, luma_depth)"),
]

# What the programs print of them: Cb and Cr exchanged, of given planes and of finished ones; the originals for the finished planes; a
# refusal's place 0, and seven digits.
SUMMED = [
    Edit("picture_run/runs", "picture_checksums(record.picture.settings, &record.picture.planes)", """{
            let given = record.picture.planes;
            let exchanged = picture::Planes { y: given.y, cb: given.cr, cr: given.cb };
            picture_checksums(record.picture.settings, &exchanged)
        }"""),
    Edit("picture_text/sums", REFUSED, WITHOUT_PLACE),
    Edit("picture_text/words", "-> Hex<8>", "-> Hex<7>"),
]
FINISHED = [
    Edit("picture_run/stages", "picture_checksums(settings, out)",
         "picture_checksums(settings, &Planes { y: out.y, cb: out.cr, cr: out.cb })"),
    Edit("picture_run/runs", "finished_checksums(record.picture.settings, verdict, out)",
         "finished_checksums(record.picture.settings, verdict, &record.picture.planes)"),
]

# The float of a sample (C-22): over 2^depth - 1; chroma with another middle or none, without its sign, or below 0 at the middle; luma by
# chroma's rule, and the other way; a part by the other's depth, and Cr's for Cb's.
PARTS = [
    Edit("float_samples/parts", "(power(depth) as f32)", "((power(depth) - 1) as f32)"),
    Edit("float_samples/parts", "65536 >> (16 - depth)", "32768 >> (16 - depth)"),
    Edit("float_samples/parts", "power(depth - 1) as u16", "(power(depth - 1) - 1) as u16"),
    Edit("float_samples/parts", "let half = middle(depth);", "let half: u16 = 0;"),
    Edit("float_samples/parts", "-over(depth, half - sample)", "over(depth, half - sample)"),
    Edit("float_samples/parts", "if sample < half {", "if sample <= half {"),
    Edit("float_samples/parts", "    let half = middle(depth);",
         "    if depth == 16 {\n        return luma_part(depth, sample);\n    }\n    let half = middle(depth);"),
    Edit("float_samples/parts", "luma: luma_part(luma_depth, y)", "luma: chroma_part(luma_depth, y)"),
    Edit("float_samples/parts", "luma: luma_part(luma_depth, y)", "luma: luma_part(chroma_depth, y)"),
    Edit("float_samples/parts", "cb: chroma_part(chroma_depth, cb)", "cb: chroma_part(luma_depth, cb)"),
    Edit("float_samples/parts", "cb: chroma_part(chroma_depth, cb)", "cb: chroma_part(chroma_depth, cr)"),
    Edit("float_samples/parts", "cr: chroma_part(chroma_depth, cr)", "cr: luma_part(chroma_depth, cr)"),
]

# The way back: negative zero taken; floats between two samples taken; samples lost by the scaling, the truncation and its two ends;
# chroma's sides exchanged, its least sample lost; one sample past the range, or all of 16 bits; the last sample lost. And its C function:
# another number, a place not stored, a sample beside a refusal.
HELD = "a sample's float has the same candidate, and a candidate is taken only where it gives the float bit for bit"
WAY_BACK = [
    Edit("float_samples/way_back", "a.to_bits() == b.to_bits()", "a == b"),
    Edit("float_samples/way_back", "if same(given, value) {", "if given <= value {"),
    Edit("float_samples/way_back", "if same(given, value) {", "if value <= given {"),
    Edit("float_samples/way_back", "if same(given, value) {", "if given == given {"),
    Edit("float_samples/way_back", "(power(depth) as f32)", "((power(depth) - 1) as f32)"),
    Edit("float_samples/way_back", "truncating_f32_to_u64(scaled)", "truncating_f32_to_u64(scaled + 1.0)"),
    Edit("float_samples/way_back", "truncating_f32_to_u64(scaled)", "truncating_f32_to_u64(scaled + 0.5)", HELD),
    Edit("float_samples/way_back", "if scaled > -1.0 {", "if scaled > 0.0 {"),
    Edit("float_samples/way_back", "if scaled < 18446744073709551616.0 {", "if scaled < 65535.0 {"),
    Edit("float_samples/way_back", "if scaled < 18446744073709551616.0 {", "if scaled < 65536.0 {", HELD),
    Edit("float_samples/way_back", "half.checked_sub(", "half.checked_add("),
    Edit("float_samples/way_back", "half.checked_add(", "half.checked_sub("),
    Edit("float_samples/way_back", "half.checked_sub(whole_part(depth, -value)?)",
         "half.checked_sub(whole_part(depth, -value)?).filter(|s| 0 < *s)"),
    Edit("float_samples/way_back", "    if chroma {", "    if chroma & (depth < 16) {"),
    Edit("float_samples/way_back", "if s < power(depth) as u64 {", "if s <= power(depth) as u64 {"),
    Edit("float_samples/way_back", "if s < power(depth) as u64 {", "if s < 65536 {"),
    Edit("float_samples/way_back", "if s < power(depth) as u64 {", "if s + 1 < power(depth) as u64 {"),
    Edit("recogniser/way_back", "SampleRefusal::Depth", "SampleRefusal::NoSample"),
    Edit("recogniser/way_back", "find_sample(depth, chroma, value).ok_or(SampleRefusal::NoSample)",
         "Ok(find_sample(depth, chroma, value).unwrap_or(0))"),
    Edit("recogniser/way_back", "find_sample(depth, chroma, value)", "find_sample(depth, chroma & (value < 0.5), value)"),
    Edit("tinladle/recovered", "*place = 0;", "*place = *place;"),
    Edit("tinladle/recovered", "Err(SampleRefusal::NoSample) => 15,", "Err(SampleRefusal::NoSample) => 14,"),
    Edit("tinladle/recovered", "Err(SampleRefusal::Depth) => 3,", "Err(SampleRefusal::Depth) => 15,"),
    Edit("tinladle/recovered", "Err(SampleRefusal::NoSample) => 15,",
         "Err(SampleRefusal::NoSample) => {\n            *sample = 0;\n            15\n        }"),
    Edit("tinladle/recovered", "*sample = found;", "*sample = if found < 65535 { found } else { 0 };"),
]

# A pixel: the one to the right, and column and row exchanged; chroma not under it, by the luma width, or rounded up; Cb and Cr exchanged;
# grey by the other depth; a column or row past the end taken; 14 before the planes' checks. And its C function: a place not stored, or 0;
# 15 for 14; what is stored beside a refusal, and of Cb in format 0; two parts, or the two depths, exchanged.
OUTSIDE = """    if is_outside(settings, column, row) {
        return Err(PixelRefusal::Outside);
    }
"""
VERDICT = "    check_planes(settings, planes)?;\n"
ASKED = [
    Edit("recogniser/pixels", "    y * width + x\n", "    y * width + x + 1\n"),
    Edit("recogniser/pixels", "    y * width + x\n", "    x * width + y\n"),
    Edit("recogniser/pixels", "y[index_of(settings.width as usize, column as usize, row as usize)]",
         "y[index_of(settings.width as usize, row as usize, column as usize)]"),
    Edit("recogniser/pixels", "column_under(settings.chroma_format, column)", "column as usize"),
    Edit("recogniser/pixels", "chroma_rows(settings.chroma_format, row as usize)", "row as usize"),
    Edit("recogniser/pixels", "index_of(width.0, x, y)", "index_of(settings.width as usize, x, y)"),
    Edit("recogniser/pixels", "LumaColumn(column as usize)", "LumaColumn(column as usize + 1)"),
    Edit("recogniser/pixels", "planes.cb[index],\n        planes.cr[index],", "planes.cr[index],\n        planes.cb[index],"),
    Edit("recogniser/pixels", "part(settings.luma_depth, false, luma)", "part(settings.chroma_depth, false, luma)"),
    Edit("recogniser/pixels", "(settings.width <= column)", "(settings.width < column)"),
    Edit("recogniser/pixels", "(settings.height <= row)", "(settings.height < row)"),
    Edit("recogniser/pixels", "(settings.width <= column) | (settings.height <= row)",
         "(settings.width <= row) | (settings.height <= column)"),
    Edit("recogniser/pixels", VERDICT + OUTSIDE, OUTSIDE + VERDICT),
    Edit("tinladle/pixels", "*place = 0;", "*place = *place;"),
    Edit("tinladle/pixels", "*place = refusal.place();", "*place = 0;"),
    Edit("tinladle/pixels", "Err(PixelRefusal::Outside) => 14,", "Err(PixelRefusal::Outside) => 15,"),
    Edit("tinladle/pixels", "Err(PixelRefusal::Outside) => 14,",
         "Err(PixelRefusal::Outside) => {\n            *luma = 0.0;\n            14\n        }"),
    Edit("tinladle/pixels", "*place = refusal.place();", "*place = refusal.place();\n            *cr_part = 0.0;"),
    Edit("tinladle/pixels", "*luma = grey;", "*luma = grey;\n            *cb_part = grey;"),
    Edit("tinladle/pixels", "*cb_part = parts.cb;\n            *cr_part = parts.cr;",
         "*cb_part = parts.cr;\n            *cr_part = parts.cb;"),
    Edit("tinladle/pixels", "planes_settings(width, height, chroma_format, luma_depth, chroma_depth)",
         "planes_settings(width, height, chroma_format, chroma_depth, luma_depth)"),
    Edit("tinladle/pixels", "&Planes { y, cb, cr }, column, row)", "&Planes { y, cb, cr }, row, column)"),
]

# What the gate's programs print of them: column and row exchanged, a pixel outside told as 15, Cb before luma; of a float the other kind,
# a NaN's pattern taken for a number, 14 for 15.
SHOWN = [
    Edit("picture_run/runs", "word(&at, 0),\n            word(&at, 1),", "word(&at, 1),\n            word(&at, 0),"),
    Edit("picture_text/floats", "{number} 14 0", "{number} 15 0"),
    Edit("picture_text/floats", "{luma} {cb} {cr}", "{cb} {luma} {cr}"),
]
READ = [
    Edit("float_cases/main", "word(&words, 1) != 0", "word(&words, 1) == 1"),
    Edit("float_cases/main", "return 0.0 / 0.0;", "return 0.0;"),
    Edit("picture_text/floats", "{number} 15 0", "{number} 14 0"),
]


def built_as(crate, edits):
    return [edit._replace(built=crate) for edit in edits]


EDITS = [*THRESHOLDS, *DECISION, *LINES, *WINDOWS, *GATE, *TILES_AND_POSITIONS, *PASSES, *RESTORATION, *CHECKS, *MISTAKES,
         *EMPTY_LIST, *PALETTE, *RULE, *CONVERSION, *built_as("convert_cells", CONVERTER), *built_as("segment_bench", COUNTS),
         *built_as("far_pictures", FARTHEST), *CHECKSUM, *CHECKED, *built_as("checksum_cases", SUMMED),
         *built_as("real_checksums", FINISHED), *PARTS, *WAY_BACK, *ASKED,
         *built_as("pixel_cases", SHOWN), *built_as("float_cases", READ)]
