//! The segment bench of document 01, with the customer's own Rust doing the filtering.
//!
//! Ours: reading the records, the refusals, `short` and the text, and the counts of document 02's C-20, by
//! the customer's decision. The customer's: the average QP, the table indices and their clamps, the
//! tables, the scaling, the decision and the filter.

#![allow(dead_code)] // most of the customer's file is not called from here

use std::io::{self, Read, Write};

mod shims;
use shims::{config, decode, exec, threadpool, tiles};

/// The customer's deblock.rs, unchanged, and beside it one function, which so sees its private items.
mod deblock {
    include!("../target/oracle/customer/src/deblock.rs");

    use crate::Segment;

    // The segment lies in a picture of 16 by 8: the vertical edge at column 8, rows 0 to 3.
    const WIDTH: usize = 16;
    const HEIGHT: usize = 8;
    const EDGE: usize = 8;

    /// Filters the segment; returns the decision and the scaled tc.
    pub(crate) fn filter_segment(segment: &mut Segment) -> (LumaDecision, i32) {
        let mut plane = vec![0u16; WIDTH * HEIGHT];
        for (row, line) in segment.lines.iter().enumerate() {
            plane[row * WIDTH + EDGE - 4..][..8].copy_from_slice(line);
        }

        // On a skip the customer's function does not say what tc is. It does on a flat picture with
        // beta at its largest row, where every segment with a tc is strong; 51 reaches that row from
        // every QP.
        let flat = vec![0u16; WIDTH * HEIGHT];
        let tc = with_context(segment, 51, |ctx| {
            luma_vertical_segment_params(ctx, &flat, WIDTH, 0, HEIGHT, EDGE, 0)
        })
        .map_or(0, |(_, tc)| tc);

        let decision = with_context(segment, segment.beta_offset_div2, |ctx| {
            // The customer's whole pass, to hold the one segment against.
            let mut passed = plane.clone();
            luma_vertical(ctx, &mut passed, 0, HEIGHT);

            let params = luma_vertical_segment_params(ctx, &plane, WIDTH, 0, HEIGHT, EDGE, 0);
            if let Some((decision, its_tc)) = params {
                assert_eq!(its_tc, tc);
                let largest = (1 << ctx.bd) - 1;
                luma_vertical_plane_scalar(&mut plane, WIDTH, EDGE, 0, 0, decision, tc, largest);
            }
            assert_eq!(plane, passed);
            params.map_or(LumaDecision::Skip, |(decision, _)| decision)
        });

        for (row, line) in segment.lines.iter_mut().enumerate() {
            line.copy_from_slice(&plane[row * WIDTH + EDGE - 4..][..8]);
        }
        (decision, tc)
    }

    /// One slice, one tile, and one edge: that of the cell at column 8, row 0.
    fn with_context<T>(
        segment: &Segment,
        beta_offset_div2: i32,
        run: impl FnOnce(&DeblockCtx<'_>) -> T,
    ) -> T {
        let (p, q) = (segment.qp_p, segment.qp_q);
        let slice = SliceDeblock {
            disabled: false,
            beta_offset_div2,
            tc_offset_div2: segment.tc_offset_div2,
        };
        run(&DeblockCtx {
            exec: ExecContext::scalar(),
            w: WIDTH,
            h: HEIGHT,
            cw: 0,
            ch: 0,
            gw: 4,
            gh: 2,
            sub_w: 1,
            sub_h: 1,
            bd: segment.depth,
            bd_c: segment.depth,
            chroma_idc: 0,
            cb_qp_offset: 0,
            cr_qp_offset: 0,
            beta_offset: 0,
            tc_offset: 0,
            deblocking_disabled: false,
            default_qp: 0,
            log2_ctb: 4,
            qp_y_map: &[p, p, q, q, p, p, q, q],
            tqb: &[false; 8],
            edge_v: &[false, false, true, false, false, false, false, false],
            edge_h: &[false; 8],
            bs_v: &[0, 0, segment.bs, 0, 0, 0, 0, 0],
            bs_h: &[0; 8],
            pcm: &[false; 8],
            slice_idx: &[0; 8],
            slice_deblock: &[slice],
            slice_lf_across: &[true],
            pcm_loop_filter_disabled: false,
            loop_filter_across_slices: true,
            tile_grid: None,
        })
    }
}

const RECORD: usize = 72;
const HEADER: usize = 8;

/// A record that is not refused. A line runs from p3 to q3.
pub(crate) struct Segment {
    depth: u8,
    bs: u8,
    qp_p: i16,
    qp_q: i16,
    beta_offset_div2: i32,
    tc_offset_div2: i32,
    lines: [[u16; 8]; 4],
}

impl Segment {
    /// The segment, or the number of the first refusal that applies.
    fn read(record: &[u8]) -> Result<Segment, u8> {
        let [depth, bs, qp_p, qp_q, beta, tc, zero_6, zero_7] =
            *record.first_chunk::<HEADER>().expect("a whole record");
        if !(8..=16).contains(&depth) {
            return Err(3);
        }
        if beta > 12 || tc > 12 {
            return Err(7);
        }
        let qps = 64 - 6 * (depth - 8)..=64 + 51;
        if bs > 2 || !qps.contains(&qp_p) || !qps.contains(&qp_q) || zero_6 != 0 || zero_7 != 0 {
            return Err(9);
        }
        let mut lines = [[0; 8]; 4];
        for (sample, bytes) in lines.as_flattened_mut().iter_mut().zip(record[HEADER..].chunks(2)) {
            *sample = u16::from_le_bytes([bytes[0], bytes[1]]);
            if u32::from(*sample) >= 1 << depth {
                return Err(10);
            }
        }
        Ok(Segment {
            depth,
            bs,
            qp_p: i16::from(qp_p) - 64,
            qp_q: i16::from(qp_q) - 64,
            beta_offset_div2: i32::from(beta) - 6,
            tc_offset_div2: i32::from(tc) - 6,
            lines,
        })
    }
}

fn answer(record: &[u8], out: &mut impl Write) -> io::Result<()> {
    if record.len() < RECORD {
        return writeln!(out, "short");
    }
    let mut segment = match Segment::read(record) {
        Ok(segment) => segment,
        Err(number) => return writeln!(out, "refused {number}"),
    };
    let before = segment.lines;
    let (decision, tc) = deblock::filter_segment(&mut segment);
    let (kind, p, q) = match decision {
        deblock::LumaDecision::Skip => ("skip", 0, 0),
        deblock::LumaDecision::Strong => ("strong", 3, 3),
        deblock::LumaDecision::Weak { do_p1, do_q1 } => ("weak", 1 + usize::from(do_p1), 1 + usize::from(do_q1)),
    };
    // The customer's filter leaves what lies beyond the counted samples.
    for (old, new) in before.iter().zip(&segment.lines) {
        assert_eq!((&old[..4 - p], &old[4 + q..]), (&new[..4 - p], &new[4 + q..]));
    }
    writeln!(out, "{kind} {tc} {p} {q}")?;
    for line in segment.lines {
        writeln!(out, "{}", line.map(|sample| sample.to_string()).join(" "))?;
    }
    Ok(())
}

fn main() -> io::Result<()> {
    let mut input = Vec::new();
    io::stdin().lock().read_to_end(&mut input)?;
    let mut out = io::BufWriter::new(io::stdout().lock());
    for record in input.chunks(RECORD) {
        answer(record, &mut out)?;
    }
    out.flush()
}
