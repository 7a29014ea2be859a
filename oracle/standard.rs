//! The second program: the deblocking of ITU-T H.265, clause 8.7.2, on an accepted picture, step by step in the clause's order and with
//! its names. It decides where the customer's Rust does not follow the clause (docs/DIFFERENCES.md, 1), and on pictures with palette cells,
//! which the Rust has not (9).

use crate::gate::{Direction, Open, Segment, gate, segments};
use crate::picture::Picture;

/// Table 8-12, beta′ at Q 0 to 51.
const BETA: [i32; 52] = [
    0, 0, 0, 0, 0, 0, 0, 0, 0, 0, 0, 0, 0, 0, 0, 0, 6, 7, 8, 9, 10, 11, 12, 13, 14, 15, 16, 17, 18, 20, 22, 24, 26, 28, 30, 32, 34, 36, 38,
    40, 42, 44, 46, 48, 50, 52, 54, 56, 58, 60, 62, 64,
];
/// Table 8-12, tC′ at Q 0 to 53.
const TC: [i32; 54] = [
    0, 0, 0, 0, 0, 0, 0, 0, 0, 0, 0, 0, 0, 0, 0, 0, 0, 0, 1, 1, 1, 1, 1, 1, 1, 1, 1, 2, 2, 2, 2, 3, 3, 3, 3, 4, 4, 4, 5, 5, 6, 6, 7, 8, 9,
    10, 11, 13, 14, 16, 18, 20, 22, 24,
];
/// Table 8-10, QpC at qPi 30 to 43.
const QPC: [i32; 14] = [29, 30, 31, 32, 33, 33, 34, 34, 35, 35, 36, 36, 37, 37];

/// Clip3 of clause 5.8.
fn clip3(low: i32, high: i32, v: i32) -> i32 {
    if v < low {
        low
    } else if v > high {
        high
    } else {
        v
    }
}

/// A line of samples across an edge: p3 to p0, then q0 to q3.
#[derive(Clone, Copy)]
struct Line {
    p: [i32; 4],
    q: [i32; 4],
}

/// A plane in the making.
struct Plane<'a> {
    samples: &'a mut [u16],
    columns: usize,
    largest: i32,
}

impl Plane<'_> {
    /// Where sample q0 of line k stands, and how far it is to the next sample of the line.
    fn place(&self, s: &Segment, k: usize) -> (usize, usize) {
        match s.direction {
            Direction::Vertical => ((s.row + k) * self.columns + s.column, 1),
            Direction::Horizontal => (s.row * self.columns + s.column + k, self.columns),
        }
    }

    fn line(&self, s: &Segment, k: usize) -> Line {
        let (at, step) = self.place(s, k);
        let sample = |number: usize| i32::from(self.samples[number]);
        Line { p: [0, 1, 2, 3].map(|i| sample(at - (i + 1) * step)), q: [0, 1, 2, 3].map(|i| sample(at + i * step)) }
    }

    /// Writes the first nDp samples of P and the first nDq of Q.
    fn put(&mut self, s: &Segment, k: usize, line: &Line, n_dp: usize, n_dq: usize) {
        let (at, step) = self.place(s, k);
        (0..n_dp).for_each(|i| self.samples[at - (i + 1) * step] = line.p[i] as u16);
        (0..n_dq).for_each(|i| self.samples[at + i * step] = line.q[i] as u16);
    }

    fn clip1(&self, v: i32) -> i32 {
        clip3(0, self.largest, v)
    }
}

/// Whether P and Q of line k are left alone: nDp, nDq become 0 (8.7.2.5.7), by the cell of p0 and of q0: PCM with the switch on, lossless
/// or palette mode (document 02, C-19).
fn suppressed(p: &Picture, s: &Segment, k: usize) -> (bool, bool) {
    let (across, down) = p.plane_scales(s.plane);
    let at = |column: usize, row: usize| p.suppressed(row * down / 4 * p.cells_across() + column * across / 4);
    match s.direction {
        Direction::Vertical => (at(s.column - 1, s.row + k), at(s.column, s.row + k)),
        Direction::Horizontal => (at(s.column + k, s.row - 1), at(s.column + k, s.row)),
    }
}

/// 8.7.2.5.6
fn d_sam(line: &Line, dpq: i32, beta: i32, tc: i32) -> bool {
    let Line { p, q } = line;
    dpq < (beta >> 2) && (p[3] - p[0]).abs() + (q[0] - q[3]).abs() < (beta >> 3) && (p[0] - q[0]).abs() < (5 * tc + 1) >> 1
}

/// dE, dEp and dEq of 8.7.2.5.3, of lines 0 and 3.
fn luma_decision(line0: &Line, line3: &Line, beta: i32, tc: i32) -> (i32, bool, bool) {
    let second = |s: &[i32; 4]| (s[2] - 2 * s[1] + s[0]).abs();
    let (dp0, dp3, dq0, dq3) = (second(&line0.p), second(&line3.p), second(&line0.q), second(&line3.q));
    let (dpq0, dpq3, dp, dq) = (dp0 + dq0, dp3 + dq3, dp0 + dp3, dq0 + dq3);
    if dpq0 + dpq3 >= beta {
        return (0, false, false);
    }
    let strong = d_sam(line0, 2 * dpq0, beta, tc) && d_sam(line3, 2 * dpq3, beta, tc);
    let side = (beta + (beta >> 1)) >> 3;
    (if strong { 2 } else { 1 }, dp < side, dq < side)
}

/// 8.7.2.5.7 with dE 2: the three samples of one side, `a`, beside the first two of the other, `b`.
fn strong_side(a: &[i32; 4], b: &[i32; 4], tc: i32) -> [i32; 4] {
    let near = |s: i32, v: i32| clip3(s - 2 * tc, s + 2 * tc, v);
    [
        near(a[0], (a[2] + 2 * a[1] + 2 * a[0] + 2 * b[0] + b[1] + 4) >> 3),
        near(a[1], (a[2] + a[1] + a[0] + b[0] + 2) >> 2),
        near(a[2], (2 * a[3] + 3 * a[2] + a[1] + a[0] + b[0] + 4) >> 3),
        a[3],
    ]
}

/// 8.7.2.5.7 with dE 1: the line, nDp and nDq.
fn weak_line(plane: &Plane, line: &Line, d_ep: bool, d_eq: bool, tc: i32) -> (Line, usize, usize) {
    let Line { p, q } = *line;
    let delta = (9 * (q[0] - p[0]) - 3 * (q[1] - p[1]) + 8) >> 4;
    if delta.abs() >= tc * 10 {
        return (*line, 0, 0);
    }
    let delta = clip3(-tc, tc, delta);
    let beside = |s: &[i32; 4], delta: i32| clip3(-(tc >> 1), tc >> 1, (((s[2] + s[0] + 1) >> 1) - s[1] + delta) >> 1);
    let moved = Line {
        p: [plane.clip1(p[0] + delta), plane.clip1(p[1] + beside(&p, delta)), p[2], p[3]],
        q: [plane.clip1(q[0] - delta), plane.clip1(q[1] + beside(&q, -delta)), q[2], q[3]],
    };
    (moved, usize::from(d_ep) + 1, usize::from(d_eq) + 1)
}

/// tC of 8.7.2.5.3 and 8.7.2.5.5, of a QP.
fn tc_of(qp: i32, open: &Open, depth: u32) -> i32 {
    TC[clip3(0, 53, qp + 2 * (open.bs - 1) + (open.tc_offset_div2 << 1)) as usize] * (1 << (depth - 8))
}

/// 8.7.2.5.3 and 8.7.2.5.4
fn luma_segment(p: &Picture, plane: &mut Plane, s: &Segment, open: &Open) {
    let beta = BETA[clip3(0, 51, open.average + (open.beta_offset_div2 << 1)) as usize] * (1 << (p.luma_depth - 8));
    let tc = tc_of(open.average, open, p.luma_depth);
    let (d_e, d_ep, d_eq) = luma_decision(&plane.line(s, 0), &plane.line(s, 3), beta, tc);
    if d_e == 0 {
        return;
    }
    for k in 0..4 {
        let line = plane.line(s, k);
        let (moved, n_dp, n_dq) = if d_e == 2 {
            (Line { p: strong_side(&line.p, &line.q, tc), q: strong_side(&line.q, &line.p, tc) }, 3, 3)
        } else {
            weak_line(plane, &line, d_ep, d_eq, tc)
        };
        let (p_stays, q_stays) = suppressed(p, s, k);
        plane.put(s, k, &moved, if p_stays { 0 } else { n_dp }, if q_stays { 0 } else { n_dq });
    }
}

/// QpC of 8.7.2.5.5: qPi is not clipped.
fn chroma_qp(format: u32, index: i32) -> i32 {
    if format != 1 {
        return index.min(51);
    }
    match index {
        ..30 => index,
        30..=43 => QPC[index as usize - 30],
        44.. => index - 6,
    }
}

/// 8.7.2.5.5 and 8.7.2.5.8. Two samples of each side are looked at.
fn chroma_segment(p: &Picture, plane: &mut Plane, s: &Segment, open: &Open) {
    let tc = tc_of(chroma_qp(p.format, open.chroma_index(p, s.plane)), open, p.chroma_depth);
    for k in 0..4 {
        let line = plane.line(s, k);
        let Line { p: side_p, q: side_q } = line;
        let delta = clip3(-tc, tc, (((side_q[0] - side_p[0]) << 2) + side_p[1] - side_q[1] + 4) >> 3);
        let mut moved = line;
        moved.p[0] = plane.clip1(side_p[0] + delta);
        moved.q[0] = plane.clip1(side_q[0] - delta);
        let (p_stays, q_stays) = suppressed(p, s, k);
        plane.put(s, k, &moved, usize::from(!p_stays), usize::from(!q_stays));
    }
}

/// The planes of an accepted picture after deblocking (8.7.2.1): in each all vertical edges first, then all horizontal ones.
pub fn deblocked(p: &Picture) -> [Vec<u16>; 3] {
    let mut planes = p.planes.clone();
    for (number, samples) in planes.iter_mut().enumerate() {
        let largest = (1 << p.plane_depth(number)) - 1;
        let mut plane = Plane { samples, columns: p.plane_size(number).0, largest };
        for direction in [Direction::Vertical, Direction::Horizontal] {
            for segment in segments(p, number, direction) {
                let Ok(open) = gate(p, &segment) else { continue };
                if number == 0 {
                    luma_segment(p, &mut plane, &segment, &open);
                } else {
                    chroma_segment(p, &mut plane, &segment, &open);
                }
            }
        }
    }
    planes
}
