//! The customer's kernels, each call of them counted, and its window held to the bounds of document 02's C-23.

use std::cell::RefCell;

use super::line_bounds::{Limits, LineMoves, Window, chroma_limits, luma_limits};
use crate::deblock::{self, LumaDecision};
use crate::exec;

/// How often the kernels were called, for luma by the decision; and how far they moved samples.
#[derive(Clone, Copy, Default)]
pub struct Calls {
    pub strong: u64,
    pub weak: u64,
    pub chroma: u64,
    pub moves: LineMoves,
}

thread_local! {
    // A pool of one thread runs its bands on the caller's thread, so that each of our threads counts for itself.
    static CALLS: RefCell<Calls> = RefCell::default();
}

/// Counts from nothing on.
pub fn begin() {
    CALLS.take();
}

/// What was counted since.
pub fn calls() -> Calls {
    CALLS.with_borrow(|calls| *calls)
}

/// Runs a kernel on its band, and counts what it moves of its window.
fn watched(band: &mut [u16], window: Window, limits: Limits, kernel: impl FnOnce(&mut [u16])) {
    let before = window.lines(band);
    kernel(band);
    let after = window.lines(band);
    CALLS.with_borrow_mut(|calls| calls.moves.count(&window, &limits, &before, &after));
}

fn count_luma(decision: LumaDecision) {
    CALLS.with_borrow_mut(|calls| *(if decision == LumaDecision::Strong { &mut calls.strong } else { &mut calls.weak }) += 1);
}

fn count_chroma() {
    CALLS.with_borrow_mut(|calls| calls.chroma += 1);
}

fn luma_vertical(p: &mut [u16], w: usize, edge: usize, s: usize, row: usize, d: LumaDecision, tc: i32, most: i32) {
    count_luma(d);
    let kernel = |p: &mut [u16]| deblock::luma_vertical_plane_scalar(p, w, edge, s, row, d, tc, most);
    watched(p, Window::vertical(w, edge, s, row), luma_limits(d, tc), kernel);
}

fn luma_horizontal(p: &mut [u16], w: usize, edge: usize, s: usize, row: usize, d: LumaDecision, tc: i32, most: i32) {
    count_luma(d);
    let kernel = |p: &mut [u16]| deblock::luma_horizontal_plane_scalar(p, w, edge, s, row, d, tc, most);
    watched(p, Window::horizontal(w, edge, s, row), luma_limits(d, tc), kernel);
}

fn chroma_vertical(p: &mut [u16], w: usize, edge: usize, s: usize, row: usize, tc: i32, most: i32) {
    count_chroma();
    let kernel = |p: &mut [u16]| deblock::chroma_vertical_plane_scalar(p, w, edge, s, row, tc, most);
    watched(p, Window::vertical(w, edge, s, row), chroma_limits(tc), kernel);
}

fn chroma_horizontal(p: &mut [u16], w: usize, edge: usize, s: usize, row: usize, tc: i32, most: i32) {
    count_chroma();
    let kernel = |p: &mut [u16]| deblock::chroma_horizontal_plane_scalar(p, w, edge, s, row, tc, most);
    watched(p, Window::horizontal(w, edge, s, row), chroma_limits(tc), kernel);
}

pub(crate) fn kernels() -> exec::ExecContext {
    exec::ExecContext {
        luma_deblock_vertical: luma_vertical,
        luma_deblock_horizontal: luma_horizontal,
        chroma_deblock_vertical: chroma_vertical,
        chroma_deblock_horizontal: chroma_horizontal,
        ..exec::ExecContext::scalar()
    }
}
