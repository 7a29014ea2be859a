//! What a run exercised. All of it is sums and largest shares, so that it does not matter which thread ran what.

use crate::check::{Agreed, Found};
use crate::coverage::{Coverage, ENTRIES, Segments};
use crate::damage;
use crate::far_tally::FarTally;
use crate::ledger::Verdict;
use crate::lists::Lists;
use crate::moves::Shares;
use crate::picture::Picture;
use crate::pixels_tally::PixelsTally;
use crate::planes_tally::{PicturesTally, PlanesTally};

/// Counts by a small number: pictures, and segments that the kernels filtered, or those of the pictures that meet their bounds.
pub type Table<const N: usize> = [(u64, u64); N];

/// Pictures that C-14's rule alone refuses. Each is looked at converted too, and is accepted then.
#[derive(Clone, Copy, Default)]
struct OutOfRule {
    pictures: u64,
    later_places: u64,
    zeroed: u64,
    /// Those of which the Rust decides, on the unconverted one.
    beside_rust: u64,
}

impl OutOfRule {
    fn count(&mut self, verdict: Verdict, a: &Agreed, zeroed: u64) {
        if zeroed == 0 {
            return;
        }
        self.pictures += 1;
        self.later_places += u64::from(verdict.1 > 0);
        self.zeroed += zeroed;
        self.beside_rust += u64::from(!a.left_out);
    }

    fn add(&mut self, more: &OutOfRule) {
        self.pictures += more.pictures;
        self.later_places += more.later_places;
        self.zeroed += more.zeroed;
        self.beside_rust += more.beside_rust;
    }

    fn print(&self, name: &str) {
        println!(
            "  {name} {}, place not 0 {}; strengths zeroed {}; unconverted beside the Rust {}",
            self.pictures, self.later_places, self.zeroed, self.beside_rust
        );
    }
}

#[derive(Default)]
pub struct Tally {
    pub accepted: u64,
    pub refused: [u64; 11],
    several: u64,
    later_places: u64,
    kinds: Vec<u64>,
    coverage: Coverage,
    strong: u64,
    weak: u64,
    chroma: u64,
    moved: [u64; 3],
    tiles: u64,
    tiled: u64,
    most_tiles: u64,
    absent_grids: u64,
    left_out: u64,
    parted: u64,
    empty_lists: u64,
    refused_empty_lists: u64,
    with_palette: u64,
    turned_beside: u64,
    refused_with_palette: u64,
    out_of_rule: OutOfRule,
    refused_out_of_rule: OutOfRule,
    pub lists: Lists,
    pub far: FarTally,
    pub summed: PicturesTally,
    pub planes: PlanesTally,
    pub pixels: PixelsTally,
    /// Of the accepted pictures.
    shares: Shares,
    many_slices: u64,
    luma_samples: u64,
    sides: [u64; 5],
    formats: Table<4>,
    luma_depths: Table<9>,
    chroma_depths: Table<9>,
    ctbs: Table<3>,
}

fn side_class(p: &Picture) -> usize {
    match p.width.max(p.height) {
        ..=64 => 0,
        65..=136 => 1,
        137..=512 => 2,
        513..=2048 => 3,
        _ => 4,
    }
}

pub fn add<const N: usize>(into: &mut Table<N>, from: &Table<N>) {
    into.iter_mut().zip(from).for_each(|(a, b)| *a = (a.0 + b.0, a.1 + b.1));
}

impl Tally {
    pub fn new() -> Self {
        Tally { kinds: vec![0; damage::kinds().count()], ..Tally::default() }
    }

    pub fn count_accepted(&mut self, p: &Picture, verdict: Verdict, a: &Agreed, zeroed: u64) {
        self.accepted += 1;
        self.out_of_rule.count(verdict, a, zeroed);
        self.coverage.add(&a.coverage);
        let (luma, chroma) = (a.calls.strong + a.calls.weak, a.calls.chroma);
        self.strong += a.calls.strong;
        self.weak += a.calls.weak;
        self.chroma += chroma;
        (0..3).for_each(|plane| self.moved[plane] += a.moved[plane]);
        self.shares.count(a);
        self.tiles += a.tiles;
        self.tiled += u64::from(a.tiles > 1);
        self.most_tiles = self.most_tiles.max(a.tiles);
        self.absent_grids += u64::from(a.absent_grid);
        self.left_out += u64::from(a.left_out);
        self.parted += u64::from(a.parted);
        self.empty_lists += u64::from(p.slices.is_empty());
        let palette = a.coverage.suppressed.palette > 0;
        self.with_palette += u64::from(palette);
        self.turned_beside += u64::from(palette && !a.left_out);
        self.many_slices += u64::from(p.slices.len() == 2400);
        self.luma_samples += p.planes[0].len() as u64;
        self.sides[side_class(p)] += 1;
        let count = |entry: &mut (u64, u64), segments: u64| *entry = (entry.0 + 1, entry.1 + segments);
        count(&mut self.formats[p.format as usize], chroma);
        count(&mut self.luma_depths[p.luma_depth as usize - 8], luma);
        if p.format > 0 {
            count(&mut self.chroma_depths[p.chroma_depth as usize - 8], chroma);
        }
        count(&mut self.ctbs[p.log2_ctb as usize - 4], luma + chroma);
    }

    pub fn count_refused(&mut self, p: &Picture, verdict: Verdict, kinds: &[usize], found: &Found) {
        self.refused[verdict.0 as usize] += 1;
        if let Some(converted) = &found.agreed {
            self.refused_out_of_rule.count(verdict, converted, found.zeroed);
        }
        self.refused_empty_lists += u64::from(p.slices.is_empty());
        self.refused_with_palette += u64::from(p.palette_cells() > 0);
        self.later_places += u64::from(verdict.1 > 0);
        self.several += u64::from(kinds.len() > 1);
        kinds.iter().for_each(|&kind| self.kinds[kind] += 1);
    }

    pub fn add(&mut self, more: &Tally) {
        self.accepted += more.accepted;
        self.refused.iter_mut().zip(more.refused).for_each(|(a, b)| *a += b);
        self.kinds.iter_mut().zip(&more.kinds).for_each(|(a, b)| *a += b);
        self.moved.iter_mut().zip(more.moved).for_each(|(a, b)| *a += b);
        self.sides.iter_mut().zip(more.sides).for_each(|(a, b)| *a += b);
        self.several += more.several;
        self.later_places += more.later_places;
        self.coverage.add(&more.coverage);
        self.strong += more.strong;
        self.weak += more.weak;
        self.chroma += more.chroma;
        self.tiles += more.tiles;
        self.tiled += more.tiled;
        self.most_tiles = self.most_tiles.max(more.most_tiles);
        self.absent_grids += more.absent_grids;
        self.left_out += more.left_out;
        self.parted += more.parted;
        self.empty_lists += more.empty_lists;
        self.refused_empty_lists += more.refused_empty_lists;
        self.with_palette += more.with_palette;
        self.turned_beside += more.turned_beside;
        self.refused_with_palette += more.refused_with_palette;
        self.out_of_rule.add(&more.out_of_rule);
        self.refused_out_of_rule.add(&more.refused_out_of_rule);
        self.lists.add(&more.lists);
        self.far.add(&more.far);
        self.summed.add(&more.summed);
        self.planes.add(&more.planes);
        self.pixels.add(&more.pixels);
        self.shares.add(&more.shares);
        self.many_slices += more.many_slices;
        self.luma_samples += more.luma_samples;
        add(&mut self.formats, &more.formats);
        add(&mut self.luma_depths, &more.luma_depths);
        add(&mut self.chroma_depths, &more.chroma_depths);
        add(&mut self.ctbs, &more.ctbs);
    }

    pub fn print(&self) {
        self.print_pictures();
        self.print_segments();
        self.print_refusals();
        let l = &self.lists;
        println!(
            "lists {}; bytes {}; lengths that differ {}; empty {}; ending within a record {}; in rule {}; strengths zeroed {}",
            l.count, l.bytes, l.refused, l.empty, l.partial, l.in_rule, l.zeroed
        );
        self.shares.print("random pictures");
        self.far.print();
        self.summed.print();
        self.planes.print();
        self.pixels.print();
    }

    fn print_pictures(&self) {
        println!("accepted {}; luma samples {}", self.accepted, self.luma_samples);
        let [a, b, c, d, e] = self.sides;
        println!("  by the longer side: to 64 {a}, to 136 {b}, to 512 {c}, to 2048 {d}, to 8192 {e}");
        println!("  tiled {}; tiles beside their cuts {}, most in a picture {}", self.tiled, self.tiles, self.most_tiles);
        println!(
            "  also with the absent grid {}; empty slice list {}; 600 slices {}",
            self.absent_grids, self.empty_lists, self.many_slices
        );
        println!(
            "  beside the Rust {}, of which turned {}; left to the second program alone {}, of which the Rust leaves other samples in {}",
            self.accepted - self.left_out,
            self.turned_beside,
            self.left_out,
            self.parted
        );
        self.out_of_rule.print("drawn out of C-14's rule");
        let [y, cb, cr] = self.moved;
        println!("  samples moved: Y {y}, Cb {cb}, Cr {cr}");
        let s = &self.coverage.suppressed;
        println!(
            "  suppressed cells {}; beside a tile border: before it {}, after it {}, on both sides {}",
            s.cells, s.before_border, s.after_border, s.on_both_sides
        );
        println!("  with palette cells {}; palette cells {}, suppressed by nothing else {}", self.with_palette, s.palette, s.palette_alone);
        print_table("format (filtered chroma segments)", 0, &self.formats);
        print_table("luma depth (filtered luma segments)", 8, &self.luma_depths);
        print_table("chroma depth (filtered chroma segments)", 8, &self.chroma_depths);
        print_table("log2 CTB (filtered segments)", 4, &self.ctbs);
    }

    fn print_segments(&self) {
        let (luma, chroma) = (&self.coverage.luma, &self.coverage.chroma);
        let skipped = luma.open - luma.tc_zero - self.strong - self.weak;
        println!("luma segments: strong {}, weak {}, skipped {skipped}, tc 0 {}", self.strong, self.weak, luma.tc_zero);
        print_closed(luma);
        println!("  entries of the table of the luma tc that were asked for: {} of {ENTRIES}", luma.entries_read());
        println!("chroma segments, Cb and Cr: filtered {}, tc 0 {}", self.chroma, chroma.tc_zero);
        print_closed(chroma);
        let indices: Vec<String> = (58..).zip(chroma.above_57).map(|(index, count)| format!("{index}: {count}")).collect();
        println!("  open in 4:2:0 with an index above 57: {}", indices.join(", "));
    }

    fn print_refusals(&self) {
        let refused: u64 = self.refused.iter().sum();
        println!("refused {refused}; several kinds of damage at once {}; place not 0 {}", self.several, self.later_places);
        println!("  empty slice list {}; with palette cells {}", self.refused_empty_lists, self.refused_with_palette);
        self.refused_out_of_rule.print("by C-14's rule alone");
        let numbers: Vec<String> = (1..=10).map(|n| format!("{n}: {}", self.refused[n])).collect();
        println!("  by number: {}", numbers.join(", "));
        println!("  by kind of damage:");
        for (kind, count) in damage::kinds().zip(&self.kinds) {
            println!("    {:>2}  {:<34} {count}", kind.number, kind.name);
        }
    }
}

fn print_closed(s: &Segments) {
    let [no_edge, low_bs, tile_border, slice_border, disabled] = s.closed;
    println!(
        "  closed: no edge {no_edge}, bS too low {low_bs}, tile border {tile_border}, slice border {slice_border}, slice disabled {disabled}; \
        open with a negative average QP {}",
        s.negative_qp
    );
}

pub fn print_table<const N: usize>(name: &str, first: usize, table: &Table<N>) {
    let entries: Vec<String> = table.iter().enumerate().map(|(k, (n, s))| format!("{}: {n} ({s})", first + k)).collect();
    println!("  by {name}: {}", entries.join(", "));
}
