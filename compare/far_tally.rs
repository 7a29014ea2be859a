//! What the adversarial pictures of a run exercised. As in tally.rs all of it is sums and largest shares.

use crate::check::Agreed;
use crate::moves::Shares;
use crate::picture::Picture;
use crate::tally::{Table, add, print_table};
use crate::theirs::share::Share;

#[derive(Default)]
pub struct FarTally {
    pictures: u64,
    luma_samples: u64,
    tiled: u64,
    tiles: u64,
    with_suppressed: u64,
    with_palette: u64,
    left_out: u64,
    strong: u64,
    weak: u64,
    chroma: u64,
    /// Pictures in which a sample of the plane meets its bound; and in which one comes within a tenth of it at the most.
    met: [u64; 3],
    nearly: [u64; 3],
    luma_depths: Table<9>,
    chroma_depths: Table<9>,
    formats: Table<4>,
    shares: Shares,
}

fn is_near(share: Share) -> bool {
    share.moved < share.bound && 10 * share.moved >= 9 * share.bound
}

impl FarTally {
    pub fn count(&mut self, p: &Picture, a: &Agreed) {
        self.pictures += 1;
        self.luma_samples += p.planes[0].len() as u64;
        self.tiled += u64::from(a.tiles > 1);
        self.tiles += a.tiles;
        self.with_suppressed += u64::from(a.coverage.suppressed.cells > 0);
        self.with_palette += u64::from(a.coverage.suppressed.palette > 0);
        self.left_out += u64::from(a.left_out);
        self.strong += a.calls.strong;
        self.weak += a.calls.weak;
        self.chroma += a.calls.chroma;
        let met = a.shares.map(Share::is_whole);
        for plane in 0..3 {
            self.met[plane] += u64::from(met[plane]);
            self.nearly[plane] += u64::from(is_near(a.shares[plane]));
        }
        let count = |entry: &mut (u64, u64), met: bool| *entry = (entry.0 + 1, entry.1 + u64::from(met));
        count(&mut self.formats[p.format as usize], met[0] && (p.format == 0 || met[1] && met[2]));
        count(&mut self.luma_depths[p.luma_depth as usize - 8], met[0]);
        if p.format > 0 {
            count(&mut self.chroma_depths[p.chroma_depth as usize - 8], met[1] && met[2]);
        }
        self.shares.count(a);
    }

    pub fn add(&mut self, more: &FarTally) {
        self.pictures += more.pictures;
        self.luma_samples += more.luma_samples;
        self.tiled += more.tiled;
        self.tiles += more.tiles;
        self.with_suppressed += more.with_suppressed;
        self.with_palette += more.with_palette;
        self.left_out += more.left_out;
        self.strong += more.strong;
        self.weak += more.weak;
        self.chroma += more.chroma;
        self.met.iter_mut().zip(more.met).for_each(|(a, b)| *a += b);
        self.nearly.iter_mut().zip(more.nearly).for_each(|(a, b)| *a += b);
        add(&mut self.formats, &more.formats);
        add(&mut self.luma_depths, &more.luma_depths);
        add(&mut self.chroma_depths, &more.chroma_depths);
        self.shares.add(&more.shares);
    }

    pub fn print(&self) {
        println!("adversarial {}; luma samples {}", self.pictures, self.luma_samples);
        println!("  tiled {}; tiles beside their cuts {}", self.tiled, self.tiles);
        println!("  with suppressed cells {}, of which with palette cells {}", self.with_suppressed, self.with_palette);
        println!("  beside the Rust {}; left to the second program alone {}", self.pictures - self.left_out, self.left_out);
        println!("  segments: strong {}, weak {}, chroma {}", self.strong, self.weak, self.chroma);
        let by_plane = |counts: &[u64; 3]| format!("Y {}, Cb {}, Cr {}", counts[0], counts[1], counts[2]);
        println!("  with a sample that meets its bound: {}", by_plane(&self.met));
        println!("  with one that comes within a tenth of it, and none that meets it: {}", by_plane(&self.nearly));
        print_table("format (bounds met in every plane)", 0, &self.formats);
        print_table("luma depth (bound met)", 8, &self.luma_depths);
        print_table("chroma depth (bound met in Cb and Cr)", 8, &self.chroma_depths);
        self.shares.print("adversarial pictures");
    }
}
