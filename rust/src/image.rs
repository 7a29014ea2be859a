//! A picture for people: before, after, and the moved samples and the palette cells marked, side by side as a PPM.

use std::io::{self, Write};

use crate::picture::{Picture, PlanesBuf};
use crate::records::is_palette;
use crate::settings::{Plane, Settings};

/// White columns between the three parts.
pub const GAP: usize = 4;

const WHITE: [u8; 3] = [255; 3];

/// Added to the green of a palette cell.
const GREEN: u8 = 96;

/// The marks of the farthest moves: of luma, of chroma, of both.
const RED: [u8; 3] = [255, 64, 64];
const BLUE: [u8; 3] = [80, 120, 255];
const MAGENTA: [u8; 3] = [255, 64, 255];

/// The shade of the nearest moves, of the 255 of the farthest: still to be seen on the dark grey.
const DARKEST: u32 = 112;

/// Samples of one picture, looked up by luma position.
struct View<'a> {
    settings: Settings,
    samples: [&'a [u16]; 3],
}

impl View<'_> {
    /// The sample of a plane that lies at a luma position; `None` where the format has no such plane.
    fn at(&self, plane: Plane, x: usize, y: usize) -> Option<u16> {
        let (across, down) = self.settings.scale(plane)?;
        let columns = (self.settings.width / across) as usize;
        self.samples[plane as usize].get(y / down as usize * columns + x / across as usize).copied()
    }

    /// The same, scaled to 8 bits.
    fn byte(&self, plane: Plane, x: usize, y: usize) -> Option<i32> {
        let extra = self.settings.bits_above_8(plane);
        self.at(plane, x, y).map(|sample| i32::from(sample >> extra))
    }

    /// Red, green and blue by ITU-R BT.601 over the full range; grey where there is no chroma.
    fn colour(&self, x: usize, y: usize) -> [u8; 3] {
        let luma = self.byte(Plane::Y, x, y).unwrap_or(0);
        let cb = self.byte(Plane::Cb, x, y).unwrap_or(128) - 128;
        let cr = self.byte(Plane::Cr, x, y).unwrap_or(128) - 128;
        // Factors times 2^16, rounded.
        let red = luma + ((91_881 * cr + 32_768) >> 16);
        let green = luma - ((22_554 * cb + 46_802 * cr + 32_768) >> 16);
        let blue = luma + ((116_130 * cb + 32_768) >> 16);
        [red, green, blue].map(|part| part.clamp(0, 255) as u8)
    }
}

/// How bright a mark is, of 255, by the distance's share of the bound; 0 where nothing moved. It goes by the share's
/// square root, so that the short moves, which are most, are told apart.
fn shade(distance: u16, bound: u32) -> u32 {
    const SHADES: u32 = 255 - DARKEST;
    let distance = u32::from(distance).min(bound);
    if distance == 0 { 0 } else { DARKEST + (SHADES * SHADES * distance / bound).isqrt() }
}

/// Red where luma moved, blue where chroma did, magenta where both did, the brighter the farther, on the picture in
/// dark grey, or green in a palette cell, whose samples stay.
fn marked(before: &View<'_>, after: &View<'_>, palette: bool, x: usize, y: usize) -> [u8; 3] {
    let shade_in = |plane| {
        let sample = |view: &View<'_>| view.at(plane, x, y).unwrap_or(0);
        shade(sample(before).abs_diff(sample(after)), before.settings.move_bound(plane))
    };
    let luma = shade_in(Plane::Y);
    let chroma = shade_in(Plane::Cb).max(shade_in(Plane::Cr));
    let mark = match (luma > 0, chroma > 0) {
        (false, false) => {
            let grey = (after.byte(Plane::Y, x, y).unwrap_or(0) / 3).clamp(0, 255) as u8;
            return [grey, if palette { grey.saturating_add(GREEN) } else { grey }, grey];
        }
        (true, false) => RED,
        (false, true) => BLUE,
        (true, true) => MAGENTA,
    };
    mark.map(|part| (u32::from(part) * luma.max(chroma) / 255) as u8)
}

/// Writes a PPM (P6) of three parts: the picture before, the picture after, and the moved samples marked: luma red,
/// chroma blue, both magenta, the brighter the nearer a move comes to the [bound](Settings::move_bound) of its
/// plane; palette cells are green. `finished` holds the planes that the stage left of an accepted picture.
pub fn write_ppm(picture: &Picture<'_>, finished: &PlanesBuf, out: &mut impl Write) -> io::Result<()> {
    let settings = picture.settings;
    let (width, height) = (settings.width as usize, settings.height as usize);
    let before = View { settings, samples: picture.samples() };
    let after = View { settings, samples: finished.samples() };
    write!(out, "P6\n{} {height}\n255\n", 3 * width + 2 * GAP)?;
    let mut row = Vec::with_capacity(3 * (3 * width + 2 * GAP));
    for y in 0..height {
        row.clear();
        row.extend((0..width).flat_map(|x| before.colour(x, y)));
        row.extend([WHITE; GAP].as_flattened());
        row.extend((0..width).flat_map(|x| after.colour(x, y)));
        row.extend([WHITE; GAP].as_flattened());
        let palette = |x: usize| is_palette(picture.cells, y / 4 * (width / 4) + x / 4);
        row.extend((0..width).flat_map(|x| marked(&before, &after, palette(x), x, y)));
        out.write_all(&row)?;
    }
    Ok(())
}
