//! The library's functions, called as C calls them. Every buffer lies between guard words, which differ from call to call; the outputs are
//! filled with junk beforehand.

use crate::guards::Lent;
use crate::library::{tinladle_checksum, tinladle_convert_cells, tinladle_deblock, tinladle_pixel, tinladle_sample};
use crate::picture::{PLANE_NAMES, Picture};
use crate::random::Random;

pub struct Answer {
    pub number: u32,
    pub place: u64,
    pub planes: [Vec<u16>; 3],
}

/// All that one call is lent.
struct Call {
    planes: [Lent<u16>; 3],
    cells: Lent<u8>,
    slices: Lent<u8>,
    columns: Lent<u16>,
    rows: Lent<u16>,
    outputs: [Lent<u16>; 3],
    place: Lent<u64>,
    junk: u16,
    null: bool,
}

impl Call {
    fn of(p: &Picture, random: &mut Random) -> Self {
        let word = random.next();
        let (guard, junk) = (word as u16, (word >> 16) as u16);
        let list = |items: &[u16]| Lent::of(items, guard);
        Call {
            planes: [0, 1, 2].map(|plane| list(&p.planes[plane])),
            cells: Lent::of(&p.cells, guard as u8),
            slices: Lent::of(&p.slices, guard as u8),
            columns: list(&p.columns),
            rows: list(&p.rows),
            outputs: p.out_lengths.map(|length| list(&vec![junk; length])),
            place: Lent::of(&[word], !word),
            junk,
            null: word >> 63 == 1,
        }
    }

    /// Each pointer goes with its own buffer's length, and the buffers lie apart: what include/tinladle.h asks of a caller.
    #[rustfmt::skip]
    fn run(&mut self, p: &Picture) -> u32 {
        let null = self.null;
        let [y, cb, cr] = &mut self.planes;
        let [out_y, out_cb, out_cr] = &mut self.outputs;
        unsafe {
            tinladle_deblock(
                p.width, p.height, p.format, p.luma_depth, p.chroma_depth, p.log2_ctb, p.cb_offset, p.cr_offset, p.pcm_switch,
                y.at(null), y.len(), cb.at(null), cb.len(), cr.at(null), cr.len(),
                self.cells.at(null), self.cells.len(), self.slices.at(null), self.slices.len(),
                self.columns.at(null), self.columns.len(), self.rows.at(null), self.rows.len(),
                out_y.at(null), out_y.len(), out_cb.at(null), out_cb.len(), out_cr.at(null), out_cr.len(),
                self.place.at(false),
            )
        }
    }

    /// What no answer may change, or what was changed.
    fn untouched(&self, p: &Picture) -> Result<(), String> {
        let numbers = self.planes.iter().chain(&self.outputs).chain([&self.columns, &self.rows]);
        if !numbers.into_iter().all(Lent::guarded) || !self.cells.guarded() || !self.slices.guarded() || !self.place.guarded() {
            return Err("a guard word was written".into());
        }
        for plane in 0..3 {
            if self.planes[plane].items() != p.planes[plane] {
                return Err(format!("the original {} was written", PLANE_NAMES[plane]));
            }
        }
        if self.cells.items() != p.cells || self.slices.items() != p.slices {
            return Err("the cells or the slices were written".into());
        }
        if self.columns.items() != p.columns || self.rows.items() != p.rows {
            return Err("the tile starts were written".into());
        }
        Ok(())
    }

    fn outputs_hold_junk(&self) -> bool {
        self.outputs.iter().all(|plane| plane.items().iter().all(|&sample| sample == self.junk))
    }
}

/// The stage's answer, or what it wrote that it must not.
pub fn run(p: &Picture, random: &mut Random) -> Result<Answer, String> {
    let mut call = Call::of(p, random);
    let number = call.run(p);
    call.untouched(p)?;
    let place = call.place.items()[0];
    if number != 0 && !call.outputs_hold_junk() {
        return Err(format!("refusal {number} wrote an output plane"));
    }
    let planes = call.outputs.map(|lent| lent.items().to_vec());
    Ok(Answer { number, place, planes })
}

/// The conversion's number and its output list, or what it wrote that it must not.
pub fn convert(cells: &[u8], out_length: usize, random: &mut Random) -> Result<(u32, Vec<u8>), String> {
    let word = random.next();
    let (guard, junk, null) = (word as u8, (word >> 8) as u8, word >> 63 == 1);
    let (mut list, mut out) = (Lent::of(cells, guard), Lent::of(&vec![junk; out_length], guard));
    let mut place = Lent::of(&[!0], !word);
    // As above, each pointer goes with its own buffer's length, and the buffers lie apart.
    let number = unsafe { tinladle_convert_cells(list.at(null), list.len(), out.at(null), out.len(), place.at(false)) };
    if !list.guarded() || !out.guarded() || !place.guarded() {
        return Err("the conversion wrote a guard word".into());
    }
    if list.items() != cells {
        return Err("the conversion wrote the list that it was given".into());
    }
    if place.items() != [0] {
        return Err(format!("the conversion's place is {}", place.items()[0]));
    }
    if number != 0 && out.items().iter().any(|&byte| byte != junk) {
        return Err(format!("the conversion's refusal {number} wrote the output list"));
    }
    Ok((number, out.items().to_vec()))
}

/// What a function of planes answered, and what the three places that it may store in hold, with what they held before.
pub struct Stored {
    pub number: u32,
    pub place: u64,
    pub words: [u32; 3],
    pub junk: [u32; 3],
}

/// Planes as they are lent to a function that takes them alone, once or several times.
pub struct LentPlanes<'a> {
    planes: &'a [Vec<u16>; 3],
    lent: [Lent<u16>; 3],
    null: bool,
}

impl<'a> LentPlanes<'a> {
    pub fn of(planes: &'a [Vec<u16>; 3], word: u64) -> Self {
        LentPlanes { planes, lent: [0, 1, 2].map(|plane| Lent::of(&planes[plane], word as u16)), null: word >> 63 == 1 }
    }

    /// The answer of a function that is given the planes, the places that it may store in, and the place of its answer.
    fn ask(
        &mut self,
        name: &str,
        word: u64,
        function: impl Fn(&mut [Lent<u16>; 3], [*mut u32; 3], *mut u64, bool) -> u32,
    ) -> Result<Stored, String> {
        let junk = [0, 16, 32].map(|shift| (word >> shift) as u32);
        let mut words = junk.map(|junk| Lent::of(&[junk], !junk));
        let mut place = Lent::of(&[word], !word);
        let number = function(&mut self.lent, words.each_mut().map(|word| word.at(false)), place.at(false), self.null);
        if !self.lent.iter().all(Lent::guarded) || !words.iter().all(Lent::guarded) || !place.guarded() {
            return Err(format!("the {name} function wrote a guard word"));
        }
        if let Some(plane) = (0..3).find(|&plane| self.lent[plane].items() != self.planes[plane]) {
            return Err(format!("the {name} function wrote {}", PLANE_NAMES[plane]));
        }
        Ok(Stored { number, place: place.items()[0], words: words.map(|word| word.items()[0]), junk })
    }

    /// The floats of a pixel, with a picture's settings, as bit patterns; or what was written that must not. As above, each pointer goes
    /// with its own buffer's length, and the buffers lie apart.
    #[rustfmt::skip]
    pub fn pixel(&mut self, p: &Picture, (column, row): (u32, u32), random: &mut Random) -> Result<Stored, String> {
        self.ask("pixel", random.next(), |[y, cb, cr], [luma, cb_part, cr_part], place, null| unsafe {
            tinladle_pixel(
                p.width, p.height, p.format, p.luma_depth, p.chroma_depth,
                y.at(null), y.len(), cb.at(null), cb.len(), cr.at(null), cr.len(),
                column, row, luma.cast(), cb_part.cast(), cr_part.cast(), place,
            )
        })
    }
}

/// The checksum function on planes, with a picture's settings; or what it wrote that it must not. The buffers are as above.
#[rustfmt::skip]
pub fn checksum(p: &Picture, planes: &[Vec<u16>; 3], random: &mut Random) -> Result<Stored, String> {
    let word = random.next();
    LentPlanes::of(planes, word).ask("checksum", word, |[y, cb, cr], [sum_y, sum_cb, sum_cr], place, null| unsafe {
        tinladle_checksum(
            p.width, p.height, p.format, p.luma_depth, p.chroma_depth,
            y.at(null), y.len(), cb.at(null), cb.len(), cr.at(null), cr.len(),
            sum_y, sum_cb, sum_cr, place,
        )
    })
}

/// What the way back answered, and what the place of the sample holds, with what it held before.
pub struct Recovered {
    pub number: u32,
    pub place: u64,
    pub sample: u16,
    pub junk: u16,
}

/// The way back from a float; or what it wrote that it must not. One guard on each side, on the stack: there are many floats.
pub fn sample(depth: u32, chroma: bool, bits: u32, word: u64) -> Result<Recovered, String> {
    let (guard, junk) = ((word >> 16) as u16, word as u16);
    let (mut samples, mut places) = ([guard, junk, guard], [!word, word, !word]);
    let (sample, place) = (samples.as_mut_ptr().wrapping_add(1), places.as_mut_ptr().wrapping_add(1));
    // Both point at the middle of three.
    let number = unsafe { tinladle_sample(depth, chroma, f32::from_bits(bits), sample, place) };
    if [samples[0], samples[2]] != [guard; 2] || [places[0], places[2]] != [!word; 2] {
        return Err("the way back wrote a guard word".into());
    }
    Ok(Recovered { number, place: places[1], sample: samples[1], junk })
}
