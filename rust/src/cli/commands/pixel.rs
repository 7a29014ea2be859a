//! `tinladle pixel`: a pixel of a file's planes as they stand, as floats.

use std::path::Path;

use super::{load, refused_aside};
use crate::cli::progress::Progress;
use crate::cli::verbs::Answer;
use crate::cli::words::Words;
use crate::cli::work::{Outcome, alone};
use tinladle::Plane;

/// A part as a fraction over 2^depth, as the shortest decimal that reads back to the same float, and as its bits.
fn line(plane: Plane, depth: u32, part: f32) -> String {
    let name = match plane {
        Plane::Y => "luma",
        Plane::Cb => "cb",
        Plane::Cr => "cr",
    };
    // The fraction is the float's own, whatever the sample: a float times a power of two is exact in 64 bits.
    let whole = 1_u32 << depth;
    let fraction = format!("{}/{whole}", f64::from(part) * f64::from(whole));
    format!("{name:<4}  {fraction:>12}  {part:>15}  {:08x}\n", part.to_bits())
}

/// A line for each part.
fn one(input: &Path, column: u32, row: u32, progress: &Progress) -> Outcome {
    let stored = load(input, progress)?;
    progress.doing(format!("a pixel of {}", input.display()));
    let picture = stored.picture.picture();
    let pixel = tinladle::pixel(&picture.settings, picture.samples(), column, row)
        .map_err(|refusal| refused_aside(input, refusal))?;
    let line = |plane| pixel.plane(plane).map(|part| line(plane, picture.settings.depth(plane), part));
    Ok((Plane::ALL.into_iter().filter_map(line).collect(), 0))
}

pub fn run(words: &Words) -> Answer {
    let [input] = words.files();
    let (column, row) = (words.number(1)?, words.number(2)?);
    Ok(alone(|progress| one(input, column, row, progress)))
}

#[cfg(test)]
mod tests {
    use super::*;

    #[test]
    fn each_line_reads_back_and_is_aligned() {
        for depth in 8..=16 {
            let (whole, middle) = (1 << depth, 1 << (depth - 1));
            for (plane, from) in [(Plane::Y, 0), (Plane::Cb, -middle), (Plane::Cr, -middle)] {
                for n in from..from + whole {
                    let part = (f64::from(n) / f64::from(whole)) as f32;
                    let text = line(plane, depth, part);
                    let [_, fraction, decimal, bits] = text.split_whitespace().collect::<Vec<_>>()[..] else {
                        panic!("{text}")
                    };
                    assert_eq!(fraction, format!("{n}/{whole}"));
                    assert_eq!(decimal.parse::<f32>().unwrap().to_bits(), part.to_bits(), "{text}");
                    assert_eq!(bits, format!("{:08x}", part.to_bits()));
                    assert_eq!(text.len(), 46, "{text}");
                }
            }
        }
    }

    #[test]
    fn a_fraction_is_never_another_than_the_floats() {
        for (part, fraction) in [(0.75 + 1.0 / 512.0, "192.5/256"), (-0.0, "-0/256"), (f32::NAN, "NaN/256")] {
            assert_eq!(line(Plane::Y, 8, part).split_whitespace().nth(1), Some(fraction));
        }
    }
}
