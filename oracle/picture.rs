//! The customer's `apply_deblocking_parallel` on accepted pictures.
//!
//! Standard input: records as README.md lays them out, one after another. Standard output: for each the
//! three output planes, 16-bit samples, low byte first. It makes no checks of its own: every picture must
//! be an accepted one. Standard error: how many segments the kernels were called for.

#![allow(dead_code)] // not all of the customer's file is called from here

use std::io::{self, Write};

mod shims;
use shims::{config, decode, exec, threadpool, tiles};

#[path = "../target/oracle/customer/src/deblock.rs"]
mod deblock;

mod input;
#[path = "lent.rs"]
mod picture;
mod theirs;

use picture::Picture;
use theirs::kernels::Calls;
use theirs::{Grid, Rust};

/// The planes of a picture. One tile is run with the absent grid too, which must give the same.
fn filtered(rust: &mut Rust, picture: &Picture, counts: &mut Calls) -> Result<[Vec<u16>; 3], String> {
    let (planes, calls) = rust.run(picture, Grid::Given)?;
    if picture.one_tile() && rust.run(picture, Grid::Absent)?.0 != planes {
        return Err("the absent grid gives other planes than one tile".into());
    }
    counts.strong += calls.strong;
    counts.weak += calls.weak;
    counts.chroma += calls.chroma;
    Ok(planes)
}

fn main() -> Result<(), Box<dyn std::error::Error>> {
    let mut stdout = io::BufWriter::new(io::stdout().lock());
    let (mut rust, mut counts) = (Rust::new(), Calls::default());
    for picture in input::pictures()? {
        input::write_planes(&mut stdout, &filtered(&mut rust, &picture, &mut counts)?)?;
    }
    eprintln!("strong {}, weak {}, chroma {}", counts.strong, counts.weak, counts.chroma);
    Ok(stdout.flush()?)
}
