//! The second program (standard.rs) on accepted pictures, read and written as by picture.rs.
//!
//! Standard error: the numbers, from 1, of the pictures on which it decides and not the customer's Rust.

#![allow(dead_code)] // not all of lent.rs is called from here

use std::io::{self, Write};

mod gate;
mod input;
#[path = "lent.rs"]
mod picture;
mod standard;

fn main() -> io::Result<()> {
    let mut stdout = io::BufWriter::new(io::stdout().lock());
    for (number, picture) in (1..).zip(input::pictures()?) {
        input::write_planes(&mut stdout, &standard::deblocked(&picture))?;
        if gate::parts(&picture) {
            eprintln!("{number}");
        }
    }
    stdout.flush()
}
