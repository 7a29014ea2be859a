//! The shipped example is what its generator makes, and shows what examples/README.md and README.md at the root say.

#[allow(dead_code)]
#[path = "../examples/make_example/main.rs"]
mod make_example;

mod common;

use std::fs;
use std::path::{Path, PathBuf};

use common::tool::{folder, tinladle};
use common::{annex_d, run};
use tinladle::container::StoredPicture;
use tinladle::cut::{apart, differing, tiles};
use tinladle::{PictureBuf, Plane};

fn shipped() -> PictureBuf {
    let path = Path::new(env!("CARGO_MANIFEST_DIR")).join("../examples/example.pic");
    let bytes = fs::read(path).unwrap();
    assert!(bytes.len() < 100_000);
    StoredPicture::read(&mut &bytes[..], bytes.len() as u64).unwrap().picture
}

#[test]
fn the_generator_makes_it() {
    assert_eq!(shipped(), make_example::example().unwrap());
}

#[test]
fn each_tile_moves_in_each_plane_as_if_alone() {
    let picture = shipped();
    let finished = run(&picture).unwrap();
    let tiles = tiles(&picture.picture());
    assert_eq!(tiles.len(), 4);
    for tile in tiles {
        let moved = differing(&picture.settings, &tile, picture.planes.samples(), finished.samples());
        assert!(moved.iter().all(|&count| count > 0), "{tile:?}: {moved:?}");
        assert_eq!(apart(&picture.picture(), &finished, &tile), Ok(0));
    }
}

#[test]
fn suppressed_cells_keep_their_samples() {
    let picture = shipped();
    assert!(picture.settings.pcm_loop_filter_disabled);
    let finished = run(&picture).unwrap();
    let across = picture.settings.width as usize;
    let (mut lossless, mut pcm) = (0, 0);
    for (i, (before, after)) in picture.planes.y.iter().zip(&finished.y).enumerate() {
        let (x, y) = (i % across, i / across);
        let flags = picture.cells[8 * (y / 4 * (across / 4) + x / 4) + 1];
        if flags & 12 != 0 {
            assert_eq!(before, after, "column {x}, row {y}");
        }
        lossless += usize::from(flags & 4 != 0);
        pcm += usize::from(flags & 8 != 0);
    }
    assert_eq!((lossless, pcm), (32 * 32, 32 * 32));
}

const README: &str = include_str!("../../README.md");
const OF_THE_CRATE: &str = include_str!("../README.md");

/// A folder with the example, and with the paths of examples/run.sh.
fn with_the_example(name: &str) -> PathBuf {
    let at = folder(name);
    fs::create_dir_all(at.join("examples")).unwrap();
    fs::create_dir_all(at.join("target/example")).unwrap();
    let pic = "examples/example.pic";
    fs::copy(Path::new(env!("CARGO_MANIFEST_DIR")).join("..").join(pic), at.join(pic)).unwrap();
    at
}

/// What examples/run.sh prints, by the commands that stand in it.
fn printed() -> String {
    let at = with_the_example("example");
    let script = include_str!("../../examples/run.sh");
    let commands: Vec<Vec<&str>> =
        script.lines().filter_map(|line| line.strip_prefix("tinladle ")).map(|w| w.split(' ').collect()).collect();
    let names: Vec<&str> = commands.iter().map(|words| words[0]).collect();
    assert_eq!(names, ["deblock", "tiles", "picture"]);
    let run = |words: &Vec<&str>| {
        let ran = tinladle(&at, words);
        assert_eq!((ran.status, ran.err.as_str()), (0, ""), "{words:?}");
        ran.out
    };
    commands.iter().map(run).collect()
}

#[test]
fn the_root_readme_shows_what_the_script_prints() {
    let printed: Vec<String> = printed().lines().map(|line| format!("    {line}")).collect();
    let shown: Vec<&str> = README.lines().skip_while(|&line| line != printed[0]).take(printed.len()).collect();
    assert_eq!(shown, printed);
}

/// The numbers that end the line of this name in a README.
fn numbers_in(readme: &str, name: &str) -> [usize; 3] {
    let line = readme.lines().find_map(|line| line.trim_start().strip_prefix(name)).unwrap();
    let numbers: Vec<usize> = line.split_whitespace().map(|word| word.parse().unwrap()).collect();
    numbers.try_into().unwrap()
}

#[test]
fn the_counts_in_the_root_readme_are_those_of_the_planes() {
    let picture = shipped();
    let finished = run(&picture).unwrap();
    // 192 by 128 in four tiles of 96 by 64, and half of that in the chroma planes: examples/README.md.
    let mut moved = [[[0; 3]; 2]; 2];
    for (plane, (width, height)) in [(192, 128), (96, 64), (96, 64)].into_iter().enumerate() {
        let (before, after) = (picture.planes.samples()[plane], finished.samples()[plane]);
        assert_eq!((before.len(), after.len()), (width * height, width * height));
        for i in (0..width * height).filter(|&i| before[i] != after[i]) {
            moved[i / width / (height / 2)][i % width / (width / 2)][plane] += 1;
        }
    }
    for (row, tiles) in moved.iter().enumerate() {
        for (column, counts) in tiles.iter().enumerate() {
            assert_eq!(numbers_in(README, &format!("tile column {column}, row {row}")), *counts);
        }
    }
    let whole = [0, 1, 2].map(|plane| moved.iter().flatten().map(|counts| counts[plane]).sum());
    assert_eq!(numbers_in(README, "whole picture"), whole);
}

/// The example's file before filtering and after.
const FILES: [&str; 2] = ["examples/example.pic", "target/example/filtered.pic"];

#[test]
fn the_crates_readme_shows_what_diff_and_checksum_say() {
    let at = with_the_example("example_files");
    let [before, after] = FILES;
    assert_eq!(tinladle(&at, &["deblock", before, after]).status, 0);
    for (verb, status) in [("diff", 1), ("checksum", 0)] {
        let ran = tinladle(&at, &[verb, before, after]);
        assert_eq!((ran.status, ran.err.as_str()), (status, ""), "{verb}");
        let shown = OF_THE_CRATE.contains(&format!("```text\n{}```\n", ran.out));
        assert!(shown, "not in README.md as it is:\n{}", ran.out);
    }
}

#[test]
fn the_checksums_in_the_crates_readme_are_those_of_the_planes() {
    let picture = shipped();
    for (file, planes) in FILES.into_iter().zip([&picture.planes, &run(&picture).unwrap()]) {
        let sums = annex_d(&picture.settings, planes);
        for plane in Plane::ALL {
            let line = format!("{:08x}  {plane:<2}  {file}\n", sums.plane(plane).unwrap());
            assert!(OF_THE_CRATE.contains(&line), "{line}");
        }
    }
}

#[test]
fn the_pixel_in_both_readmes_is_that_of_the_planes() {
    let at = with_the_example("example_pixel");
    let [before, after] = FILES;
    assert_eq!(tinladle(&at, &["deblock", before, after]).status, 0);
    let ran = tinladle(&at, &["pixel", after, "65", "110"]);
    assert_eq!((ran.status, ran.err.as_str()), (0, ""));
    let shown = OF_THE_CRATE.contains(&format!("```text\n{}```\n", ran.out));
    assert!(shown, "not in README.md as it is:\n{}", ran.out);
    let indented: String = ran.out.lines().map(|line| format!("    {line}\n")).collect();
    assert!(README.contains(&format!(" 65 110\n{indented}")), "not in the README.md of the root:\n{}", ran.out);
    // 192 columns of luma in 4:2:0, at depth 8: over column 32, row 55 of chroma.
    let finished = run(&shipped()).unwrap();
    let samples = [finished.y[110 * 192 + 65], finished.cb[55 * 96 + 32], finished.cr[55 * 96 + 32]];
    let fractions: Vec<&str> = ran.out.split_whitespace().skip(1).step_by(4).collect();
    let numerators = [i32::from(samples[0]), i32::from(samples[1]) - 128, i32::from(samples[2]) - 128];
    assert_eq!(fractions, numerators.map(|n| format!("{n}/256")));
}

#[test]
fn the_farthest_moves_in_the_crates_readme_are_those_of_the_planes() {
    let picture = shipped();
    let finished = run(&picture).unwrap();
    // Distance, column, row, by plane.
    let mut found = [[0; 3]; 3];
    for (plane, width) in [192, 96, 96].into_iter().enumerate() {
        let moves = picture.planes.samples()[plane].iter().zip(finished.samples()[plane]);
        for (i, (before, after)) in moves.enumerate() {
            let distance = usize::from(*before.max(after) - *before.min(after));
            if distance > found[0][plane] {
                [found[0][plane], found[1][plane], found[2][plane]] = [distance, i % width, i / width];
            }
        }
    }
    let shown = ["farthest move", "at column", "at row"].map(|name| numbers_in(OF_THE_CRATE, name));
    assert_eq!(shown, found);
}
