//! Memory that runs out: one line and status 2, and the other files are done all the same.

#![cfg(target_os = "linux")]

mod common;

use std::collections::BTreeSet;
use std::fs::{self, File};
use std::io::Write;
use std::path::Path;

use common::tool::{Ran, folder, s1, store, through_shell, tinladle};
use common::{edges, flat};
use tinladle::{ChromaFormat, OutOfMemory, PlanesBuf, Settings};

/// The tool with no more than these MiB of address space.
fn limited(at: &Path, mib: usize, words: &[&str]) -> Ran {
    through_shell(at, &format!("ulimit -v {} && exec \"$@\"", 1024 * mib), words)
}

/// A file of a picture of 4096 by 4096, luma alone, with lists of these lengths. It is a hole but for its head.
fn store_hole(path: &Path, samples: u32, cells: u32) {
    let head = [0x5348_4C54, 4096, 4096, 0, 8, 8, 4, 0, 0, 0, samples, 0, 0, samples, 0, 0, cells, 4, 1, 1];
    let mut file = File::create(path).unwrap();
    file.write_all(&head.map(u32::to_le_bytes).concat()).unwrap();
    file.set_len(80 + 2 * u64::from(samples) + u64::from(cells) + 4 + 2 + 2).unwrap();
}

#[test]
fn a_picture_that_is_too_large_is_told_by_its_name() {
    let at = folder("large");
    // 32 MiB of samples, 8 MiB of cells.
    store_hole(&at.join("large.pic"), 4096 * 4096, 1024 * 1024 * 8);
    store(&at.join("small.pic"), s1());
    let why = "tinladle: large.pic: cannot be read: not enough memory for 33554432 bytes\n";
    let verbs: [&[&str]; 8] = [
        &["check", "large.pic"],
        &["tiles", "large.pic"],
        &["deblock", "large.pic", "out.pic"],
        &["picture", "large.pic", "out.ppm"],
        &["diff", "small.pic", "large.pic"],
        &["convert", "large.pic", "out.pic"],
        &["checksum", "large.pic"],
        &["pixel", "large.pic", "0", "0"],
    ];
    for words in verbs {
        let ran = limited(&at, 24, words);
        assert_eq!((ran.status, ran.out.as_str(), ran.err.as_str()), (2, "", why), "{words:?}");
    }
    assert_eq!(fs::read_dir(&at).unwrap().count(), 2, "nothing is written");
    let ran = limited(&at, 24, &["check", "large.pic", "small.pic"]);
    assert_eq!((ran.status, ran.out.as_str(), ran.err.as_str()), (2, "small.pic: accepted\n", why));
    // It is the limit alone. The cells have QP byte 0.
    let ran = tinladle(&at, &["check", "large.pic"]);
    assert_eq!((ran.status, ran.out.as_str()), (1, "large.pic: refused 9: cell 0 is out of rule: QP byte 0\n"));
}

/// What is said besides how far the work is, which a slow machine tells.
fn complaints(ran: &Ran) -> Vec<&str> {
    ran.err.lines().filter(|line| !line.contains(" done; ")).collect()
}

#[test]
fn whatever_there_is_no_memory_for_is_told_in_one_line() {
    let at = folder("limits");
    // 8 MiB of samples and 2 of cells: read, then the output plane, then both again and an output plane for the cut.
    store(&at.join("a.pic"), flat(Settings::new(2048, 2048, ChromaFormat::Monochrome), edges(37)));
    let all = tinladle(&at, &["tiles", "a.pic"]);
    assert_eq!((all.status, complaints(&all)), (0, vec![]));
    let mut lacking = BTreeSet::new();
    for mib in (12..=48).step_by(3) {
        let ran = limited(&at, mib, &["tiles", "a.pic"]);
        if ran.status == 0 {
            assert_eq!((&ran.out, complaints(&ran)), (&all.out, vec![]), "{mib} MiB");
            continue;
        }
        assert_eq!((ran.status, ran.out.as_str()), (2, ""), "{mib} MiB: {}", ran.err);
        let [line] = complaints(&ran)[..] else { panic!("{mib} MiB: {}", ran.err) };
        let (what, bytes) = line.split_once(": not enough memory for ").unwrap();
        assert!(["8388608 bytes", "2097152 bytes"].contains(&bytes), "{mib} MiB: {line}");
        lacking.insert(what.strip_prefix("tinladle: a.pic: ").unwrap().to_string());
    }
    let wanted = ["cannot be filtered", "cannot be read", "tile column 0, row 0 cannot be filtered alone"];
    assert_eq!(lacking, BTreeSet::from(wanted.map(String::from)));
}

#[test]
fn a_list_that_there_is_no_memory_to_convert_is_told() {
    let at = folder("no_room");
    // 8 MiB of cells, which are read and then converted into as many.
    store_hole(&at.join("a.pic"), 0, 1024 * 1024 * 8);
    let mut lacking = BTreeSet::new();
    for mib in (10..=40).step_by(2) {
        let ran = limited(&at, mib, &["convert", "a.pic", "b.pic"]);
        assert_eq!(at.join("b.pic").exists(), ran.status == 0, "{mib} MiB: {}", ran.err);
        if ran.status == 0 {
            fs::remove_file(at.join("b.pic")).unwrap();
            continue;
        }
        let [line] = complaints(&ran)[..] else { panic!("{mib} MiB: {}", ran.err) };
        lacking.insert(line.to_string());
    }
    let wanted = ["converted", "read"]
        .map(|done| format!("tinladle: a.pic: cannot be {done}: not enough memory for 8388608 bytes"));
    assert_eq!(lacking, BTreeSet::from(wanted));
    assert_eq!(tinladle(&at, &["convert", "a.pic", "b.pic"]).status, 0, "it is the limit alone");
}

#[test]
fn where_there_is_hardly_any_memory_no_signal_ends_the_tool() {
    let at = folder("least");
    store(&at.join("a.pic"), s1());
    // From too little to begin with, where the system's loader says so with a status of its own, to enough.
    let mut statuses = BTreeSet::new();
    for kib in (3000..9000).step_by(100) {
        let ran = through_shell(&at, &format!("ulimit -v {kib} && exec \"$@\""), &["check", "a.pic"]);
        assert!(complaints(&ran).len() <= 1, "{kib} KiB: {}", ran.err);
        statuses.insert(ran.status);
    }
    assert!(statuses.contains(&0), "{statuses:?}");
}

#[test]
fn any_lengths_are_answered() {
    assert_eq!(PlanesBuf::try_filled([2, 1, 0], 7).unwrap(), PlanesBuf { y: vec![7, 7], cb: vec![7], cr: vec![] });
    for (lengths, bytes) in [([usize::MAX, 0, 0], usize::MAX), ([0, 1 << 62, 0], 1 << 63), ([8, 0, 1 << 50], 1 << 51)]
    {
        let error = PlanesBuf::try_filled(lengths, 0).unwrap_err();
        assert_eq!(error, OutOfMemory { bytes });
        assert_eq!(error.to_string(), format!("not enough memory for {bytes} bytes"));
    }
}
