//! The files that the tool writes and where: never over an input, whole or not at all.

mod common;

use std::fs;
use std::os::unix::fs::{PermissionsExt, symlink};

use common::tool::{folder, load, refused, s1, s1_filtered, store, tinladle};

#[test]
fn a_refusal_leaves_the_output_alone() {
    let at = folder("refusal");
    store(&at.join("a.pic"), refused());
    fs::write(at.join("b.pic"), "what was there").unwrap();
    for output in ["b.pic", "new.pic"] {
        let ran = tinladle(&at, &["deblock", "a.pic", output]);
        assert_eq!(ran.out, "a.pic: refused 9: cell 2 is out of rule: QP byte 63\n");
        assert_eq!((ran.status, ran.err.as_str()), (1, ""));
    }
    assert_eq!(fs::read_to_string(at.join("b.pic")).unwrap(), "what was there");
    assert_eq!(fs::read_dir(&at).unwrap().count(), 2);
}

#[test]
fn an_output_that_cannot_be_written() {
    let at = folder("unwritable");
    store(&at.join("a.pic"), s1());
    fs::create_dir(at.join("folder")).unwrap();
    for command in ["deblock", "convert"] {
        let ran = tinladle(&at, &[command, "a.pic", "folder"]);
        assert_eq!((ran.status, ran.out.as_str()), (2, ""));
        assert_eq!(ran.err, "tinladle: folder: cannot be written: it is not a regular file\n");
    }
    let ran = tinladle(&at, &["picture", "a.pic", "none/a.ppm"]);
    assert_eq!(ran.status, 2);
    assert!(ran.err.starts_with("tinladle: none/a.ppm: cannot be written: "), "{}", ran.err);
    assert_eq!(ran.err.lines().count(), 1);
    assert_eq!(fs::read_dir(&at).unwrap().count(), 2, "nothing half-written is left");
}

#[test]
fn an_input_is_never_written_over() {
    let at = folder("same");
    store(&at.join("a.pic"), s1());
    let before = fs::read(at.join("a.pic")).unwrap();
    for words in
        [["deblock", "a.pic", "./a.pic"], ["picture", "a.pic", "../same/a.pic"], ["convert", "a.pic", "a.pic"]]
    {
        let ran = tinladle(&at, &words);
        assert_eq!(ran.status, 2);
        assert_eq!(ran.err, format!("tinladle: {}: the output is also an input; nothing was done\n", words[2]));
    }
    fs::create_dir(at.join("other")).unwrap();
    store(&at.join("other/a.pic"), s1());
    for command in ["deblock", "convert"] {
        let ran = tinladle(&at, &[command, "--to", "out", "a.pic", "other/a.pic"]);
        let why = "tinladle: out/a.pic: the output is also another output; nothing was done\n";
        assert_eq!((ran.status, ran.err.as_str()), (2, why));
    }
    assert!(!at.join("out").exists());
    assert_eq!(fs::read(at.join("a.pic")).unwrap(), before);
}

#[test]
fn a_clash_leaves_no_folder() {
    let at = folder("clash");
    fs::create_dir(at.join("in")).unwrap();
    store(&at.join("in/a.pic"), s1());
    // Twice the same name; and a folder that is the input's own as soon as another is made.
    for (to, other) in [("new", "in/./a.pic"), ("new/deep", "in/../in/a.pic"), ("new/../in", "in/b.pic")] {
        let ran = tinladle(&at, &["deblock", "--to", to, "in/a.pic", other]);
        assert_eq!((ran.status, ran.out.as_str()), (2, ""), "--to {to}");
        assert!(ran.err.ends_with("; nothing was done\n"), "{}", ran.err);
        assert!(!at.join("new").exists(), "--to {to}");
    }
    assert_eq!(load(&at.join("in/a.pic")), s1());
}

#[test]
fn a_link_stays_and_no_device_is_replaced() {
    let at = folder("links");
    store(&at.join("a.pic"), s1());
    fs::write(at.join("real.pic"), "old").unwrap();
    symlink("real.pic", at.join("link.pic")).unwrap();
    assert_eq!(tinladle(&at, &["deblock", "a.pic", "link.pic"]).status, 0);
    assert!(at.join("link.pic").is_symlink());
    assert_eq!(load(&at.join("real.pic")), s1_filtered());
    let ran = tinladle(&at, &["deblock", "a.pic", "/dev/null"]);
    assert_eq!(
        (ran.status, ran.err.as_str()),
        (2, "tinladle: /dev/null: cannot be written: it is not a regular file\n")
    );
    // A link to the input is the input.
    symlink("a.pic", at.join("same.pic")).unwrap();
    assert_eq!(tinladle(&at, &["deblock", "a.pic", "same.pic"]).status, 2);
}

#[test]
fn a_hard_link_to_an_input_or_another_output_is_refused() {
    let at = folder("hard");
    for name in ["a.pic", "b.pic"] {
        store(&at.join(name), s1());
    }
    fs::create_dir(at.join("out")).unwrap();
    for (file, link) in [("a.pic", "same.pic"), ("a.pic", "same.ppm"), ("a.pic", "out/b.pic")] {
        fs::hard_link(at.join(file), at.join(link)).unwrap();
    }
    symlink("same.pic", at.join("link.pic")).unwrap();
    let cases: [(&[&str], &str); 5] = [
        (&["deblock", "a.pic", "same.pic"], "same.pic"),
        (&["convert", "a.pic", "same.pic"], "same.pic"),
        (&["deblock", "a.pic", "link.pic"], "link.pic"),
        (&["picture", "a.pic", "same.ppm"], "same.ppm"),
        // What is made of b.pic would replace the file that is a.pic's.
        (&["deblock", "--to", "out", "b.pic", "a.pic"], "out/b.pic"),
    ];
    for (words, output) in cases {
        let ran = tinladle(&at, words);
        let why = format!("tinladle: {output}: the output is also an input; nothing was done\n");
        assert_eq!((ran.status, ran.out, ran.err), (2, String::new(), why), "{words:?}");
    }
    // Two outputs that are one file.
    fs::remove_file(at.join("out/b.pic")).unwrap();
    fs::write(at.join("out/a.pic"), "old").unwrap();
    fs::hard_link(at.join("out/a.pic"), at.join("out/b.pic")).unwrap();
    let ran = tinladle(&at, &["deblock", "--to", "out", "a.pic", "b.pic"]);
    let why = "tinladle: out/b.pic: the output is also another output; nothing was done\n";
    assert_eq!((ran.status, ran.err.as_str()), (2, why));
    for name in ["a.pic", "b.pic", "same.pic", "same.ppm"] {
        assert_eq!(load(&at.join(name)), s1(), "{name}");
    }
    assert_eq!(fs::read_to_string(at.join("out/a.pic")).unwrap(), "old");
    // A hard link to neither is replaced, and what else it linked to stays.
    assert_eq!(tinladle(&at, &["deblock", "a.pic", "out/b.pic"]).status, 0);
    assert_eq!(load(&at.join("out/b.pic")), s1_filtered());
    assert_eq!(fs::read_to_string(at.join("out/a.pic")).unwrap(), "old");
}

#[test]
fn a_ppm_is_called_a_ppm() {
    let at = folder("kind");
    store(&at.join("a.pic"), s1());
    for output in ["a.png", "a", "ppm", "a.ppm.png", "a.ppm~"] {
        let ran = tinladle(&at, &["picture", "a.pic", output]);
        let why =
            format!("tinladle: {output}: the output is a PPM, and its name must end in .ppm; nothing was done\n");
        assert_eq!((ran.status, ran.out, ran.err), (2, String::new(), why));
    }
    assert_eq!(fs::read_dir(&at).unwrap().count(), 1);
    for output in ["a.ppm", "b.PPM", "c.png.ppm"] {
        assert_eq!(tinladle(&at, &["picture", "a.pic", output]).status, 0);
        assert!(fs::read(at.join(output)).unwrap().starts_with(b"P6\n"));
    }
}

#[test]
fn a_link_that_leads_nowhere_is_refused() {
    let at = folder("nowhere");
    store(&at.join("a.pic"), s1());
    store(&at.join("b.pic"), s1());
    symlink("none.pic", at.join("link.pic")).unwrap();
    symlink("loop.pic", at.join("loop.pic")).unwrap();
    for (command, link) in
        [("deblock", "link.pic"), ("picture", "link.pic"), ("convert", "link.pic"), ("deblock", "loop.pic")]
    {
        let ran = tinladle(&at, &[command, "a.pic", link]);
        let why = format!("tinladle: {link}: the output is a link that leads to no file; nothing was done\n");
        assert_eq!((ran.status, ran.out, ran.err), (2, String::new(), why));
        assert!(at.join(link).is_symlink() && !at.join("none.pic").exists());
    }
    // By the time b.pic is written this link would lead to what was made of a.pic.
    fs::create_dir(at.join("out")).unwrap();
    symlink("a.pic", at.join("out/b.pic")).unwrap();
    assert_eq!(tinladle(&at, &["deblock", "--to", "out", "a.pic", "b.pic"]).status, 2);
    assert_eq!(fs::read_dir(at.join("out")).unwrap().count(), 1);
}

#[test]
fn a_write_protected_file_is_not_replaced() {
    let at = folder("protected");
    store(&at.join("a.pic"), s1());
    fs::write(at.join("b.ppm"), "kept").unwrap();
    symlink("b.ppm", at.join("link.pic")).unwrap();
    let set = |mode| fs::set_permissions(at.join("b.ppm"), fs::Permissions::from_mode(mode)).unwrap();
    set(0o444);
    for (command, output) in
        [("deblock", "b.ppm"), ("picture", "b.ppm"), ("convert", "b.ppm"), ("deblock", "link.pic")]
    {
        let ran = tinladle(&at, &[command, "a.pic", output]);
        let why = format!("tinladle: {output}: cannot be written: it is write-protected\n");
        assert_eq!((ran.status, ran.out, ran.err), (2, String::new(), why));
        assert_eq!(fs::read_to_string(at.join("b.ppm")).unwrap(), "kept");
    }
    set(0o640);
    assert_eq!(tinladle(&at, &["deblock", "a.pic", "b.ppm"]).status, 0);
    assert_eq!(load(&at.join("b.ppm")), s1_filtered());
    assert_eq!(fs::metadata(at.join("b.ppm")).unwrap().permissions().mode() & 0o777, 0o640, "the mode stays");
}

#[test]
fn a_name_may_be_as_long_as_names_can_be() {
    let at = folder("long");
    store(&at.join("a.pic"), s1());
    for length in [248, 249, 255] {
        let name = "n".repeat(length);
        let ran = tinladle(&at, &["deblock", "a.pic", &name]);
        assert_eq!((ran.status, ran.err.as_str()), (0, ""), "{length} bytes");
        assert_eq!(load(&at.join(name)), s1_filtered());
    }
    assert_eq!(fs::read_dir(&at).unwrap().count(), 4);
}
