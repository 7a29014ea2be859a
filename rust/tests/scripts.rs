//! The repository's scripts, where something that they need is missing: one line that says what, and status 2.

use std::path::Path;
use std::process::Command;

#[test]
fn the_rust_source_is_named_where_it_is_missing() {
    let root = Path::new(env!("CARGO_MANIFEST_DIR")).join("..");
    // Each hands its folder on to scripts/customer.sh before it does anything else.
    for script in ["scripts/customer.sh", "compare/run.sh", "speed/run.sh", "oracle/build.sh"] {
        let ran = Command::new("sh").arg(root.join(script)).arg("/none/such").output().unwrap();
        let err = String::from_utf8(ran.stderr).unwrap();
        assert_eq!((ran.status.code(), ran.stdout.as_slice()), (Some(2), &b""[..]), "{script}: {err}");
        assert_eq!(err.lines().count(), 1, "{script}: {err}");
        for part in ["there is no /none/such/src/deblock.rs", "SRC", "awxkee/hpvcd at commit 9d5be06b6b"] {
            assert!(err.contains(part), "{script}: {err}");
        }
    }
}
