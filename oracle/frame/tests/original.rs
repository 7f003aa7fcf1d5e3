//! The text of the Rust files is the published one.

use std::process::Command;

#[test]
fn unchanged() {
    let home = concat!(env!("CARGO_MANIFEST_DIR"), "/../original");
    let done = Command::new("sha256sum").args(["--check", "--strict", "SHA256SUMS"]).current_dir(home).output().unwrap();
    assert!(done.status.success(), "{}", String::from_utf8_lossy(&done.stdout));
}
