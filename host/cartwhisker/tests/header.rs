//! The header and the archive from C.

use std::path::Path;
use std::process::Command;

#[test]
fn the_worked_bid_from_c() {
    let compiler = std::env::var("CC").unwrap_or("cc".to_string());
    let here = Path::new(env!("CARGO_MANIFEST_DIR"));
    let program = Path::new(env!("CARGO_TARGET_TMPDIR")).join("bid");
    let built = Command::new(&compiler)
        .args(["-std=c99", "-Wall", "-Wextra", "-Werror", "-pedantic", "-O2", "-o"])
        .arg(&program)
        .arg("-I")
        .arg(here.join("include"))
        .arg(here.join("tests/bid.c"))
        .arg(env!("CARTWHISKER_ARCHIVE"))
        .output()
        .expect("a C compiler: cc, or the one that CC names");
    assert!(built.status.success(), "{}", String::from_utf8_lossy(&built.stderr));
    let run = Command::new(&program).output().expect("a program");
    assert_eq!(run.status.code(), Some(0));
    let expected = "3 0 20\n0 0 8\n1 16 19\n2 19 20\nrefused 2 2 4 3 0\n";
    assert_eq!(String::from_utf8_lossy(&run.stdout), expected);
}
