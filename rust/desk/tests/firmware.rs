//! The constants of `firmware` in the loop of a controller in C.

mod common;

use std::fs;
use std::path::{Path, PathBuf};
use std::process::Command;

use common::{desk, desk_reading, Folder};

/// V opens only after a credit, and for at most 5 ticks; what is open must be closed
/// again: the policy of the station in `cross/firmware`.
const CREDIT: &[u8] = &[
    2, b'C', b'P', 1, b'V', 1, 0, 6, 2, 0, 1, 0, 5, //
    0, 1, 1, 1, 0, 1, 1, 0, 0, 255, 255, //
    0, 0, 0, 1, 1, 0, 255, 0, 0, 255, 255, //
    0, 0, 0, 0, 0, 0, 0, 0, 0, 255, 255, //
    1, 0, 0, 1, 1, 0, 1, 0, 0, 0, 4, //
    1, 0, 0, 1, 0, 0, 0, 0, 0, 255, 255,
];

fn library(top: &Path) -> PathBuf {
    let named = std::env::var_os("GROOVEPAWN_LIB").map(PathBuf::from);
    named.unwrap_or_else(|| top.join("target/staticlib/libgroovepawn.a"))
}

/// The numbers of a line such as `tick 1: read 0, passed on 0; wanted 0, put out 0`.
fn numbers(line: &str) -> Vec<u8> {
    line.split(|letter: char| !letter.is_ascii_digit())
        .filter_map(|word| word.parse().ok())
        .collect()
}

#[test]
fn a_station_in_c_runs_on_the_constants() {
    let top = Path::new(env!("CARGO_MANIFEST_DIR")).join("../..");
    let folder = Folder::new();
    let policy = folder.file("policy", CREDIT);
    // The loop finds its policy, marks and index in this header, and nothing in the other.
    desk(&["firmware", &policy, "-o", &folder.path("policy.h")]).good();
    folder.file("constants.h", b"");
    for source in ["station.c", "station.h", "desk.c"] {
        let from = top.join("cross/firmware").join(source);
        fs::copy(from, folder.path(source)).expect("the station is there");
    }
    let station = folder.path("station");
    let mut compiler = Command::new("cc");
    compiler
        .args(["-Wall", "-Wextra", "-Werror", "-I"])
        .arg(top.join("include"));
    compiler
        .args([folder.path("station.c"), folder.path("desk.c")])
        .arg(library(&top))
        .args(["-o", &station]);
    assert!(compiler.status().expect("there is a compiler").success());
    let said = Command::new(&station).output().expect("it runs");
    assert!(said.status.success());
    let ticks: Vec<Vec<u8>> = String::from_utf8(said.stdout)
        .expect("it prints text")
        .lines()
        .map(numbers)
        .collect();
    assert!(
        ticks.len() > 5 && ticks.iter().all(|tick| tick.len() == 5),
        "{ticks:?}"
    );
    let read: Vec<u8> = ticks.iter().map(|tick| tick[1] | tick[3] << 4).collect();
    let released: Vec<u8> = ticks.iter().map(|tick| tick[2] | tick[4] << 4).collect();
    assert_ne!(read, released, "nothing is edited");
    assert_eq!(
        desk_reading(&["run", "--bytes", &policy, "-"], &read)
            .good()
            .out,
        released
    );
}
