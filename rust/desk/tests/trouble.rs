//! A full disk, a closed pipe, a directory, what is not there or not permitted: a word
//! each, and no file that is not whole.

mod common;

use std::fs::{self, OpenOptions, Permissions};
use std::os::unix::fs::PermissionsExt;
use std::os::unix::process::CommandExt;
use std::process::{Command, Stdio};

use common::samples::{D, K, T};
use common::{desk, desk_reading, program, Folder};

#[test]
fn what_is_not_there() {
    let folder = Folder::new();
    let d = folder.file("d", D);
    let none = folder.path("none");
    desk(&["check", &none]).bad(1, "none: No such file or directory");
    desk(&["run", &d, &none]).bad(1, "none: No such file or directory");
    desk(&["join", &d, &d, "-o", &folder.path("none/joined")])
        .bad(1, "joined cannot be written: No such file or directory");
}

#[test]
fn a_directory() {
    let folder = Folder::new();
    let d = folder.file("d", D);
    let inner = folder.path("inner");
    fs::create_dir(&inner).expect("a folder can be made");
    desk(&["check", &inner]).bad(1, "inner: Is a directory");
    desk(&["run", &d, &inner]).bad(1, "inner: Is a directory");
    desk(&["wave", &d, "/dev/null", "-o", &inner])
        .bad(1, "inner cannot be written: Is a directory");
}

#[test]
fn a_full_disk() {
    let folder = Folder::new();
    let d = folder.file("d", D);
    let events = folder.file("events", b"- * 5\n");
    for words in [
        &["run", &d, &events][..],
        &["why", &d, &events],
        &["check", &d],
        &["draw", &d],
        &["--help"],
    ] {
        let full = OpenOptions::new()
            .write(true)
            .open("/dev/full")
            .expect("it is there");
        let done = program()
            .args(words)
            .stdout(full)
            .stderr(Stdio::piped())
            .output()
            .expect("it ends");
        let err = String::from_utf8(done.stderr).expect("words are text");
        assert_eq!(done.status.code(), Some(1), "{words:?}");
        assert_eq!(
            err, "groovepawn: standard output: No space left on device\n",
            "{words:?}"
        );
    }
    desk(&["join", &d, &d, "-o", "/dev/full"]).bad(1, "/dev/full: No space left on device");
    desk(&["wave", "--all", &d, &events, "-o", "/dev/full"])
        .bad(1, "/dev/full: No space left on device");
}

#[test]
fn a_closed_pipe() {
    let folder = Folder::new();
    let d = folder.file("d", D);
    let events = folder.file("events", b"- * 1000000\n");
    for words in [&["run", &d, &events][..], &["live", &d]] {
        let mut child = program()
            .args(words)
            .stdin(Stdio::piped())
            .stdout(Stdio::piped())
            .stderr(Stdio::piped())
            .spawn()
            .expect("it starts");
        drop(child.stdout.take());
        if words[0] == "live" {
            use std::io::Write;
            child
                .stdin
                .as_mut()
                .expect("it is piped")
                .write_all(&[0])
                .expect("it reads");
        }
        let done = child.wait_with_output().expect("it ends");
        assert_eq!(done.status.code(), Some(1), "{words:?}");
        assert_eq!(
            String::from_utf8_lossy(&done.stderr),
            "groovepawn: standard output: Broken pipe\n"
        );
    }
}

/// Whoever may do everything is nobody for this test.
#[test]
fn no_permission() {
    const NOBODY: u32 = 65_534;
    let folder = Folder::new();
    let (d, secret) = (folder.file("d", D), folder.file("secret", D));
    let kept = folder.file("kept", K);
    fs::set_permissions(&secret, Permissions::from_mode(0o000)).expect("they are ours");
    fs::set_permissions(&kept, Permissions::from_mode(0o444)).expect("they are ours");
    // Others may make files beside it, and still not replace it.
    fs::set_permissions(folder.path("."), Permissions::from_mode(0o777)).expect("it is ours");
    // Nobody may well have no way to where the program was built.
    let copy = folder.path("groovepawn");
    fs::copy(env!("CARGO_BIN_EXE_groovepawn"), &copy).expect("it can be copied");
    let as_nobody = |words: &[&str]| {
        let mut command = Command::new(&copy);
        command.args(words);
        if fs::File::open(&secret).is_ok() {
            command.uid(NOBODY).gid(NOBODY);
        }
        let done = command.output().expect("it ends");
        (
            done.status.code(),
            String::from_utf8(done.stderr).expect("words are text"),
        )
    };
    let (status, err) = as_nobody(&["check", &secret]);
    assert_eq!(
        (status, err.contains("secret: Permission denied")),
        (Some(1), true),
        "{err}"
    );
    let (status, err) = as_nobody(&["join", &d, &d, "-o", &kept]);
    assert_eq!(
        (
            status,
            err.contains("kept cannot be written: Permission denied")
        ),
        (Some(1), true),
        "{err}"
    );
    assert_eq!(fs::read(&kept).expect("it is there"), K);
}

#[test]
fn a_file_is_whole_or_not_there() {
    let folder = Folder::new();
    let (d, t) = (folder.file("d", D), folder.file("t", T));
    let out = folder.file("out", b"as it was");
    desk_reading(&["wave", &d, "-", "-o", &out], b"R\nQ\n").bad(1, "line 2");
    desk(&["join", &d, &t, "-o", &out]).bad(1, "refused 12");
    assert_eq!(fs::read(&out).expect("it is there"), b"as it was");
    assert_eq!(folder.names(), ["d", "out", "t"]);
    let part = folder.file("out.part", b"of somebody else");
    desk(&["join", &d, &d, "-o", &out]).bad(1, "out.part: it is in the way");
    assert_eq!(fs::read(&part).expect("it is there"), b"of somebody else");
    fs::remove_file(&part).expect("it is ours");
    desk(&["join", &d, &d, "-o", &out]).good();
    let cleaned = folder.path("cleaned");
    desk(&["clean", "-r", "1", &out, "-o", &cleaned]).good();
    assert_eq!(folder.names(), ["cleaned", "d", "out", "t"]);
}
