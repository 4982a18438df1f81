//! `live` beside a controller of another process.

mod common;

use std::io::{Read, Write};
use std::process::{ChildStdin, ChildStdout, Command, Stdio};

use common::random::Random;
use common::samples::{D, S, T};
use common::{desk, desk_reading, program, Folder};

/// A process that answers a byte with a byte.
struct Partner {
    child: std::process::Child,
    to: Option<ChildStdin>,
    from: ChildStdout,
}

impl Partner {
    fn start(mut command: Command) -> Partner {
        command
            .stdin(Stdio::piped())
            .stdout(Stdio::piped())
            .stderr(Stdio::piped());
        let mut child = command.spawn().expect("it starts");
        let (to, from) = (
            child.stdin.take(),
            child.stdout.take().expect("it is piped"),
        );
        Partner { child, to, from }
    }

    fn live(path: &str) -> Partner {
        let mut command = program();
        command.args(["live", path]);
        Partner::start(command)
    }

    /// Its answer, which comes before it is given anything else.
    fn ask(&mut self, byte: u8) -> u8 {
        let mut answer = [0];
        self.to
            .as_mut()
            .expect("it listens")
            .write_all(&[byte])
            .expect("it reads");
        self.from
            .read_exact(&mut answer)
            .expect("it answers at once");
        answer[0]
    }

    /// The end of its input, and what it then comes to.
    fn end(mut self) -> (Option<i32>, Vec<u8>, String) {
        drop(self.to.take());
        let mut rest = Vec::new();
        self.from.read_to_end(&mut rest).expect("it ends");
        let mut err = String::new();
        self.child
            .stderr
            .take()
            .expect("it is piped")
            .read_to_string(&mut err)
            .expect("words are text");
        (self.child.wait().expect("it ends").code(), rest, err)
    }
}

/// The controller answers each input with the same bits: `cat` does so at once.
#[test]
fn live_releases_what_run_releases() {
    let folder = Folder::new();
    for (name, file, signals) in [("d", D, 1), ("t", T, 1)] {
        let path = folder.file(name, file);
        let mut enforcer = Partner::live(&path);
        let mut controller = Partner::start(Command::new("cat"));
        let mut random = Random::new(7);
        let (mut read, mut released) = (Vec::new(), Vec::new());
        for _ in 0..2_000 {
            let x = random.next() as u8 & signals;
            let passed = enforcer.ask(x);
            let y = controller.ask(passed);
            let put_out = enforcer.ask(y);
            read.push(x | y << 4);
            released.push(passed | put_out << 4);
        }
        assert_eq!(enforcer.end(), (Some(0), vec![], String::new()));
        assert_eq!(controller.end().0, Some(0));
        assert_eq!(
            desk_reading(&["run", "--bytes", &path, "-"], &read)
                .good()
                .out,
            released
        );
    }
}

#[test]
fn a_byte_that_is_refused_ends_it() {
    let folder = Folder::new();
    let path = folder.file("s", S);
    let refused = desk_reading(&["live", &path], &[0x03, 0, 4, 0])
        .bad(1, "refused 15")
        .bad(1, "tick 2, input 0x04");
    assert_eq!(refused.out, [0x01, 0]);
    let refused = desk_reading(&["live", &path], &[0x03, 2, 0]).bad(1, "tick 1, output 0x02");
    assert_eq!(refused.out, [0x01]);
}

#[test]
fn the_end_of_its_input_is_told_from_a_tick_cut_short() {
    let folder = Folder::new();
    let path = folder.file("s", S);
    assert_eq!(desk(&["live", &path]).good().out, b"");
    assert_eq!(desk_reading(&["live", &path], &[1, 1]).good().out, [1, 1]);
    let cut = desk_reading(&["live", &path], &[1, 1, 2]).bad(1, "ends within tick 2");
    assert_eq!(cut.out, [1, 1, 2]);
    desk(&["live", "-"]).bad(2, "the policy is a file");
}
