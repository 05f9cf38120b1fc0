// SPDX-License-Identifier: Apache-2.0 OR MIT
//! Other processes for a test: the test's own program, started again for one of its tests that are ignored otherwise.
#![allow(dead_code)] // a test needs some of it

use std::env;
use std::io::{stdin, stdout, BufRead, BufReader, Write};
use std::os::raw::{c_int, c_ulong};
use std::process::{Child, ChildStdin, ChildStdout, Command, Stdio};
use std::sync::atomic::{AtomicU32, Ordering};

const NAME: &str = "IOX2PS_TEST_NAME";
// What a child says begins so, among the lines of the test's own program.
const SAYS: &str = "child says ";

/// A name that no other test has.
pub fn name_of(test: &str) -> String {
    static COUNT: AtomicU32 = AtomicU32::new(0);
    let count = COUNT.fetch_add(1, Ordering::Relaxed);
    format!("test_{test}_{count}.{}", std::process::id())
}

/// A process, which is killed where the test fails before it ends.
pub struct Process {
    child: Child,
    input: Option<ChildStdin>,
    output: BufReader<ChildStdout>,
}

impl Process {
    /// One that runs this test of the program's, which finds the name by `in_child`.
    pub fn start(role: &str, name: &str) -> Process {
        let mut child = Command::new(env::current_exe().unwrap())
            .args(["--exact", role, "--ignored", "--nocapture", "--test-threads=1"])
            .env(NAME, name)
            .stdin(Stdio::piped())
            .stdout(Stdio::piped())
            .spawn()
            .unwrap();
        Process {
            input: child.stdin.take(),
            output: BufReader::new(child.stdout.take().unwrap()),
            child,
        }
    }

    /// What it says next.
    #[track_caller]
    pub fn hear(&mut self) -> String {
        let mut line = String::new();
        loop {
            line.clear();
            assert_ne!(self.output.read_line(&mut line).unwrap(), 0, "it has ended");
            if let Some(at) = line.find(SAYS) {
                return line[at + SAYS.len()..].trim_end().into();
            }
        }
    }

    /// Its process identifier.
    pub fn id(&self) -> u32 {
        self.child.id()
    }

    /// Lets it go on behind `wait_for_parent`.
    pub fn go_on(&mut self) {
        writeln!(self.input.as_ref().unwrap(), "go on").unwrap();
    }

    pub fn kill(mut self) {
        self.child.kill().unwrap();
        self.child.wait().unwrap();
    }

    /// It ends by itself, and nothing failed in it.
    #[track_caller]
    pub fn end(mut self) {
        drop(self.input.take());
        assert!(self.child.wait().unwrap().success());
    }
}

impl Drop for Process {
    fn drop(&mut self) {
        let _ = self.child.kill();
        let _ = self.child.wait();
    }
}

/// In a child: the name that it was started with. It ends with its parent.
pub fn in_child() -> String {
    extern "C" {
        fn prctl(option: c_int, ...) -> c_int;
    }
    const PR_SET_PDEATHSIG: c_int = 1;
    const SIGKILL: c_ulong = 9;
    // SAFETY: it takes a number.
    assert_eq!(unsafe { prctl(PR_SET_PDEATHSIG, SIGKILL) }, 0);
    env::var(NAME).unwrap()
}

pub fn say(words: &str) {
    println!("{SAYS}{words}");
    stdout().flush().unwrap();
}

/// Until the parent says so. A parent that has no more to say ends the child.
pub fn wait_for_parent() {
    let mut line = String::new();
    if stdin().lock().read_line(&mut line).unwrap() == 0 {
        std::process::exit(0);
    }
}
