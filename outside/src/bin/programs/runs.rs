//! Runs of a program by its script, in a folder of the tests' own.
use crate::printed::{Beside, Given, Program};
use std::fs::{self, File};
use std::io::Write;
use std::os::unix::fs::symlink;
use std::path::{Path, PathBuf};
use std::process::{Command, Output, Stdio};
use std::thread::sleep;
use std::time::Duration;

/// The runs of a program so far.
pub struct Runs<'a> {
    root: &'a Path,
    pub program: Program,
    pub count: usize,
}

impl Runs<'_> {
    pub fn new(root: &Path, program: Program) -> Runs<'_> {
        let runs = Runs { root, program, count: 0 };
        fs::create_dir_all(runs.folder()).unwrap();
        runs
    }

    fn folder(&self) -> PathBuf {
        self.root.join("target/programs").join(self.program.name)
    }

    fn script(&self) -> Command {
        let mut command = Command::new(self.root.join(self.program.name));
        command.current_dir(self.folder());
        command
    }

    fn put(&self, name: &str, bytes: &[u8]) -> PathBuf {
        let path = self.folder().join(name);
        fs::write(&path, bytes).unwrap();
        path
    }

    /// Puts what is given into the folder; gives where the day file is.
    fn lay(&self, given: &Given) -> PathBuf {
        for (name, beside) in [("station.id", &given.id), ("needs.act", &given.needs)] {
            let path = self.folder().join(name);
            if path.is_dir() {
                fs::remove_dir(&path).unwrap();
            } else if path.is_symlink() || path.exists() {
                fs::remove_file(&path).unwrap();
            }
            match beside {
                Beside::Missing => {}
                Beside::Bytes(bytes) => fs::write(&path, bytes).unwrap(),
                Beside::Folder => fs::create_dir(&path).unwrap(),
                Beside::Loop => symlink(name, &path).unwrap(),
            }
        }
        self.put("in.day", &given.file)
    }

    fn answers(&mut self, what: &str, output: Output, expected: &str) {
        let (stdout, stderr) = (String::from_utf8_lossy(&output.stdout), String::from_utf8_lossy(&output.stderr));
        assert!(
            stdout == expected && stderr.is_empty() && output.status.success(),
            "{} on {what}: {}\nexpected:\n{expected}seen:\n{stdout}{stderr}",
            self.program.name,
            output.status
        );
        self.count += 1;
    }

    pub fn on(&mut self, what: &str, given: &Given) {
        let file = File::open(self.lay(given)).unwrap();
        let output = self.script().stdin(file).output().unwrap();
        self.answers(what, output, &self.program.printed(given));
    }

    /// A file of the project, in a folder with what is given beside it.
    pub fn in_place(&mut self, folder: &Path, file: &Path, given: &Given) {
        let output = self.script().current_dir(folder).stdin(File::open(file).unwrap()).output().unwrap();
        self.answers(&format!("{}", file.display()), output, &self.program.printed(given));
    }

    /// The file comes through a pipe, a piece at a time.
    pub fn in_pieces(&mut self, given: &Given, piece: usize) {
        self.lay(given);
        let mut child = self.script().stdin(Stdio::piped()).stdout(Stdio::piped()).stderr(Stdio::piped()).spawn().unwrap();
        let mut pipe = child.stdin.take().unwrap();
        for part in given.file.chunks(piece) {
            pipe.write_all(part).unwrap();
            sleep(Duration::from_millis(1));
        }
        drop(pipe);
        let output = child.wait_with_output().unwrap();
        self.answers(&format!("pieces of {piece} bytes"), output, &self.program.printed(given));
    }

    /// A command of the shell in which input or output fails: `$day` is a file, `$to` one that can be written, `$run` the script
    /// or the program. Both are to say so on standard error and print this, and the script is to tell by its status.
    fn tells(&mut self, what: &str, command: &str, given: &Given, printed: &str) {
        let (day, to) = (self.lay(given), self.put("out", b""));
        for (run, is_script) in [(self.root.join(self.program.name), true), (self.root.join("target/bin").join(self.program.name), false)] {
            let mut shell = Command::new("sh");
            shell.current_dir(self.folder()).args(["-c", command]).env("day", &day).env("to", &to).env("run", &run);
            let output = shell.output().unwrap();
            let told = !output.stderr.is_empty() && output.stdout == printed.as_bytes();
            let ended = !output.status.success() || !is_script;
            assert!(told && ended, "{}, {what}: {}, {output:?}", run.display(), output.status);
            self.count += 1;
        }
    }

    fn fails(&mut self, what: &str, command: &str, given: &Given) {
        self.tells(what, command, given, "");
    }

    /// A file of the folder can't be read: it counts as missing.
    pub fn unread(&mut self, what: &str, given: &Given) {
        self.tells(what, "\"$run\" < \"$day\"", given, &self.program.printed(given));
    }

    /// Nobody reads what is printed: the signal ends the program, and the script by it.
    fn reader_gone(&mut self, given: &Given) {
        self.lay(given);
        let mut child = self.script().stdin(Stdio::piped()).stdout(Stdio::piped()).stderr(Stdio::null()).spawn().unwrap();
        drop(child.stdout.take());
        child.stdin.take().unwrap().write_all(&given.file).unwrap();
        assert!(!child.wait().unwrap().success(), "{}, with nobody to read what it prints", self.program.name);
        self.count += 1;
    }

    /// Inputs and outputs that fail: with an answer of many bytes, and with that of a refused file.
    pub fn all_fail(&mut self, long: &Given, short: &Given) {
        for given in [long, short] {
            self.fails("standard output closed", "\"$run\" < \"$day\" >&-", given);
            self.fails("a full device", "\"$run\" < \"$day\" > /dev/full", given);
            self.reader_gone(given);
        }
        self.fails("a disk that fills up after some of it", "trap '' XFSZ; ulimit -f 1; \"$run\" < \"$day\" > \"$to\"", long);
        self.fails("standard input closed", "\"$run\" <&-", long);
        self.fails("a folder for a file", "\"$run\" < /", long);
    }
}
