//! What the tests of the program share: a folder with the week's files, and runs of the built program there.

// Each test file is a program of its own and uses a part of this.
#![allow(dead_code)]

use std::collections::BTreeMap;
use std::fs;
use std::path::{Path, PathBuf};
use std::process::{Command, Output};

/// The top of the repository.
pub fn top() -> PathBuf {
    Path::new(env!("CARGO_MANIFEST_DIR")).join("../..")
}

/// What a run said.
#[derive(Debug)]
pub struct Ran {
    pub status: i32,
    pub out: String,
    pub err: String,
}

impl Ran {
    fn of(output: Output) -> Self {
        let text = |bytes| String::from_utf8(bytes).expect("what is said is text");
        Self {
            status: output.status.code().expect("it was not killed"),
            out: text(output.stdout),
            err: text(output.stderr),
        }
    }

    /// The output of a run that ended with this status and said nothing on standard error.
    pub fn said(self, status: i32) -> String {
        assert_eq!(
            (self.status, self.err.as_str()),
            (status, ""),
            "{}",
            self.out
        );
        self.out
    }

    /// The line at a place of the output.
    pub fn line(&self, at: usize) -> &str {
        self.out.lines().nth(at).expect("there is such a line")
    }
}

/// A folder with the files of samples/week.
pub struct Week {
    pub folder: PathBuf,
}

impl Week {
    /// A fresh folder of this name.
    pub fn new(name: &str) -> Self {
        let folder = Path::new(env!("CARGO_TARGET_TMPDIR")).join(name);
        if folder.exists() {
            fs::remove_dir_all(&folder).expect("an old folder can go");
        }
        fs::create_dir_all(&folder).expect("the folder can be made");
        let week = Self { folder };
        week.take("samples/week");
        week
    }

    /// Copies the plain files of a folder of the repository.
    fn take(&self, from: &str) {
        for file in fs::read_dir(top().join(from)).expect("the folder is there") {
            let file = file.expect("the folder can be read").path();
            let name = file.file_name().expect("a file has a name");
            if file.is_file() {
                fs::copy(&file, self.folder.join(name)).expect("a sample can be copied");
            }
        }
    }

    /// The same, with the samples of the program `slots`.
    pub fn samples(name: &str) -> Self {
        let week = Self::new(name);
        week.take("samples");
        week
    }

    /// The same, with Monday's and Tuesday's shops pressed.
    pub fn pressed(name: &str) -> Self {
        let week = Self::new(name);
        week.run("import stage.bin monday.txt monday.bin --names names.txt")
            .said(0);
        week.run("import monday.bin tuesday.txt tuesday.bin --names names.txt")
            .said(0);
        week
    }

    fn command(&self, program: &str) -> Command {
        let mut command = Command::new(program);
        command.current_dir(&self.folder);
        command
    }

    /// Runs the program with words that have no blanks in them.
    pub fn run(&self, words: &str) -> Ran {
        let mut command = self.command(env!("CARGO_BIN_EXE_locustkeno"));
        Ran::of(
            command
                .args(words.split_whitespace())
                .output()
                .expect("the program runs"),
        )
    }

    /// Runs a line of a shell in which the program is known.
    pub fn shell(&self, line: &str) -> Ran {
        let program = Path::new(env!("CARGO_BIN_EXE_locustkeno"));
        let mut paths = vec![program.parent().expect("it is in a folder").to_owned()];
        paths.extend(std::env::split_paths(
            &std::env::var_os("PATH").unwrap_or_default(),
        ));
        let mut command = self.command("sh");
        command.env(
            "PATH",
            std::env::join_paths(paths).expect("paths can be joined"),
        );
        Ran::of(
            command
                .args(["-c", line])
                .output()
                .expect("there is a shell"),
        )
    }

    pub fn path(&self, name: &str) -> PathBuf {
        self.folder.join(name)
    }

    pub fn read(&self, name: &str) -> Vec<u8> {
        fs::read(self.path(name)).expect("the file can be read")
    }

    pub fn text(&self, name: &str) -> String {
        String::from_utf8(self.read(name)).expect("the file is text")
    }

    pub fn write(&self, name: &str, bytes: impl AsRef<[u8]>) {
        fs::write(self.path(name), bytes).expect("the file can be written");
    }

    /// A file with some text replaced, under another name.
    pub fn changed(&self, from: &str, old: &str, new: &str, to: &str) {
        let text = self.text(from);
        assert!(text.contains(old), "{from} has {old}");
        self.write(to, text.replace(old, new));
    }

    /// Every file of the folder with its bytes, hidden ones too.
    pub fn files(&self) -> BTreeMap<PathBuf, Vec<u8>> {
        let all = fs::read_dir(&self.folder).expect("the folder can be read");
        let all = all.map(|file| file.expect("the folder can be read").path());
        let plain = all.filter(|path| path.is_file());
        plain
            .map(|path| (path.clone(), fs::read(&path).expect("the file can be read")))
            .collect()
    }

    /// The run ended with status 2, said each of the words on standard error in one line and nothing else, and left every file as it was.
    pub fn refused(&self, line: &str, words: &[&str]) {
        let before = self.files();
        let ran = if line.contains(['>', ';', '<']) {
            self.shell(line)
        } else {
            self.run(line)
        };
        assert_eq!(
            (ran.status, ran.out.as_str()),
            (2, ""),
            "{line}: {}",
            ran.err
        );
        assert_eq!(ran.err.lines().count(), 1, "{line}: {}", ran.err);
        assert!(ran.err.starts_with("locustkeno: "), "{line}: {}", ran.err);
        for word in words {
            assert!(
                ran.err.contains(word),
                "{line}: {word} is not in {}",
                ran.err
            );
        }
        assert!(
            self.files() == before,
            "{line}: a file changed, came or went"
        );
    }
}
