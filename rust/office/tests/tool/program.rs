//! The tool as a program, in a folder of its own for each test.
use std::ffi::OsStr;
use std::fs;
use std::io::Write;
use std::path::{Path, PathBuf};
use std::process::{Command, Output, Stdio};

/// Document 01's sheet S as a table; it has 12 records.
pub const S: &str = include_str!("../../../../sheets/s.csv");

/// The example with loads; it has 28 records.
pub const LOADS: &str = include_str!("../../../../sheets/loads.csv");

/// The example of the Börde; it has 290 records.
pub const BOERDE: &str = include_str!("../../../../sheets/boerde.csv");

/// A table whose sheet breaks the four-point rule.
pub const BROKEN: &str = "cents,A,B\nfee,0,0\nF,1,1\nG,1,4\n";

/// Two yards at one place, of which a limited list of two leases the dearer for nothing.
pub const UNUSED: &str = "cents,Near,Twin\nfee,5,5000000\nF,10,10\nG,20,20\n";

/// What the program puts out, what it tells beside that, and its status.
#[derive(Debug, PartialEq, Eq)]
pub struct Answer {
    pub status: i32,
    pub out: String,
    pub err: String,
}

pub struct Folder(PathBuf);

impl Folder {
    /// An empty folder, called as the test.
    pub fn new(test: &str) -> Folder {
        let path = Path::new(env!("CARGO_TARGET_TMPDIR")).join(test);
        let _ = fs::remove_dir_all(&path);
        fs::create_dir_all(&path).unwrap();
        Folder(path)
    }

    /// A folder with these tables, each with the sheet that it makes: `s.csv` and `s.sheet` for `s`.
    pub fn with_sheets(test: &str, tables: &[(&str, &str)]) -> Folder {
        let folder = Folder::new(test);
        for (name, table) in tables {
            folder.put(&format!("{name}.csv"), table);
            folder.run(&format!("make {name}.csv {name}.sheet"));
        }
        folder
    }

    pub fn path(&self, file: impl AsRef<Path>) -> PathBuf {
        self.0.join(file)
    }

    pub fn put(&self, file: &str, bytes: impl AsRef<[u8]>) {
        fs::write(self.path(file), bytes).unwrap();
    }

    pub fn get(&self, file: &str) -> Vec<u8> {
        fs::read(self.path(file)).unwrap()
    }

    /// The names of all files, hidden ones too.
    pub fn files(&self) -> Vec<String> {
        let name = |entry: fs::DirEntry| entry.file_name().to_string_lossy().into_owned();
        let mut names: Vec<String> = fs::read_dir(&self.0).unwrap().map(|entry| name(entry.unwrap())).collect();
        names.sort();
        names
    }

    pub fn command<Word: AsRef<OsStr>>(&self, words: impl IntoIterator<Item = Word>) -> Command {
        let mut command = Command::new(env!("CARGO_BIN_EXE_sheet"));
        command.args(words).current_dir(&self.0);
        command
    }

    /// Runs a command line whose words have no blanks.
    pub fn run(&self, line: &str) -> Answer {
        answer(self.command(line.split_whitespace()).output().unwrap())
    }

    /// The same with standard input.
    pub fn run_with_input(&self, line: &str, input: &[u8]) -> Answer {
        let mut command = self.command(line.split_whitespace());
        let mut child = command.stdin(Stdio::piped()).stdout(Stdio::piped()).stderr(Stdio::piped()).spawn().unwrap();
        // A program that stops before it has read everything closes the pipe.
        let _ = child.stdin.take().unwrap().write_all(input);
        answer(child.wait_with_output().unwrap())
    }

    /// The same with something else for standard output.
    pub fn run_into(&self, line: &str, output: impl Into<Stdio>) -> Answer {
        answer(self.command(line.split_whitespace()).stdout(output).output().unwrap())
    }

    /// What an accepted command puts out.
    pub fn said(&self, line: &str) -> String {
        let Answer { status, out, err } = self.run(line);
        assert!(status == 0 && err.is_empty(), "{line}: {status}\n{out}{err}");
        out
    }

    /// The status is as told, and what is put out and told beside that has these parts, and is empty where a part is.
    pub fn assert_told(&self, (line, status, out, err): Case) {
        let answer = self.run(line);
        assert_eq!(answer.status, status, "{line}: {answer:?}");
        assert!(answer.out.contains(out) && answer.err.contains(err), "{line}: {answer:?}");
        assert!(
            answer.out.is_empty() == out.is_empty() && answer.err.is_empty() == err.is_empty(),
            "{line}: {answer:?}"
        );
    }
}

/// A command line, its status, and a part of what it puts out and of what it tells beside that.
pub type Case<'a> = (&'a str, i32, &'a str, &'a str);

/// A program that was ended by a signal has no status.
pub fn answer(output: Output) -> Answer {
    Answer {
        status: output.status.code().expect("the program ends by itself"),
        out: String::from_utf8(output.stdout).unwrap(),
        err: String::from_utf8(output.stderr).unwrap(),
    }
}
