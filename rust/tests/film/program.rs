//! Runs the program, feeds it and keeps what it writes.
use std::env;
use std::ffi::{OsStr, OsString};
use std::fs::{self, File};
use std::io::{self, Read, Write};
use std::path::{Path, PathBuf};
use std::process::{Child, Command, Stdio};
use std::sync::atomic::{AtomicUsize, Ordering};
use std::sync::{Mutex, PoisonError};
use std::thread;
use std::time::{Duration, Instant};

/// Starts a process, one at a time: a process that has been made and does not run its program yet holds copies of the
/// pipes of all others, and keeps these open.
pub fn started(command: &mut Command) -> io::Result<Child> {
    static ONE: Mutex<()> = Mutex::new(());
    let _one = ONE.lock().unwrap_or_else(PoisonError::into_inner);
    command.spawn()
}

/// How long a run may take. One that hangs ends so.
const PATIENCE: Duration = Duration::from_secs(30);

/// The program that is tested.
pub fn program() -> PathBuf {
    let named = env::var_os("FILM").or(option_env!("CARGO_BIN_EXE_film").map(OsString::from));
    let named = named.expect("the environment variable FILM has to name the program");
    fs::canonicalize(named).expect("FILM has to be the program")
}

/// What a run has on its standard input.
#[derive(Clone, Copy)]
pub enum Input<'a> {
    Bytes(&'a [u8]),
    /// These bytes, and then the input does not end.
    Held(&'a [u8]),
}

/// Where a run writes to.
#[derive(Clone, Copy, PartialEq)]
pub enum Output {
    Kept,
    /// A pipe that nobody reads.
    Unread,
    /// A disk that is full.
    Full,
}

/// A run of the program.
pub struct Call<'a> {
    words: Vec<OsString>,
    input: Input<'a>,
    out: Output,
    err: Output,
    folder: Option<&'a Path>,
    path: Option<&'a str>,
}

/// How a run ended, and what it wrote.
#[derive(Debug)]
pub struct Ended {
    /// `None` if a signal ended it.
    pub status: Option<i32>,
    pub out: String,
    pub said: String,
}

/// A run with these words, and nothing on its standard input.
pub fn call<W: AsRef<OsStr>>(words: impl IntoIterator<Item = W>) -> Call<'static> {
    let words = words.into_iter().map(|word| word.as_ref().to_os_string()).collect();
    Call { words, input: Input::Bytes(&[]), out: Output::Kept, err: Output::Kept, folder: None, path: None }
}

/// A run with the words of a line, on these bytes.
pub fn film(line: &str, input: &[u8]) -> Ended {
    call(line.split_whitespace()).input(Input::Bytes(input)).run()
}

impl<'a> Call<'a> {
    pub fn word(mut self, word: impl AsRef<OsStr>) -> Self {
        self.words.push(word.as_ref().into());
        self
    }

    pub fn input<'b>(self, input: Input<'b>) -> Call<'b>
    where
        'a: 'b,
    {
        Call { input, ..self }
    }

    pub fn bytes<'b>(self, bytes: &'b [u8]) -> Call<'b>
    where
        'a: 'b,
    {
        self.input(Input::Bytes(bytes))
    }

    pub fn out(self, out: Output) -> Self {
        Call { out, ..self }
    }

    pub fn err(self, err: Output) -> Self {
        Call { err, ..self }
    }

    /// In this folder.
    pub fn within<'b>(self, folder: &'b Path) -> Call<'b>
    where
        'a: 'b,
    {
        Call { folder: Some(folder), ..self }
    }

    /// With this PATH.
    pub fn path<'b>(self, path: &'b str) -> Call<'b>
    where
        'a: 'b,
    {
        Call { path: Some(path), ..self }
    }

    pub fn run(self) -> Ended {
        let mut command = Command::new(program());
        command.args(&self.words).stdin(Stdio::piped()).stdout(self.out.open()).stderr(self.err.open());
        if let Some(folder) = self.folder {
            command.current_dir(folder);
        }
        if let Some(path) = self.path {
            command.env("PATH", path);
        }
        let mut child = started(&mut command).expect("the program has to start");
        let words = &self.words;
        fed(&mut child, self.input).unwrap_or_else(|| panic!("film {words:?} does not end"))
    }
}

impl Output {
    fn open(self) -> Stdio {
        match self {
            Output::Kept => Stdio::piped(),
            Output::Full => File::options().write(true).open("/dev/full").expect("Linux has /dev/full").into(),
            Output::Unread => unread(),
        }
    }
}

/// The writing end of a pipe that nobody reads: the input of a process that has ended.
fn unread() -> Stdio {
    let mut command = Command::new(program());
    let mut child = started(command.arg("--version").stdin(Stdio::piped()).stdout(Stdio::null()))
        .expect("the program has to start");
    let pipe = child.stdin.take().expect("its input is a pipe");
    child.wait().expect("it ends");
    pipe.into()
}

/// Feeds a process and waits for its end. `None` if it had to be ended.
fn fed(child: &mut Child, input: Input) -> Option<Ended> {
    let (mut stdin, stdout, stderr) = (child.stdin.take(), child.stdout.take(), child.stderr.take());
    thread::scope(|scope| {
        let out = scope.spawn(|| all_of(stdout));
        let said = scope.spawn(|| all_of(stderr));
        let (bytes, held) = match input {
            Input::Bytes(bytes) => (bytes, false),
            Input::Held(bytes) => (bytes, true),
        };
        let feed = scope.spawn(move || {
            // a program that ends early takes no more
            let _ = stdin.as_mut().map(|pipe| pipe.write_all(bytes));
            stdin.filter(|_| held)
        });
        let status = awaited(child);
        drop(feed.join());
        let (out, said) = (out.join().ok()?, said.join().ok()?);
        Some(Ended { status: status?.code(), out, said })
    })
}

fn all_of(pipe: Option<impl Read>) -> String {
    let mut bytes = Vec::new();
    if let Some(mut pipe) = pipe {
        pipe.read_to_end(&mut bytes).expect("a pipe can be read");
    }
    String::from_utf8(bytes).expect("what the program writes is text")
}

fn awaited(child: &mut Child) -> Option<std::process::ExitStatus> {
    let start = Instant::now();
    while start.elapsed() < PATIENCE {
        if let Some(status) = child.try_wait().expect("it can be waited for") {
            return Some(status);
        }
        thread::sleep(Duration::from_millis(1));
    }
    child.kill().expect("it can be ended");
    child.wait().expect("it ends");
    None
}

impl Ended {
    /// What was written, of a run that ended well.
    pub fn well(self) -> String {
        assert_eq!(self.status, Some(0), "{}", self.said);
        self.out
    }

    /// Whether a line on standard error has all of these words.
    pub fn says(&self, words: &[&str]) -> bool {
        self.said.lines().any(|line| line.starts_with("film: ") && words.iter().all(|word| line.contains(word)))
    }

    /// A run that must have ended with this status, have said why in lines of its own, one of which has all of these
    /// words, and not have panicked.
    pub fn refused(&self, status: i32, words: &[&str]) {
        assert_eq!(self.status, Some(status), "{words:?}: {self:?}");
        assert!(self.said.lines().all(|line| line.starts_with("film: ")), "{words:?}: {self:?}");
        assert!(!self.said.contains("panicked"), "{self:?}");
        assert!(self.says(words), "no line with {words:?}: {self:?}");
    }
}

/// A folder for what a test writes. It is removed in the end.
pub struct Room(PathBuf);

impl Room {
    pub fn new() -> Room {
        static NEXT: AtomicUsize = AtomicUsize::new(0);
        let folder = env::var_os("ROOM").map_or_else(env::temp_dir, PathBuf::from);
        let name = format!("film-{}-{}", std::process::id(), NEXT.fetch_add(1, Ordering::Relaxed));
        let room = folder.join(name);
        fs::create_dir_all(&room).expect("ROOM has to be a folder that can be written");
        Room(fs::canonicalize(&room).expect("it is there"))
    }

    pub fn folder(&self) -> &Path {
        &self.0
    }

    pub fn file(&self, name: impl AsRef<Path>) -> PathBuf {
        self.0.join(name)
    }

    /// A run in this folder, with the words of a line, on these bytes.
    pub fn film(&self, line: &str, input: &[u8]) -> Ended {
        call(line.split_whitespace()).bytes(input).within(&self.0).run()
    }

    /// What a run has written to a file in this folder.
    pub fn text(&self, name: &str) -> String {
        text(&self.file(name))
    }

    /// A file with these bytes.
    pub fn with(&self, name: impl AsRef<Path>, bytes: &[u8]) -> PathBuf {
        let file = self.file(name);
        fs::write(&file, bytes).expect("the room can be written");
        file
    }
}

impl Drop for Room {
    fn drop(&mut self) {
        let _ = fs::remove_dir_all(&self.0);
    }
}

/// The text of a file that the program has written.
pub fn text(file: &Path) -> String {
    fs::read_to_string(file).unwrap_or_else(|error| panic!("{}: {error}", file.display()))
}
