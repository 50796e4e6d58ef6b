//! What the tests of the command share: a folder with a volume in it, calls of the command there, and what has to hold
//! of them. Pieces, random numbers and the bytes of all files are those of the store layer's tests.

// Each test program uses a part of it.
#![allow(dead_code)]

#[path = "../../../store/tests/common/mod.rs"]
pub mod of_the_store;

use std::fs::{self, File};
use std::io::{self, ErrorKind, Write};
use std::ops::Range;
use std::path::{Path, PathBuf};
use std::process::{Child, Command, ExitStatus, Output, Stdio};
use std::sync::mpsc;
use std::thread;
use std::time::Duration;

use serde_json::{json, Value};
use streterva_store::Place;
use tempfile::TempDir;

pub use of_the_store::{contents, piece};
pub use streterva_store::Form;

/// Both forms of a volume.
pub const FORMS: [Form; 2] = of_the_store::FORMS;

pub const PROGRAM: &str = env!("CARGO_BIN_EXE_streterva");

/// The bytes of a block, but where a test says otherwise.
pub const SIZE: u64 = 512;

/// The bytes of a record.
pub const RECORD: usize = 512;

/// A call that has not ended after this does not end.
const LONGEST: Duration = Duration::from_secs(30);

/// Sends a signal to a process.
pub fn signal(process: u32, number: i32) {
    // SAFETY: the call has no condition; the process is a child that was not waited for yet.
    let sent = unsafe { libc::kill(process as i32, number) };
    assert_eq!(sent, 0, "process {process} gets no signal");
}

/// What a call ended with.
#[derive(Debug)]
pub struct Ended {
    pub call: String,
    pub how: ExitStatus,
    pub out: Vec<u8>,
    pub error: String,
}

impl Ended {
    fn of(call: String, output: Output) -> Ended {
        let error = String::from_utf8_lossy(&output.stderr).into_owned();
        Ended { call, how: output.status, out: output.stdout, error }
    }

    /// The exit status.
    pub fn status(&self) -> i32 {
        self.how.code().unwrap_or_else(|| panic!("{}: {}", self.call, self.how))
    }

    /// Standard output as text.
    pub fn text(&self) -> &str {
        std::str::from_utf8(&self.out).expect("standard output is text")
    }

    /// Standard output, which is one JSON object on one line.
    pub fn json(&self) -> Value {
        one_object(self.text())
    }

    /// The error that standard error has as one JSON object on one line.
    pub fn error_as_json(&self) -> Value {
        one_object(&self.error)["error"].clone()
    }

    /// The call has ended with this status.
    pub fn with_status(self, status: i32) -> Ended {
        assert_eq!(self.status(), status, "{}: {}{}", self.call, self.text(), self.error);
        self
    }

    /// The call is done, and nothing is said of errors.
    pub fn done(self) -> Ended {
        assert_eq!((self.how.code(), self.error.as_str()), (Some(0), ""), "{}", self.call);
        self
    }
}

fn one_object(text: &str) -> Value {
    assert!(text.ends_with('\n') && text.lines().count() == 1, "no single line: {text}");
    let value: Value = serde_json::from_str(text).unwrap_or_else(|error| panic!("{error}: {text}"));
    assert!(value.is_object(), "{value}");
    value
}

/// A call that is under way.
pub struct Running {
    call: String,
    child: Child,
}

impl Running {
    /// Begins a call and feeds it standard input.
    pub fn begin(command: &mut Command, input: &[u8]) -> io::Result<Running> {
        let call = format!("{command:?}");
        let mut child = command.stdin(Stdio::piped()).stdout(Stdio::piped()).stderr(Stdio::piped()).spawn()?;
        let mut pipe = child.stdin.take().expect("it is a pipe");
        if let Err(error) = pipe.write_all(input) {
            // A call may end without reading it.
            assert_eq!(error.kind(), ErrorKind::BrokenPipe);
        }
        Ok(Running { call, child })
    }

    /// Ctrl-C.
    pub fn interrupt(&self) {
        signal(self.child.id(), libc::SIGINT);
    }

    pub fn child(&mut self) -> &mut Child {
        &mut self.child
    }

    /// Waits for its end, which comes.
    pub fn ended(self) -> Ended {
        let process = self.child.id();
        let (tell, told) = mpsc::channel();
        thread::spawn(move || tell.send(self.child.wait_with_output()));
        match told.recv_timeout(LONGEST) {
            Ok(output) => Ended::of(self.call, output.expect("the call can be waited for")),
            Err(_) => {
                signal(process, libc::SIGKILL);
                panic!("{} has not ended", self.call);
            }
        }
    }
}

/// A refusal: exit status, number of the documents where there is one, and sentence.
#[derive(Clone, Copy, Debug)]
pub struct Refused<'a>(pub i32, pub Option<u64>, pub &'a str);

/// A folder in which the command is called; most have a volume, named `volume`.
pub struct Rack {
    folder: TempDir,
    pub form: Form,
}

impl Rack {
    /// A folder without a volume.
    pub fn empty(form: Form) -> Rack {
        let folder = tempfile::tempdir().expect("a folder can be made");
        Rack { folder, form }
    }

    /// A new volume with room for 16 disks.
    pub fn new(form: Form, rows: u64, disks: u64) -> Rack {
        let rack = Rack::empty(form);
        let of_the_form = match form {
            Form::Image => "--room 16",
            Form::Folder => "--folder",
        };
        rack.done(&format!("create volume --size {SIZE} --rows {rows} --disks {disks} {of_the_form}"));
        rack
    }

    /// A new volume in the picture of docs/VOLUME.md: 3 disks of 5 rows.
    pub fn of_the_picture() -> Rack {
        Rack::new(Form::Image, 5, 3)
    }

    /// A path in the folder.
    pub fn path(&self, name: &str) -> PathBuf {
        self.folder.path().join(name)
    }

    fn place(&self) -> Place {
        Place::new(&self.path("volume"), self.form)
    }

    /// The file with the volume's record.
    pub fn record(&self) -> PathBuf {
        self.place().record_path()
    }

    /// The byte of that file at which the record begins.
    pub fn record_byte(&self) -> usize {
        self.place().record_byte() as usize
    }

    /// The record.
    pub fn sector(&self) -> Vec<u8> {
        let bytes = fs::read(self.record()).expect("the record can be read");
        bytes[self.record_byte()..][..RECORD].to_vec()
    }

    /// Puts another byte into the record.
    pub fn damage(&self, byte: usize, with: u8) {
        let mut bytes = fs::read(self.record()).expect("the record can be read");
        bytes[self.record_byte() + byte] = with;
        fs::write(self.record(), bytes).expect("the record can be written");
    }

    /// The name of the file that has the rows of disk `disk` of a volume, and the byte of it at which they begin.
    pub fn disk(&self, disk: u64, rows: u64) -> (String, u64) {
        match self.form {
            Form::Image => ("volume".to_string(), RECORD as u64 + disk * rows * SIZE),
            Form::Folder => (format!("volume/disk-{disk:02}"), 0),
        }
    }

    /// Makes a file in the folder.
    pub fn put(&self, name: &str, bytes: impl AsRef<[u8]>) {
        fs::write(self.path(name), bytes).expect("a file can be made");
    }

    /// The bytes of a file in the folder.
    pub fn get(&self, name: &str) -> Vec<u8> {
        fs::read(self.path(name)).unwrap_or_else(|error| panic!("{name}: {error}"))
    }

    /// Removes a file in the folder.
    pub fn remove(&self, name: &str) {
        fs::remove_file(self.path(name)).unwrap_or_else(|error| panic!("{name}: {error}"));
    }

    /// Gives a file in the folder another length.
    pub fn cut(&self, name: &str, bytes: u64) {
        let file = File::options().write(true).open(self.path(name)).expect("the file can be opened");
        file.set_len(bytes).expect("the file can be cut");
    }

    /// The command, to be called in the folder with these words.
    pub fn command(&self, call: &str) -> Command {
        let mut command = Command::new(PROGRAM);
        command.args(call.split_whitespace()).current_dir(self.folder.path());
        command
    }

    /// Begins a call and feeds it standard input.
    pub fn start(&self, call: &str, input: &[u8]) -> Running {
        Running::begin(&mut self.command(call), input).expect("the command starts")
    }

    /// Makes a call with something on standard input.
    pub fn fed(&self, call: &str, input: &[u8]) -> Ended {
        self.start(call, input).ended()
    }

    /// Makes a call.
    pub fn call(&self, call: &str) -> Ended {
        self.fed(call, b"")
    }

    /// Makes a call that is done, and says nothing of errors.
    pub fn done(&self, call: &str) -> Ended {
        self.call(call).done()
    }

    /// What a call that is done tells as JSON.
    pub fn told(&self, call: &str) -> Value {
        self.done(&format!("{call} --json")).json()
    }

    /// Does something that leaves every file as it is.
    pub fn unchanged<T>(&self, what: impl FnOnce() -> T) -> T {
        let before = contents(self.folder.path());
        let told = what();
        let after = contents(self.folder.path());
        assert!(before.keys().eq(after.keys()), "there were {:?} and are {:?}", before.keys(), after.keys());
        let changed: Vec<&PathBuf> = before.keys().filter(|name| before[*name] != after[*name]).collect();
        assert_eq!(changed, Vec::<&PathBuf>::new());
        told
    }

    /// Makes a call that is refused.
    pub fn refused(&self, call: &str, expected: Refused) {
        self.refused_when_fed(call, b"", expected);
    }

    /// Makes calls that are all refused in this way.
    pub fn all_refused(&self, calls: &[&str], expected: Refused) {
        calls.iter().for_each(|call| self.refused(call, expected));
    }

    /// Makes a call with something on standard input that is refused, in words and as JSON, and leaves every file as it
    /// is.
    pub fn refused_when_fed(&self, call: &str, input: &[u8], expected: Refused) {
        let Refused(status, number, sentence) = expected;
        let told = self.unchanged(|| self.fed(call, input));
        assert_eq!((told.status(), told.text()), (status, ""), "{call}: {}", told.error);
        assert_eq!(told.error, format!("streterva: {sentence}\n"), "{call}");
        let told = self.unchanged(|| self.fed(&format!("{call} --json"), input));
        assert_eq!((told.status(), told.text()), (status, ""), "{call} --json: {}", told.error);
        let error = json!({"status": status, "refusal": number, "sentence": sentence});
        assert_eq!(told.error_as_json(), error, "{call} --json");
    }

    /// Saves this version of these blocks, which are open.
    pub fn save(&self, blocks: Range<u64>, version: u64) {
        self.put("saves", pieces(&blocks, version));
        self.done(&format!("import volume saves --quiet --first {}", blocks.start));
        self.remove("saves");
    }

    /// All open blocks, one after the other.
    pub fn exported(&self) -> Vec<u8> {
        self.done("export volume - --quiet").out
    }

    /// These blocks are read as they were saved in this version.
    pub fn has(&self, blocks: Range<u64>, version: u64) {
        let exported = self.exported();
        let lost = blocks.into_iter().find(|block| {
            let from = (block * SIZE) as usize;
            exported.get(from..from + SIZE as usize) != Some(piece(SIZE, *block, version).as_slice())
        });
        assert_eq!(lost, None, "the first block that is not read as it was saved");
    }

    /// Takes the volume through a growth, some advance calls at a time, and looks at it in every stage.
    pub fn grow_in_stages(&self, count: u64, calls: u64, mut look: impl FnMut(&Rack)) {
        let mut left = number(&self.told(&format!("grow volume {count}"))["calls_left"]);
        while left > 0 {
            look(self);
            let told = number(&self.told(&format!("advance volume --calls {calls}"))["calls_left"]);
            assert!(told < left, "{left} calls were left, and then {told}");
            left = told;
        }
        look(self);
    }

    /// Grows the volume and runs the growth to its end.
    pub fn grow_and_run(&self, count: u64) {
        self.done(&format!("grow volume {count}"));
        self.done("run volume --quiet");
    }
}

/// Each of these with each of those.
pub fn pairs<'a, A, B>(these: &'a [A], those: &'a [B]) -> impl Iterator<Item = (&'a A, &'a B)> {
    these.iter().flat_map(|one| those.iter().map(move |other| (one, other)))
}

/// The pieces of these blocks in this version, one after the other.
pub fn pieces(blocks: &Range<u64>, version: u64) -> Vec<u8> {
    blocks.clone().flat_map(|block| piece(SIZE, block, version)).collect()
}

/// A number in an answer.
pub fn number(value: &Value) -> u64 {
    value.as_u64().unwrap_or_else(|| panic!("{value} is no number"))
}

/// A list of numbers in an answer.
pub fn numbers(value: &Value) -> Vec<u64> {
    value.as_array().unwrap_or_else(|| panic!("{value} is no list")).iter().map(number).collect()
}

/// The answer without its times, each of which is a time that a call may take, in seconds.
pub fn without_seconds(mut value: Value) -> Value {
    let fields = value.as_object_mut().expect("an object");
    let seconds = fields.remove("seconds").expect("it tells the seconds");
    assert!(seconds.as_f64().is_some_and(|seconds| (0.0..LONGEST.as_secs_f64()).contains(&seconds)), "{seconds}");
    value
}

/// A text with the numbers before "s," and " bytes a second" left out, which no two calls have alike.
pub fn without_rate(text: &str) -> String {
    let (before, rest) = text.split_once(" in ").expect("a time is told");
    let (seconds, rest) = rest.split_once(" s, ").expect("a time is told");
    let (rate, rest) = rest.split_once(" bytes a second").expect("a rate is told");
    assert!(seconds.parse::<f64>().is_ok(), "{text}");
    assert!(rate.replace(',', "").parse::<u64>().is_ok(), "{text}");
    format!("{before} in .. s, .. bytes a second{rest}")
}

/// Makes a pipe with a name.
pub fn make_pipe(rack: &Rack, name: &str) {
    let made = Command::new("mkfifo").arg(rack.path(name)).status().expect("mkfifo starts");
    assert!(made.success());
}

/// A file, locked as another process locks it that has the volume.
pub fn locked(path: &Path) -> File {
    let file = File::open(path).expect("the file can be opened");
    file.lock().expect("the file can be locked");
    file
}

/// Ends a lock. To close the file is not enough while a child that another test starts has it too.
pub fn unlock(lock: File) {
    lock.unlock().expect("the lock can be ended");
}

/// The path of a program that the tests compare with.
pub fn in_the_repository(path: &str) -> PathBuf {
    Path::new(env!("CARGO_MANIFEST_DIR")).join("..").join(path)
}
