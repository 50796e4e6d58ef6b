//! Processes that are killed in the middle of their work, again and again on one volume that goes on growing.
//!
//! This program runs itself as a child, which opens the volume, saves, grows and flushes until it is killed, and says
//! what it does line by line. Each line is written before the child goes on, so that this one knows what has to be
//! kept.

mod common;

use std::env;
use std::fmt;
use std::fs::File;
use std::io::{self, BufRead, BufReader, Write};
use std::os::unix::process::ExitStatusExt;
use std::path::{Path, PathBuf};
use std::process::{self, ChildStdout, Command, Stdio};
use std::sync::mpsc::{self, Sender};
use std::sync::Arc;
use std::thread;
use std::time::{Duration, Instant};

use common::{all_is_kept, contents, piece, plan, put_contents, quick_folder, Random, Saves};
use streterva::{Block, Refusal, State};
use streterva_store::{Drives, Error, Form, Options, Volume};

/// The volume and the seed, for a child.
const VOLUME: &str = "STRETERVA_TEST_VOLUME";
const SEED: &str = "STRETERVA_TEST_SEED";

const SIZE: u64 = 512;
const ROWS: u64 = 512;

/// At least so many kills, on a volume that has begun at least so many growths in the end.
const KILLS: u64 = 40;
const GROWTHS: u64 = 4;
/// Where a machine is slow, there may be so many kills until then.
const MOST_KILLS: u64 = 150;
const SIGKILL: i32 = 9;

/// What a child says before it opens the volume.
const OPENING: &str = "opening";
/// The most advance calls of a child. Seven growths take at least seven times as many as there are rows, so that no
/// machine is too fast.
const MOST_ADVANCES: u64 = 125;
/// A child is killed after about so many lines at most, while it has advance calls left more often than not.
const MOST_LINES: u64 = 300;
/// The end of a child that is not killed.
const CHILD_ENDS: Duration = Duration::from_secs(20);

/// Drives that do nothing. A killed process leaves all that it stored in the files, so that nothing is lost by it, and
/// the kill falls into a store rather than into a flush.
struct NoDrives;

impl Drives for NoDrives {
    fn flush(&self, _: &Path, _: &File) -> io::Result<()> {
        Ok(())
    }
}

/// Runs as a child, and otherwise is no test.
#[test]
fn child() {
    let Some(path) = env::var_os(VOLUME) else {
        return;
    };
    let seed = env::var(SEED).expect("a seed is given").parse().expect("the seed is a number");
    // The runner of the tests has begun a line.
    say("");
    say(OPENING);
    let mut options = Options::default();
    if seed % 2 == 1 {
        options.drives = Arc::new(NoDrives);
    }
    let volume = Volume::open(Path::new(&path), &options).expect("the volume opens");
    let mut child =
        Child { volume, random: Random::new(seed), saves: Saves::default(), version: seed << 32, advances: 0 };
    let start = Instant::now();
    while start.elapsed() < CHILD_ENDS {
        child.step().expect("the call is accepted");
    }
}

/// Says a line to the parent. Where nobody hears it, the child ends.
fn say(line: &str) {
    let mut parent = io::stdout().lock();
    if writeln!(parent, "{line}").and_then(|()| parent.flush()).is_err() {
        process::exit(1);
    }
}

struct Child {
    volume: Volume,
    random: Random,
    saves: Saves,
    version: u64,
    advances: u64,
}

impl Child {
    fn step(&mut self) -> Result<(), Error> {
        let growing = self.volume.state().is_growing();
        match self.random.below(16) {
            0 => self.flush(),
            1..=5 => self.save(),
            6 => self.read(),
            _ if growing && self.advances < MOST_ADVANCES => {
                self.advances += 1;
                self.volume.advance().map(drop)
            }
            7 if !growing => self.grow(),
            _ => self.save(),
        }
    }

    fn flush(&mut self) -> Result<(), Error> {
        self.volume.flush()?;
        self.saves.pending().for_each(|(block, version)| say(&format!("saved {block} {version}")));
        self.saves.flushed();
        Ok(())
    }

    fn save(&mut self) -> Result<(), Error> {
        let block = self.random.below(self.volume.open_blocks());
        self.version += 1;
        say(&format!("writing {block} {}", self.version));
        self.saves.writing(block, self.version);
        let piece = piece(SIZE, block, self.version);
        match self.volume.write(Block(block), &piece) {
            Err(Error::Refused { refusal: Refusal::CopyNotRecorded, .. }) => {
                self.volume.checkpoint()?;
                self.volume.write(Block(block), &piece)
            }
            told => told,
        }
    }

    fn read(&mut self) -> Result<(), Error> {
        let block = self.random.below(self.volume.open_blocks());
        self.saves.check_newest(&self.volume, block).map_err(Error::Declined)
    }

    /// Begins the next growth, if there may be one.
    fn grow(&mut self) -> Result<(), Error> {
        let state = *self.volume.state();
        let count = state.disks() + 1 + self.random.below(2);
        if state.growths() == State::MOST_GROWTHS || count > State::MOST_DISKS {
            return Ok(());
        }
        self.volume.grow(count, true, true).map(drop)
    }
}

/// A volume whose processes are killed.
struct KilledCalls {
    random: Random,
    path: PathBuf,
    saves: Saves,
    /// How many saves were told to be kept.
    saved: u64,
    kills: u64,
    kills_while_growing: u64,
    growths: u64,
}

impl fmt::Display for KilledCalls {
    fn fmt(&self, f: &mut fmt::Formatter<'_>) -> fmt::Result {
        let (kills, growing, growths) = (self.kills, self.kills_while_growing, self.growths);
        write!(f, "{kills} kills, {growing} while growing; {growths} growths, {} saves", self.saved)
    }
}

impl KilledCalls {
    fn at(path: PathBuf) -> KilledCalls {
        KilledCalls {
            random: Random::new(1),
            path,
            saves: Saves::default(),
            saved: 0,
            kills: 0,
            kills_while_growing: 0,
            growths: 0,
        }
    }

    /// Runs a child and kills it; notes what it said.
    fn kill_one(&mut self) {
        let program = env::current_exe().expect("this program has a path");
        let seed = (self.kills + 1).to_string();
        let mut child = Command::new(program)
            .args(["--exact", "child", "--nocapture", "--test-threads=1"])
            .envs([(VOLUME, self.path.as_os_str()), (SEED, seed.as_ref())])
            .stdout(Stdio::piped())
            .spawn()
            .expect("this program runs");
        let (tell, told) = mpsc::channel();
        let said = child.stdout.take().expect("it is a pipe");
        let enough = 2 + self.random.below(MOST_LINES) as usize;
        let listener = thread::spawn(move || listen(said, enough, &tell));
        told.recv_timeout(CHILD_ENDS).expect("the child says something");
        // Enough lines come first, or the end of the time.
        let time = Duration::from_micros(self.random.below(60_000));
        let _ = told.recv_timeout(time);
        child.kill().expect("the child is there");
        let ended = child.wait().expect("the child has ended");
        assert_eq!(ended.signal(), Some(SIGKILL), "the child ended by itself: {ended}");
        self.kills += 1;
        let lines = listener.join().expect("all is heard");
        lines.iter().for_each(|line| self.hear(line));
        self.saves.cut();
    }

    fn hear(&mut self, line: &str) {
        let mut words = line.split(' ');
        let told = words.next();
        let mut number = || words.next().expect("a number").parse().expect("a number");
        match told {
            Some("writing") => self.saves.writing(number(), number()),
            Some("saved") => {
                self.saves.saved(number(), number());
                self.saved += 1;
            }
            _ => {}
        }
    }

    /// The volume opens with all that was saved, and its calls left are exact, which a copy shows.
    fn look(&mut self) {
        let volume = Volume::open(&self.path, &Options::default()).expect("the volume opens");
        self.saves.check(&volume).unwrap();
        self.growths = volume.state().growths();
        self.kills_while_growing += u64::from(volume.state().is_growing());
        let told = (*volume.state(), volume.calls_left());
        drop(volume);

        let copy = quick_folder();
        let folder = self.path.parent().expect("it is in a folder");
        put_contents(copy.path(), &contents(folder));
        let path = copy.path().join("volume");
        let mut volume = Volume::open(&path, &Options::default()).expect("the copy opens");
        assert_eq!((*volume.state(), volume.calls_left()), told);
        all_is_kept(&mut volume, &self.saves).unwrap();
    }
}

/// Hears the whole lines of the child from the opening on; tells of that one, and when there are enough.
fn listen(said: ChildStdout, enough: usize, tell: &Sender<()>) -> Vec<String> {
    let mut said = BufReader::new(said);
    let mut lines: Vec<String> = vec![];
    loop {
        let mut line = vec![];
        let heard = said.read_until(b'\n', &mut line).expect("the pipe can be read");
        // What the child did not say to the end it did not go on from.
        if heard == 0 || line.pop() != Some(b'\n') {
            return lines;
        }
        let line = String::from_utf8(line).expect("a child says text");
        if line == OPENING || !lines.is_empty() {
            lines.push(line);
        }
        if [1, enough].contains(&lines.len()) {
            tell.send(()).expect("it is waited for");
        }
    }
}

fn kill_again_and_again(form: Form) {
    let folder = tempfile::tempdir().expect("a folder can be made");
    let path = folder.path().join("volume");
    let created = Volume::create(&path, &plan(form, SIZE, ROWS, 1), &Options::default());
    drop(created.expect("nothing is there"));
    let mut killed_calls = KilledCalls::at(path);
    while killed_calls.kills < KILLS || killed_calls.growths < GROWTHS && killed_calls.kills < MOST_KILLS {
        killed_calls.kill_one();
        killed_calls.look();
    }
    println!("{form:?}: {killed_calls}");
    assert!(killed_calls.kills >= KILLS && killed_calls.growths >= GROWTHS, "{killed_calls}");
    assert!(killed_calls.kills_while_growing >= 10 && killed_calls.saved >= 200, "{killed_calls}");

    let mut volume = Volume::open(&killed_calls.path, &Options::default()).expect("the volume opens");
    all_is_kept(&mut volume, &killed_calls.saves).unwrap();
}

#[test]
fn killed_on_an_image() {
    kill_again_and_again(Form::Image);
}

#[test]
fn killed_on_a_folder() {
    kill_again_and_again(Form::Folder);
}
