//! Calls of the command that are killed at random moments. What was saved before by a call that ended well is read
//! after it, the volume has no fault, and the growth goes on with the calls that are told to be left.

mod common;

use std::collections::BTreeMap;
use std::fmt;
use std::ops::Range;
use std::os::unix::process::ExitStatusExt;
use std::thread;
use std::time::Duration;

use common::of_the_store::Random;
use common::{number, piece, pieces, Form, Rack, SIZE};
use libc::SIGKILL;
use serde_json::Value;

const ROWS: u64 = 256;
/// Calls that are killed in each form, at least, and of each kind.
const KILLS: u64 = 40;
const KILLS_OF_EACH: u64 = 4;
/// Growths that come to their end in each form, at least.
const GROWTHS: u64 = 3;
/// Calls after which so many kills and growths have to be reached.
const MOST_CALLS: u64 = 1000;
/// The last moment at which a call is killed, in microseconds.
const LAST_MOMENT: u64 = 40_000;

/// A kind of call that is killed.
#[derive(Clone, Copy, Debug, PartialEq, Eq, PartialOrd, Ord)]
enum Kind {
    Grow,
    Advance,
    Run,
    Write,
    Import,
}

const KINDS: [Kind; 5] = [Kind::Grow, Kind::Advance, Kind::Run, Kind::Write, Kind::Import];

/// A volume whose calls are killed.
struct KilledCalls {
    rack: Rack,
    random: Random,
    /// The version of each block whose last save has ended well.
    saved: BTreeMap<u64, u64>,
    /// The version of the last save.
    version: u64,
    kills: BTreeMap<Kind, u64>,
    growths: u64,
}

impl fmt::Display for KilledCalls {
    fn fmt(&self, f: &mut fmt::Formatter<'_>) -> fmt::Result {
        let (form, saved) = (self.rack.form, self.saved.len());
        write!(f, "{form:?}: {:?} killed, {} growths, {saved} blocks saved", self.kills, self.growths)
    }
}

impl KilledCalls {
    fn new(form: Form) -> KilledCalls {
        let rack = Rack::new(form, ROWS, 1);
        let kills = KINDS.map(|kind| (kind, 0)).into();
        KilledCalls { rack, random: Random::new(1), saved: BTreeMap::new(), version: 0, kills, growths: 0 }
    }

    fn is_enough(&self) -> bool {
        let all: u64 = self.kills.values().sum();
        all >= KILLS && self.kills.values().all(|kills| *kills >= KILLS_OF_EACH) && self.growths >= GROWTHS
    }

    fn status(&self) -> Value {
        self.rack.told("status volume")
    }

    /// Saves one block by a call that nobody kills.
    fn save(&mut self, open: u64) {
        let block = self.random.below(open);
        self.version += 1;
        self.rack.fed(&format!("write volume {block}"), &piece(SIZE, block, self.version)).done();
        self.saved.insert(block, self.version);
    }

    /// A kind of call that the volume takes now.
    fn next_kind(&mut self, status: &Value) -> Kind {
        match status["growth"].is_null() {
            false => self.random.choose(&[Kind::Run, Kind::Advance, Kind::Write, Kind::Import]),
            true => self.random.choose(&[Kind::Grow, Kind::Grow, Kind::Write, Kind::Import]),
        }
    }

    /// A call of this kind, and the blocks that it saves.
    fn words(&mut self, kind: Kind, status: &Value) -> (String, Range<u64>) {
        let (disks, open) = (number(&status["disks"]), number(&status["open_blocks"]));
        let block = self.random.below(open);
        match kind {
            Kind::Grow => {
                let count = disks + 1 + self.random.below(disks.min(2));
                (format!("grow volume {count}"), 0..0)
            }
            Kind::Advance => (format!("advance volume --calls {}", 1 + self.random.below(100)), 0..0),
            Kind::Run => (format!("run volume --quiet --rate {}", self.random.choose(&["32K", "128K", "1M"])), 0..0),
            Kind::Write => (format!("write volume {block}"), block..block + 1),
            Kind::Import => (format!("import volume show --first {block}"), block..open.min(block + 20)),
        }
    }

    /// Makes a call and kills it. Its blocks are unset, unless it has ended well before.
    fn kill(&mut self, status: &Value) {
        let kind = self.next_kind(status);
        let (call, blocks) = self.words(kind, status);
        self.version += 1;
        let input = pieces(&blocks, self.version);
        self.rack.put("show", &input);
        self.saved.retain(|block, _| !blocks.contains(block));
        let fed: &[u8] = if kind == Kind::Write { &input } else { b"" };
        let mut running = self.rack.start(&call, fed);
        // The first moments are the more likely ones: most calls do not take long.
        let moment = self.random.below(LAST_MOMENT) * self.random.below(LAST_MOMENT) / LAST_MOMENT;
        thread::sleep(Duration::from_micros(moment));
        running.child().kill().expect("the call is there, or has ended");
        let ended = running.ended();
        if ended.how.signal() == Some(SIGKILL) {
            *self.kills.get_mut(&kind).expect("every kind is counted") += 1;
            return;
        }
        ended.done();
        self.saved.extend(blocks.map(|block| (block, self.version)));
    }

    /// All that was saved is read, and the volume has no fault.
    fn look(&self) {
        let exported = self.rack.exported();
        let lost = self.saved.iter().find(|(block, version)| {
            let from = (*block * SIZE) as usize;
            exported[from..from + SIZE as usize] != piece(SIZE, **block, **version)
        });
        assert_eq!(lost, None, "a block and its version; {self}");
        self.rack.done("check volume");
    }

    /// Takes a growth to its end, which takes the calls that are told to be left.
    fn complete(&mut self) {
        let growth = self.status()["growth"].clone();
        if growth.is_null() {
            return;
        }
        let told = self.rack.told("run volume");
        assert_eq!((&told["calls"], &told["finished"]), (&growth["calls_left"], &Value::Bool(true)), "{self}");
        self.growths += 1;
        self.look();
    }

    /// Saves, then kills a call, and looks. A volume that has had its last growth makes room for a new one.
    fn step(&mut self) {
        let status = self.status();
        let growths = status["counts"].as_array().expect("a list of counts").len() - 1;
        if growths == 7 && status["growth"].is_null() {
            self.rack = Rack::new(self.rack.form, ROWS, 1);
            self.saved.clear();
            return;
        }
        let open = number(&status["open_blocks"]);
        (0..2).for_each(|_| self.save(open));
        self.kill(&status);
        self.look();
        if self.random.one_in(8) {
            self.complete();
        }
    }

    fn kill_again_and_again(&mut self) {
        let calls = (0..MOST_CALLS).take_while(|_| {
            self.step();
            !self.is_enough()
        });
        let calls = calls.count() as u64;
        self.complete();
        println!("{self}");
        assert!(calls < MOST_CALLS, "{self}");
    }
}

#[test]
fn killed_on_an_image() {
    KilledCalls::new(Form::Image).kill_again_and_again();
}

#[test]
fn killed_on_a_folder() {
    KilledCalls::new(Form::Folder).kill_again_and_again();
}
