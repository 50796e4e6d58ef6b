//! What the tests of the store layer share: numbers that look random, pieces that can be told from each other, what has
//! been saved, and what has to hold of every volume that opens.

// Each test program uses a part of it.
#![allow(dead_code)]

use std::collections::BTreeMap;
use std::fs;
use std::path::{Path, PathBuf};
use std::thread;

use streterva::{Block, State};
use streterva_store::{open_blocks, Form, Plan, Volume};
use tempfile::TempDir;

/// Both forms of a volume.
pub const FORMS: [Form; 2] = [Form::Image, Form::Folder];

/// What a check found: nothing, or a sentence.
pub type Checked = Result<(), String>;

/// Numbers that look random and are the same for the same seed, which is printed where a test fails.
pub struct Random {
    seed: Option<u64>,
    last: u64,
}

impl Random {
    pub fn new(seed: u64) -> Random {
        let (seed, last) = (Some(seed), seed);
        Random { seed, last }
    }

    /// Numbers of their own for somebody else, which follow from this seed too.
    pub fn another(&mut self) -> Random {
        let (seed, last) = (None, self.number());
        Random { seed, last }
    }

    /// The next number; the generator is splitmix64.
    pub fn number(&mut self) -> u64 {
        self.last = self.last.wrapping_add(0x9E37_79B9_7F4A_7C15);
        let mixed = (self.last ^ (self.last >> 30)).wrapping_mul(0xBF58_476D_1CE4_E5B9);
        let mixed = (mixed ^ (mixed >> 27)).wrapping_mul(0x94D0_49BB_1331_11EB);
        mixed ^ (mixed >> 31)
    }

    /// A number below the bound.
    pub fn below(&mut self, bound: u64) -> u64 {
        self.number() % bound
    }

    /// True one time in so many.
    pub fn one_in(&mut self, times: u64) -> bool {
        self.below(times) == 0
    }

    /// One of these.
    pub fn choose<T: Copy>(&mut self, from: &[T]) -> T {
        from[self.below(from.len() as u64) as usize]
    }
}

impl Drop for Random {
    fn drop(&mut self) {
        if let (Some(seed), true) = (self.seed, thread::panicking()) {
            eprintln!("the seed was {seed}");
        }
    }
}

/// A plan without room for more disks, which overwrites nothing.
pub fn plan(form: Form, size: u64, rows: u64, disks: u64) -> Plan {
    let (room, force) = (disks, false);
    Plan { size, rows, disks, form, room, force }
}

/// A folder in memory where the system has one, for tests that the machine's own drives do not matter to.
pub fn quick_folder() -> TempDir {
    let folder = tempfile::tempdir_in("/dev/shm").or_else(|_| tempfile::tempdir());
    folder.expect("a folder can be made")
}

/// The files in a folder and the folders in it, by their paths from there, with their bytes. What is no file, as a
/// pipe, has none.
pub fn contents(folder: &Path) -> BTreeMap<PathBuf, Vec<u8>> {
    let mut all = BTreeMap::new();
    for entry in fs::read_dir(folder).expect("the folder can be read") {
        let path = entry.expect("the folder can be read").path();
        let name = PathBuf::from(path.file_name().expect("an entry has a name"));
        if path.is_dir() {
            all.extend(contents(&path).into_iter().map(|(below, bytes)| (name.join(below), bytes)));
        } else {
            let bytes = if path.is_file() { fs::read(&path).expect("the file can be read") } else { vec![] };
            all.insert(name, bytes);
        }
    }
    all
}

/// Makes the files of [`contents`] in another folder.
pub fn put_contents(folder: &Path, all: &BTreeMap<PathBuf, Vec<u8>>) {
    for (name, bytes) in all {
        let path = folder.join(name);
        fs::create_dir_all(path.parent().expect("a file is in a folder")).expect("a folder can be made");
        fs::write(path, bytes).expect("a file can be made");
    }
}

/// The bytes of a piece that name its block, version and place again and again, so that no part can be taken for
/// another.
const NAME_BYTES: u64 = 16;

/// What is saved as this version of this block.
pub fn piece(size: u64, block: u64, version: u64) -> Vec<u8> {
    let name = |place: u64| [(block << 32 | place).to_le_bytes(), version.to_le_bytes()].concat();
    (0..size / NAME_BYTES).flat_map(name).collect()
}

/// What has been saved, as a caller knows it who has seen every answer.
#[derive(Default)]
pub struct Saves {
    /// The version of each block whose last save was followed by a flush.
    kept: BTreeMap<u64, u64>,
    /// The version of each block saved since.
    pending: BTreeMap<u64, u64>,
}

impl Saves {
    /// A save begins; the block is unset until a flush.
    pub fn writing(&mut self, block: u64, version: u64) {
        self.kept.remove(&block);
        self.pending.insert(block, version);
    }

    /// This save was followed by a flush.
    pub fn saved(&mut self, block: u64, version: u64) {
        if self.pending.get(&block) == Some(&version) {
            self.pending.remove(&block);
            self.kept.insert(block, version);
        }
    }

    /// All saves were followed by a flush.
    pub fn flushed(&mut self) {
        self.kept.append(&mut self.pending);
    }

    /// The process or the power ended.
    pub fn cut(&mut self) {
        self.pending.clear();
    }

    /// The saves since the last flush.
    pub fn pending(&self) -> impl Iterator<Item = (u64, u64)> + '_ {
        self.pending.iter().map(|(&block, &version)| (block, version))
    }

    /// The number of blocks that have to be kept.
    pub fn number_kept(&self) -> usize {
        self.kept.len()
    }

    /// Whether every block that has to be kept is read.
    pub fn check(&self, volume: &Volume) -> Checked {
        self.kept.iter().try_for_each(|(&block, &version)| reads(volume, block, version))
    }

    /// Whether the block is read as it was saved last, by the process that saved it.
    pub fn check_newest(&self, volume: &Volume, block: u64) -> Checked {
        let newest = self.pending.get(&block).or_else(|| self.kept.get(&block));
        newest.map_or(Ok(()), |&version| reads(volume, block, version))
    }
}

/// Whether this version of the block is read.
pub fn reads(volume: &Volume, block: u64, version: u64) -> Checked {
    let size = volume.state().size();
    let mut read = vec![0; size as usize];
    volume.read(Block(block), &mut read).map_err(|error| format!("block {block} is not read: {error}"))?;
    if read == piece(size, block, version) {
        return Ok(());
    }
    let word = |from: usize| u64::from_le_bytes(read[from..from + 8].try_into().expect("eight bytes"));
    let (other, other_version) = (word(0) >> 32, word(8));
    let spot = volume.state().address(Block(block)).expect("an open block").spot;
    Err(format!("block {block}, version {version}, is lost: at {spot:?} begins block {other}, version {other_version}"))
}

/// Whether the holder of each open block's spot is the block.
pub fn spots_agree(state: &State) -> Checked {
    (0..open_blocks(state)).map(Block).try_for_each(|block| {
        let spot = state.address(block).map_err(|refusal| refusal.to_string())?.spot;
        match state.holder(spot.disk, spot.row) {
            Ok(holder) if holder == block => Ok(()),
            other => Err(format!("{block:?} is at {spot:?}, whose holder is {other:?}")),
        }
    })
}

/// Runs a growth that is under way to its end. The calls left are exact from the first to the last.
pub fn complete(volume: &mut Volume) -> Checked {
    let mut left = volume.calls_left();
    while volume.state().is_growing() {
        let told = volume.advance().map_err(|error| format!("advance: {error}"))?.calls_left;
        if told.checked_add(1) != Some(left) {
            return Err(format!("{left} advance calls were left, and after one there are {told}"));
        }
        left = told;
    }
    match left {
        0 => Ok(()),
        _ => Err(format!("the growth is finished, and {left} advance calls are left")),
    }
}

/// Whether all that has to be kept is read and stands where it says, now and after a growth under way is completed.
pub fn all_is_kept(volume: &mut Volume, saves: &Saves) -> Checked {
    saves.check(volume)?;
    spots_agree(volume.state())?;
    complete(volume)?;
    saves.check(volume)?;
    spots_agree(volume.state())
}
