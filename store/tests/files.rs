//! A volume on files: what is made, opened and written, and what is declined without a byte being changed.

mod common;

use std::ffi::CString;
use std::fs::{self, File, TryLockError};
use std::io::{self, ErrorKind};
use std::os::unix::ffi::OsStrExt;
use std::os::unix::fs::{symlink, FileExt};
use std::path::{Path, PathBuf};
use std::sync::atomic::{AtomicBool, Ordering};
use std::sync::Arc;

use common::{complete, contents, piece, plan, reads, spots_agree, FORMS};
use streterva::{Block, Refusal, State, Step};
use streterva_store::{Drives, Error, Form, Look, Options, Place, Plan, Volume, PAGE};
use tempfile::TempDir;

const SIZE: u64 = 512;
/// With blocks of 512 bytes a disk fills one page.
const ROWS: u64 = 8;

/// A folder of a test, in which the volume, its files and its neighbours are.
struct Site {
    folder: TempDir,
}

impl Site {
    fn new() -> Site {
        let folder = tempfile::tempdir().expect("a folder can be made");
        Site { folder }
    }

    fn volume(&self) -> PathBuf {
        self.folder.path().join("volume")
    }

    fn disk(&self, disk: u64) -> PathBuf {
        Place::new(&self.volume(), Form::Folder).disk_path(disk)
    }

    fn record(&self, form: Form) -> PathBuf {
        Place::new(&self.volume(), form).record_path()
    }

    fn create(&self, plan: &Plan) -> Result<Volume, Error> {
        Volume::create(&self.volume(), plan, &Options::default())
    }

    fn created(&self, form: Form, disks: u64) -> Volume {
        self.create(&plan(form, SIZE, ROWS, disks)).expect("nothing is there")
    }

    fn open(&self) -> Volume {
        Volume::open(&self.volume(), &Options::default()).expect("the volume opens")
    }

    /// Does what has to fail, and leave every byte of every file as it was.
    fn fails<T>(&self, attempt: impl FnOnce() -> Result<T, Error>) -> Error {
        let all = || (self.volume().is_dir(), contents(self.folder.path()));
        let before = all();
        let error = attempt().err().expect("this fails");
        let after = all();
        assert!(before.1.keys().eq(after.1.keys()), "{:?} are left after: {error}", after.1.keys());
        assert!(before == after, "a file is changed after: {error}");
        error
    }

    fn fails_to_open(&self) -> Error {
        self.fails(|| Volume::open(&self.volume(), &Options::default()))
    }

    fn fails_to_create(&self, plan: &Plan) -> Error {
        self.fails(|| self.create(plan))
    }
}

fn forced(plan: Plan) -> Plan {
    Plan { force: true, ..plan }
}

/// Saves this version of every open block.
fn save_all(volume: &mut Volume, version: u64) {
    for block in 0..volume.open_blocks() {
        let saved = volume.write(Block(block), &piece(volume.state().size(), block, version));
        saved.expect("an open block is written");
    }
    volume.flush().expect("the drives are flushed");
}

fn check_all(volume: &Volume, blocks: u64, version: u64) {
    (0..blocks).try_for_each(|block| reads(volume, block, version)).unwrap();
    spots_agree(volume.state()).unwrap();
}

fn all_zeros(volume: &Volume) -> bool {
    let blocks = 0..volume.open_blocks();
    blocks.map(Block).all(|block| volume.view(block).expect("the block is open").iter().all(|&byte| byte == 0))
}

/// Begins a growth, which is accepted, and runs it to its end.
fn grow(volume: &mut Volume, count: u64, lengthen: bool) {
    volume.grow(count, false, lengthen).expect("the growth begins");
    complete(volume).unwrap();
    volume.flush().expect("the drives are flushed");
}

fn assert_too_short(error: &Error, expected: (&Path, u64, u64)) {
    match error {
        Error::TooShort { path, bytes, needed } => assert_eq!((path.as_path(), *bytes, *needed), expected),
        other => panic!("{other:?}"),
    }
}

fn assert_file(error: &Error, expected: &Path, kind: ErrorKind) {
    match error {
        Error::File { path, error, .. } => {
            assert_eq!((path.as_path(), error.kind()), (expected, kind))
        }
        other => panic!("{other:?}"),
    }
}

fn assert_locked(error: &Error, expected: &Path) {
    match error {
        Error::Locked { path } => assert_eq!(path, expected),
        other => panic!("{other:?}"),
    }
}

fn assert_refused(error: &Error, expected: Refusal) {
    match error {
        Error::Refused { refusal, .. } => assert_eq!(*refusal, expected),
        other => panic!("{other:?}"),
    }
}

/// The sentence with which the store layer declines.
fn declined(error: Error) -> String {
    match error {
        Error::Declined(sentence) => sentence,
        other => panic!("{other:?}"),
    }
}

#[test]
fn what_was_flushed_is_read_after_opening() {
    for form in FORMS {
        let site = Site::new();
        let mut volume = site.created(form, 3);
        assert!(all_zeros(&volume));
        save_all(&mut volume, 1);
        check_all(&volume, 3 * ROWS, 1);
        let state = *volume.state();
        drop(volume);

        let mut volume = site.open();
        assert_eq!((*volume.state(), volume.calls_left(), volume.place().form()), (state, 0, form));
        check_all(&volume, 3 * ROWS, 1);
        // Back to the bytes that it was opened with.
        save_all(&mut volume, 2);
        save_all(&mut volume, 1);
        drop(volume);
        check_all(&site.open(), 3 * ROWS, 1);
    }
}

#[test]
fn the_bytes_are_where_the_documents_have_them() {
    for form in FORMS {
        let site = Site::new();
        save_all(&mut site.created(form, 3), 1);
        let files = contents(site.folder.path());
        let record = &files[site.record(form).strip_prefix(site.folder.path()).unwrap()];
        let sector = match form {
            Form::Image => &record[..State::RECORD_BYTES],
            Form::Folder => &record[PAGE - State::RECORD_BYTES..],
        };
        assert!(sector.starts_with(b"       512         8         0         3"), "{form:?}");
        let mut medium = sector.to_vec();
        match form {
            Form::Image => medium = record.clone(),
            Form::Folder => (0..3).for_each(|disk| medium.extend(&files[Path::new(&format!("volume/disk-{disk:02}"))])),
        }
        assert_eq!(medium.len(), State::medium_bytes(SIZE, ROWS, 3));
        let state = State::restart(&medium).unwrap().state;
        let mut read = [0; SIZE as usize];
        state.read(&medium, Block(10), &mut read).unwrap();
        assert_eq!(read[..], piece(SIZE, 10, 1));
    }
}

#[test]
fn a_piece_of_another_size_and_a_block_that_is_not_open_are_refused() {
    for form in FORMS {
        let site = Site::new();
        let mut volume = site.created(form, 2);
        let error = site.fails(|| volume.write(Block(0), &[1; 511]));
        assert_eq!(error.to_string(), "refused with 4: the piece is not one block long: a block has 512 bytes");
        let error = site.fails(|| volume.write(Block(2 * ROWS), &[1; 512]));
        assert_eq!(error.to_string(), "refused with 3: the block is not open: blocks 0 to 15 are open");
        assert_refused(&volume.view(Block(2 * ROWS)).unwrap_err(), Refusal::BlockNotOpen);
        assert_refused(&volume.read(Block(0), &mut [0; 513]).unwrap_err(), Refusal::PieceSize);
    }
}

#[test]
fn nothing_to_open() {
    let site = Site::new();
    assert_file(&site.fails_to_open(), &site.volume(), ErrorKind::NotFound);
    fs::create_dir(site.volume()).unwrap();
    for error in [site.fails_to_open(), Look::at(&site.volume()).unwrap_err()] {
        assert!(matches!(&error, Error::NoVolume { path, fault: None } if *path == site.volume()), "{error:?}");
    }
}

/// Makes a pipe without another process: that one would have the locks of the volumes that other tests have open, until it
/// runs its own program, and keep them from being opened anew.
fn make_pipe(path: &Path) {
    let path = CString::new(path.as_os_str().as_bytes()).unwrap();
    // SAFETY: the path is a C string, and there for the call.
    assert_eq!(unsafe { libc::mkfifo(path.as_ptr(), 0o600) }, 0);
}

/// Opening a pipe would wait for a writer.
#[test]
fn a_pipe_is_no_volume() {
    let site = Site::new();
    make_pipe(&site.volume());
    assert_file(&site.fails_to_open(), &site.volume(), ErrorKind::Other);
    assert_file(&Look::at(&site.volume()).unwrap_err(), &site.volume(), ErrorKind::Other);
    let overwrite = forced(plan(Form::Image, SIZE, ROWS, 2));
    assert_file(&site.fails_to_create(&overwrite), &site.volume(), ErrorKind::Other);
}

#[test]
fn a_file_too_short_for_a_record() {
    let site = Site::new();
    for bytes in [0, 1, 511] {
        fs::write(site.volume(), vec![b' '; bytes]).unwrap();
        assert_too_short(&site.fails_to_open(), (&site.volume(), bytes as u64, 512));
        assert_too_short(&Look::at(&site.volume()).unwrap_err(), (&site.volume(), bytes as u64, 512));
    }
    fs::remove_file(site.volume()).unwrap();
    drop(site.created(Form::Folder, 2));
    let record = site.record(Form::Folder);
    for bytes in [4095, 512, 0] {
        File::options().write(true).open(&record).unwrap().set_len(bytes).unwrap();
        assert_too_short(&site.fails_to_open(), (&record, bytes, 4096));
    }
}

#[test]
fn bytes_that_are_no_record() {
    for form in FORMS {
        let site = Site::new();
        drop(site.created(form, 2));
        let record = site.record(form);
        let last = Place::new(&site.volume(), form).record_byte() + 511;
        let file = File::options().write(true).open(&record).unwrap();
        file.write_all_at(b"x", last).unwrap();
        match site.fails_to_open() {
            Error::NoVolume { path, fault: Some(fault) } => assert_eq!((path, fault.byte), (record, 511)),
            other => panic!("{other:?}"),
        }
    }
    let site = Site::new();
    for bytes in [512, 513, 5000] {
        fs::write(site.volume(), vec![0; bytes]).unwrap();
        let error = site.fails_to_open();
        assert!(matches!(error, Error::NoVolume { fault: Some(_), .. }), "{error:?}");
    }
}

#[test]
fn files_too_short_for_their_disks() {
    let site = Site::new();
    drop(site.created(Form::Image, 3));
    let needed = State::medium_bytes(SIZE, ROWS, 3) as u64;
    File::options().write(true).open(site.volume()).unwrap().set_len(needed - 1).unwrap();
    assert_too_short(&site.fails_to_open(), (&site.volume(), needed - 1, needed));
    assert_too_short(&Look::at(&site.volume()).unwrap_err(), (&site.volume(), needed - 1, needed));
    assert_eq!(Look::at_record(&site.volume()).unwrap().state.disks(), 3);

    let site = Site::new();
    drop(site.created(Form::Folder, 3));
    for disk in [2, 1] {
        File::options().write(true).open(site.disk(disk)).unwrap().set_len(4095).unwrap();
        assert_too_short(&site.fails_to_open(), (&site.disk(disk), 4095, 4096));
    }
    fs::remove_file(site.disk(0)).unwrap();
    assert_file(&site.fails_to_open(), &site.disk(0), ErrorKind::NotFound);
}

#[test]
fn a_volume_in_use_is_locked_and_can_be_looked_at() {
    for form in FORMS {
        let site = Site::new();
        let mut held = site.created(form, 2);
        assert_locked(&site.fails_to_open(), &site.record(form));
        let left = held.grow(3, false, true).unwrap();
        held.flush().unwrap();
        let looked = Look::at(&site.volume()).unwrap();
        assert_eq!((looked.state.words(), looked.calls_left), (held.state().words(), left));
        assert_locked(&site.fails_to_open(), &site.record(form));
        drop(held);
        site.open();
    }
}

/// The names of the files that somebody has locked.
fn locked(folder: &Path) -> Vec<PathBuf> {
    let would_block = |name: &PathBuf| {
        let file = File::open(folder.join(name)).expect("the file can be read");
        matches!(file.try_lock(), Err(TryLockError::WouldBlock))
    };
    contents(folder).into_keys().filter(would_block).collect()
}

#[test]
fn every_file_of_an_open_volume_is_locked() {
    for form in FORMS {
        let site = Site::new();
        let folder = site.folder.path();
        let all = |disks: usize| if form == Form::Image { 1 } else { 1 + disks };
        let mut volume = site.created(form, 2);
        assert_eq!(locked(folder).len(), all(2));
        grow(&mut volume, 4, true);
        assert_eq!(locked(folder).len(), all(4));
        drop(volume);
        assert_eq!(locked(folder).len(), 0);
        let _volume = site.open();
        assert_eq!(locked(folder).len(), all(4));
    }
}

#[test]
fn a_disk_in_use_is_locked() {
    let site = Site::new();
    drop(site.created(Form::Folder, 3));
    let held = File::open(site.disk(1)).unwrap();
    held.lock().unwrap();
    assert_locked(&site.fails_to_open(), &site.disk(1));
    let overwrite = forced(plan(Form::Folder, SIZE, ROWS, 3));
    assert_locked(&site.fails_to_create(&overwrite), &site.disk(1));
    drop(held);
    site.open();
}

#[test]
fn the_lock_goes_with_its_holder() {
    for form in FORMS {
        let site = Site::new();
        let held = site.created(form, 2);
        assert_locked(&site.fails_to_open(), &site.record(form));
        drop(held);
        site.open();
    }
}

#[test]
fn create_overwrites_nothing_that_is_there() {
    for form in FORMS {
        let site = Site::new();
        save_all(&mut site.created(form, 2), 1);
        let of_volume = declined(site.fails_to_create(&plan(form, SIZE, ROWS, 2)));
        let record = File::options().write(true).open(site.record(form)).unwrap();
        record.write_all_at(b"x", Place::new(&site.volume(), form).record_byte()).unwrap();
        let of_other = declined(site.fails_to_create(&plan(form, SIZE, ROWS, 2)));
        assert!(of_volume.contains("has a volume already") && of_volume.contains("--force"), "{of_volume}");
        assert!(of_other.contains("is no volume") && of_other.contains("--force"), "{of_other}");
    }
}

#[test]
fn create_overwrites_no_other_file() {
    let site = Site::new();
    fs::write(site.volume(), "a letter").unwrap();
    let sentence = declined(site.fails_to_create(&plan(Form::Image, SIZE, ROWS, 2)));
    assert!(sentence.contains("is no volume"), "{sentence}");
    // A folder is not made where a file is, whatever is asked for.
    for plan in [plan(Form::Folder, SIZE, ROWS, 2), forced(plan(Form::Folder, SIZE, ROWS, 2))] {
        assert_file(&site.fails_to_create(&plan), &site.volume(), ErrorKind::AlreadyExists);
    }

    let site = Site::new();
    fs::create_dir(site.volume()).unwrap();
    declined(site.fails_to_create(&plan(Form::Image, SIZE, ROWS, 2)));
    assert_file(&site.fails_to_create(&forced(plan(Form::Image, SIZE, ROWS, 2))), &site.volume(), ErrorKind::Other);
    fs::write(site.disk(1), "a letter").unwrap();
    fs::write(site.volume().join("letter"), "another").unwrap();
    let sentence = declined(site.fails_to_create(&plan(Form::Folder, SIZE, ROWS, 2)));
    assert!(sentence.contains("is no volume"), "{sentence}");
    // With one disk neither is needed.
    drop(site.created(Form::Folder, 1));
    assert_eq!(fs::read(site.disk(1)).unwrap(), b"a letter");
    assert_eq!(fs::read(site.volume().join("letter")).unwrap(), b"another");
}

#[test]
fn force_overwrites_and_begins_with_zeros() {
    for form in FORMS {
        let site = Site::new();
        save_all(&mut site.created(form, 3), 1);
        drop(site.create(&forced(plan(form, SIZE, ROWS * 2, 2))).unwrap());
        let mut volume = site.open();
        assert_eq!((volume.state().rows(), volume.state().disks(), volume.open_blocks()), (ROWS * 2, 2, 4 * ROWS));
        assert!(all_zeros(&volume));
        save_all(&mut volume, 2);
        check_all(&volume, 4 * ROWS, 2);
    }
    let site = Site::new();
    fs::write(site.volume(), vec![0xAB; 100_000]).unwrap();
    assert!(all_zeros(&site.create(&forced(plan(Form::Image, SIZE, ROWS, 2))).unwrap()));
    assert_eq!(fs::metadata(site.volume()).unwrap().len(), State::medium_bytes(SIZE, ROWS, 2) as u64);
}

#[test]
fn force_does_not_take_a_volume_from_a_process() {
    for form in FORMS {
        let site = Site::new();
        let mut held = site.created(form, 2);
        save_all(&mut held, 1);
        let overwrite = forced(plan(form, SIZE, ROWS, 2));
        assert_locked(&site.fails_to_create(&overwrite), &site.record(form));
        check_all(&held, 2 * ROWS, 1);
        drop(held);
        check_all(&site.open(), 2 * ROWS, 1);
    }
}

#[test]
fn numbers_outside_the_limits_make_no_file() {
    let wrong = [
        (0, 8, 2),
        (256, 16, 2),
        (768, 16, 2),
        (66_048, 8, 2),
        (512, 0, 2),
        (512, 1_000_001, 2),
        (512, 8, 0),
        (512, 8, 17),
        (u64::MAX, u64::MAX, u64::MAX),
    ];
    for (form, (size, rows, disks)) in FORMS.into_iter().flat_map(|form| wrong.map(|numbers| (form, numbers))) {
        let site = Site::new();
        assert_refused(&site.fails_to_create(&plan(form, size, rows, disks)), Refusal::OutsideLimits);
    }
    for room in [1, 17] {
        let site = Site::new();
        declined(site.fails_to_create(&Plan { room, ..plan(Form::Image, SIZE, ROWS, 2) }));
    }
}

#[test]
fn disks_of_a_folder_fill_their_pages() {
    for (size, rows) in [(512, 7), (1024, 3), (65_536 - 512, 1)] {
        let site = Site::new();
        declined(site.fails_to_create(&plan(Form::Folder, size, rows, 2)));
    }
    for (size, rows) in [(1024, 4), (4096, 1), (65_536 - 512, 8)] {
        let site = Site::new();
        let mut volume = site.create(&plan(Form::Folder, size, rows, 2)).unwrap();
        save_all(&mut volume, 1);
        check_all(&volume, 2 * rows, 1);
    }
}

/// Puts a second name of one file where another file was.
fn second_name(of: &Path, at: &Path, hard: bool) {
    drop(fs::remove_file(at));
    let made = if hard { fs::hard_link(of, at) } else { symlink(of, at) };
    made.unwrap();
}

#[test]
fn two_names_of_one_file_are_declined() {
    for hard in [true, false] {
        let site = Site::new();
        save_all(&mut site.created(Form::Folder, 2), 1);
        second_name(&site.disk(0), &site.disk(1), hard);
        let sentence = declined(site.fails_to_open());
        assert!(sentence.contains("second name"), "{sentence}");
        declined(site.fails_to_create(&forced(plan(Form::Folder, SIZE, ROWS, 2))));
        second_name(&site.record(Form::Folder), &site.disk(1), hard);
        declined(site.fails_to_open());
    }
}

#[test]
fn a_second_name_does_not_become_an_added_disk() {
    for hard in [true, false] {
        let site = Site::new();
        let mut volume = site.created(Form::Folder, 2);
        save_all(&mut volume, 1);
        second_name(&site.disk(0), &site.disk(3), hard);
        declined(site.fails(|| volume.grow(4, false, false)));
        check_all(&volume, 2 * ROWS, 1);
    }
}

#[test]
fn an_image_without_room_grows_only_if_it_may_be_lengthened() {
    let site = Site::new();
    let mut volume = site.create(&Plan { room: 3, ..plan(Form::Image, SIZE, ROWS, 2) }).unwrap();
    save_all(&mut volume, 1);
    let (state, length) = (*volume.state(), State::medium_bytes(SIZE, ROWS, 3) as u64);
    let error = site.fails(|| volume.grow(4, false, false));
    assert_refused(&error, Refusal::MediumTooShort);
    assert!(error.to_string().ends_with("has room for 3 disks"), "{error}");
    assert_eq!(*volume.state(), state);
    grow(&mut volume, 3, false);
    assert_eq!(fs::metadata(site.volume()).unwrap().len(), length);

    let left = volume.grow(5, false, true).unwrap();
    assert_eq!(fs::metadata(site.volume()).unwrap().len(), State::medium_bytes(SIZE, ROWS, 5) as u64);
    assert_eq!(volume.calls_left(), left);
    complete(&mut volume).unwrap();
    check_all(&volume, 2 * ROWS, 1);
    save_all(&mut volume, 2);
    drop(volume);
    check_all(&site.open(), 5 * ROWS, 2);
}

#[test]
fn a_folder_gets_the_files_of_added_disks() {
    let site = Site::new();
    let mut volume = site.created(Form::Folder, 2);
    save_all(&mut volume, 1);
    // One of them is there, with spare bytes at its end.
    fs::write(site.disk(2), [0xAB; 5000]).unwrap();
    volume.grow(4, false, false).unwrap();
    let lengths = [2, 3].map(|disk| fs::metadata(site.disk(disk)).unwrap().len());
    assert_eq!(lengths, [5000, 4096]);
    complete(&mut volume).unwrap();
    check_all(&volume, 2 * ROWS, 1);
    save_all(&mut volume, 2);
    drop(volume);
    check_all(&site.open(), 4 * ROWS, 2);
    assert_eq!(fs::read(site.disk(2)).unwrap()[4096..], [0xAB; 904]);
}

#[test]
fn an_added_disk_in_use_leaves_all_as_it_was() {
    let site = Site::new();
    let mut volume = site.created(Form::Folder, 3);
    save_all(&mut volume, 1);
    let held = File::create(site.disk(5)).unwrap();
    held.lock().unwrap();
    let state = *volume.state();
    assert_locked(&site.fails(|| volume.grow(6, false, false)), &site.disk(5));
    assert_eq!(*volume.state(), state);
    fs::write(site.disk(4), "short").unwrap();
    assert_locked(&site.fails(|| volume.grow(6, false, false)), &site.disk(5));
    drop(held);
    grow(&mut volume, 6, false);
    check_all(&volume, 3 * ROWS, 1);
}

#[test]
fn grow_beyond_doubling() {
    for form in FORMS {
        let site = Site::new();
        let mut volume = site.created(form, 1);
        save_all(&mut volume, 1);
        assert_refused(&site.fails(|| volume.grow(5, false, true)), Refusal::BeyondDoubling);
        volume.grow(5, true, true).unwrap();
        complete(&mut volume).unwrap();
        check_all(&volume, ROWS, 1);
        volume.flush().unwrap();
        drop(volume);
        assert_eq!(site.open().state().counts()[..2], [1, 5]);
    }
}

#[test]
fn a_growth_that_is_refused_makes_no_file() {
    for form in FORMS {
        let site = Site::new();
        let mut volume = site.created(form, 2);
        for count in [0, 2, 17, u64::MAX] {
            assert_refused(&site.fails(|| volume.grow(count, false, true)), Refusal::OutsideLimits);
        }
        assert_refused(&site.fails(|| volume.grow(5, false, true)), Refusal::BeyondDoubling);
        volume.grow(3, false, true).unwrap();
        assert_refused(&site.fails(|| volume.grow(4, false, true)), Refusal::Growing);
        complete(&mut volume).unwrap();
        (4..=9).for_each(|count| grow(&mut volume, count, true));
        assert_refused(&site.fails(|| volume.grow(10, false, true)), Refusal::NoMoreGrowths);
    }
}

/// The record and the first blocks are in the front, of which the store layer itself writes what belongs to the file.
#[test]
fn images_shorter_than_a_page() {
    let site = Site::new();
    let mut volume = site.create(&plan(Form::Image, SIZE, 1, 1)).unwrap();
    for count in [2, 3, 6, 7, 9] {
        let blocks = volume.open_blocks();
        save_all(&mut volume, count);
        drop(volume);
        volume = site.open();
        check_all(&volume, blocks, count);
        grow(&mut volume, count, true);
        assert_eq!(fs::metadata(site.volume()).unwrap().len(), 512 + 512 * count);
        save_all(&mut volume, count + 1);
        drop(volume);
        volume = site.open();
        check_all(&volume, count, count + 1);
    }
}

/// Disks of more than two megabytes, the second of which begins inside a large page.
#[test]
fn disks_larger_than_a_large_page() {
    let (size, rows) = (32_768, 65);
    for form in FORMS {
        let site = Site::new();
        let mut volume = site.create(&plan(form, size, rows, 2)).unwrap();
        save_all(&mut volume, 1);
        grow(&mut volume, 3, true);
        check_all(&volume, 2 * rows, 1);
        save_all(&mut volume, 2);
        drop(volume);
        check_all(&site.open(), 3 * rows, 2);
    }
}

#[test]
fn spare_bytes_at_the_end_of_an_image_are_never_touched() {
    for (rows, spare) in [(1, 1), (1, 700), (7, 513), (8, 5000)] {
        let site = Site::new();
        drop(site.create(&Plan { room: 3, ..plan(Form::Image, SIZE, rows, 2) }).unwrap());
        let used = State::medium_bytes(SIZE, rows, 3);
        let file = File::options().write(true).open(site.volume()).unwrap();
        file.write_all_at(&vec![0xAB; spare], used as u64).unwrap();
        let mut volume = site.open();
        save_all(&mut volume, 1);
        grow(&mut volume, 3, false);
        check_all(&volume, 2 * rows, 1);
        save_all(&mut volume, 2);
        drop(volume);
        assert_eq!(fs::read(site.volume()).unwrap()[used..], vec![0xAB; spare]);
        check_all(&site.open(), 3 * rows, 2);
    }
}

#[test]
fn copies_are_forgotten_unless_settled() {
    for form in FORMS {
        let site = Site::new();
        let mut volume = site.created(form, 2);
        save_all(&mut volume, 1);
        let left = volume.grow(3, false, true).unwrap();
        assert!(matches!(volume.advance().unwrap().step, Step::Copied { .. }));
        volume.flush().unwrap();
        drop(volume);
        let mut volume = site.open();
        assert_eq!(volume.calls_left(), left);
        let advanced = volume.advance().unwrap();
        volume.settle().unwrap();
        drop(volume);
        let mut volume = site.open();
        assert_eq!(volume.calls_left(), advanced.calls_left);
        // With nothing to record it flushes alone.
        volume.settle().unwrap();
        complete(&mut volume).unwrap();
        check_all(&volume, 2 * ROWS, 1);
    }
}

/// Drives that may fail.
#[derive(Default)]
struct FailingDrives {
    fail: AtomicBool,
}

impl Drives for FailingDrives {
    fn flush(&self, _: &Path, _: &File) -> io::Result<()> {
        if self.fail.load(Ordering::SeqCst) {
            return Err(io::Error::other("the drive is gone"));
        }
        Ok(())
    }
}

#[test]
fn create_leaves_nothing_where_a_flush_fails() {
    for form in FORMS {
        let site = Site::new();
        let drives = Arc::new(FailingDrives::default());
        drives.fail.store(true, Ordering::SeqCst);
        let options = Options { drives };
        let plan = plan(form, SIZE, ROWS, 2);
        let error = site.fails(|| Volume::create(&site.volume(), &plan, &options));
        assert_file(&error, &site.record(form), ErrorKind::Other);
    }
}

#[test]
fn after_a_flush_that_failed_nothing_more_is_stored() {
    for form in FORMS {
        let site = Site::new();
        drop(site.created(form, 2));
        let drives = Arc::new(FailingDrives::default());
        let options = Options { drives: drives.clone() };
        let mut volume = Volume::open(&site.volume(), &options).unwrap();
        save_all(&mut volume, 1);
        volume.write(Block(3), &piece(SIZE, 3, 2)).unwrap();
        drives.fail.store(true, Ordering::SeqCst);
        let error = volume.flush().unwrap_err();
        assert!(matches!(error, Error::File { tried: "flush", .. }), "{error:?}");
        // What is down is not known, even if the drive is back.
        drives.fail.store(false, Ordering::SeqCst);
        declined(site.fails(|| volume.flush()));
        declined(site.fails(|| volume.write(Block(4), &piece(SIZE, 4, 2))));
        declined(site.fails(|| volume.grow(3, false, true)));
        reads(&volume, 3, 2).unwrap();
        drop(volume);
        reads(&site.open(), 4, 1).unwrap();
    }
}
