//! Address ranges in which the calls see one medium. All unsafe code of the store layer stands here.
//!
//! The first page of a range, the *front*, is memory of its own; files are mapped behind it, page by page. What is
//! stored to a mapped file reaches its drive whenever the kernel likes; what is stored to the front reaches a file only
//! where the store layer writes it there. So a record, which is in the front, is never seen half stored by a file.

use std::fs::File;
use std::io;
use std::os::fd::AsRawFd;
use std::ptr;
use std::slice;

/// Bytes of a page, the unit in which files are mapped.
pub const PAGE: usize = 4096;

/// Bytes of a large page. Where addresses and a file's bytes are a multiple of it apart, the kernel can map so many at
/// once.
pub const LARGE_PAGE: usize = 2 << 20;

/// A range of addresses with a front and files behind it.
pub struct Mapping {
    start: *mut u8,
    reserved: usize,
    used: usize,
}

// SAFETY: the range belongs to this value alone, as the memory of a vector does.
unsafe impl Send for Mapping {}
// SAFETY: through a shared reference it is only read.
unsafe impl Sync for Mapping {}

impl Mapping {
    /// Reserves addresses for a front and `behind` bytes of files; none of them is mapped yet. Byte `aligned` of the
    /// range, 0 or the end of the front, begins a large page.
    pub fn reserve(behind: usize, aligned: usize) -> io::Result<Mapping> {
        let reserved = PAGE + behind.next_multiple_of(PAGE) + LARGE_PAGE;
        let start = anonymous(reserved, libc::PROT_NONE)?;
        let spare = (start as usize + aligned).next_multiple_of(LARGE_PAGE) - aligned - start as usize;
        // SAFETY: the first pages of the new range are given back; nobody knows them yet.
        unsafe { libc::munmap(start.cast(), spare) };
        // SAFETY: `spare` is below a large page, and the range is longer.
        let start = unsafe { start.add(spare) };
        let mapping = Mapping { start, reserved: reserved - spare, used: PAGE };
        mapping.open_front()?;
        Ok(mapping)
    }

    /// A medium of `bytes` zeros that take no memory. Only its front may be written.
    pub(crate) fn zeros(bytes: usize) -> io::Result<Mapping> {
        let reserved = bytes.next_multiple_of(PAGE).max(PAGE);
        let start = anonymous(reserved, libc::PROT_READ)?;
        let mapping = Mapping { start, reserved, used: bytes };
        mapping.open_front()?;
        Ok(mapping)
    }

    fn open_front(&self) -> io::Result<()> {
        // SAFETY: the page is the first of this value's own range.
        let done = unsafe { libc::mprotect(self.start.cast(), PAGE, libc::PROT_READ | libc::PROT_WRITE) };
        succeeded(done)
    }

    /// Maps `bytes` bytes of the file from `offset` on at byte `at` of the range, which is then used up to their end.
    /// What was mapped there before is replaced. `at` and `offset` are multiples of the page, `at` is at most the bytes
    /// used, and the file has these bytes.
    pub fn map(&mut self, at: usize, file: &File, offset: u64, bytes: usize) -> io::Result<()> {
        assert!(at >= PAGE && at.is_multiple_of(PAGE) && offset.is_multiple_of(PAGE as u64));
        assert!(at <= self.used && at + bytes <= self.reserved);
        if bytes == 0 {
            return Ok(());
        }
        // SAFETY: the pages lie in this value's own range, so that nothing else is replaced; no slice of it is lent
        // out, since `self` is borrowed as mutable.
        let mapped = unsafe {
            libc::mmap(
                self.start.add(at).cast(),
                bytes,
                libc::PROT_READ | libc::PROT_WRITE,
                libc::MAP_SHARED | libc::MAP_FIXED,
                file.as_raw_fd(),
                offset as libc::off_t,
            )
        };
        if mapped == libc::MAP_FAILED {
            return Err(io::Error::last_os_error());
        }
        self.used = at + bytes;
        Ok(())
    }

    /// Asks the kernel to read and map the files in large pages from now on, where it can: for work that goes through
    /// many bytes one after the other.
    pub fn expect_much(&self) {
        // SAFETY: the range is this value's own, and its bytes stay as they are.
        unsafe { libc::madvise(self.start.add(PAGE).cast(), self.used.saturating_sub(PAGE), libc::MADV_HUGEPAGE) };
    }

    /// The bytes used.
    pub fn bytes(&self) -> &[u8] {
        // SAFETY: the front and the files behind it are mapped without a gap up to `used`, and stay so as long as this
        // value. A file is locked against other openers; where one is cut short all the same, or a drive fails, the
        // kernel sends SIGBUS, and no other bytes are seen.
        unsafe { slice::from_raw_parts(self.start, self.used) }
    }

    /// The bytes used, to be stored to. Of a medium of zeros only the front may be.
    pub fn bytes_mut(&mut self) -> &mut [u8] {
        // SAFETY: as for `bytes`; the range is borrowed as mutable.
        unsafe { slice::from_raw_parts_mut(self.start, self.used) }
    }
}

impl Drop for Mapping {
    fn drop(&mut self) {
        // SAFETY: the range is this value's own, and no slice of it outlives the value.
        unsafe { libc::munmap(self.start.cast(), self.reserved) };
    }
}

/// New addresses with nothing behind them that counts as memory in use.
fn anonymous(bytes: usize, protection: libc::c_int) -> io::Result<*mut u8> {
    let flags = libc::MAP_PRIVATE | libc::MAP_ANONYMOUS | libc::MAP_NORESERVE;
    // SAFETY: the kernel chooses addresses that are free.
    let start = unsafe { libc::mmap(ptr::null_mut(), bytes, protection, flags, -1, 0) };
    if start == libc::MAP_FAILED {
        return Err(io::Error::last_os_error());
    }
    Ok(start.cast())
}

/// Sets space on the drive aside for these bytes of the file, so that a store to them cannot fail for want of it. File
/// systems that cannot do it ahead are left to do it at each store.
pub fn allocate(file: &File, from: u64, bytes: u64) -> io::Result<()> {
    // SAFETY: a call on numbers alone.
    let done = unsafe { libc::fallocate(file.as_raw_fd(), 0, from as libc::off_t, bytes as libc::off_t) };
    match succeeded(done) {
        Err(error) if error.raw_os_error() == Some(libc::EOPNOTSUPP) => Ok(()),
        told => told,
    }
}

/// Asks the kernel to have these bytes of the file in memory, in pages of the smallest size. Where large pages cannot
/// be mapped as such, the first store to each small page inside one costs many times as much.
pub fn expect_stores(file: &File, from: u64, bytes: u64) {
    let (from, bytes) = (from as libc::off_t, bytes as libc::off_t);
    // SAFETY: a call on numbers alone. It is a wish: the bytes stay as they are.
    unsafe { libc::posix_fadvise(file.as_raw_fd(), from, bytes, libc::POSIX_FADV_WILLNEED) };
}

/// Asks the kernel to begin writing what is stored in the file to its drive, and does not wait for it.
pub fn begin_writing(file: &File) {
    // SAFETY: a call on numbers alone. It is a wish: whether it is met makes no difference to what is down.
    unsafe { libc::sync_file_range(file.as_raw_fd(), 0, 0, libc::SYNC_FILE_RANGE_WRITE) };
}

/// What is said where the kernel cannot read or write a mapped file. It tells so by SIGBUS, and where a call reads the
/// mapped bytes by EFAULT.
pub const MAPPED_FILE_FAILED: &str =
    "a mapped file could not be read or written: a drive failed or is full, or a file was cut short";

extern "C" fn bus_error(_: libc::c_int) {
    for part in ["streterva: ", MAPPED_FILE_FAILED, "\n"] {
        // SAFETY: the bytes are constant, and the call may be made in a signal handler.
        unsafe { libc::write(2, part.as_ptr().cast(), part.len()) };
    }
    // SAFETY: the call may be made in a signal handler, and does not return.
    unsafe { libc::_exit(3) };
}

/// Ends the process with a sentence and exit status 3 when a mapped file cannot be read or written, which the kernel
/// tells by SIGBUS.
pub fn end_on_bus_errors() {
    // SAFETY: the handler makes only calls that a handler may make, and does not return.
    unsafe { libc::signal(libc::SIGBUS, bus_error as *const () as libc::sighandler_t) };
}

fn succeeded(answer: libc::c_int) -> io::Result<()> {
    if answer == 0 {
        return Ok(());
    }
    Err(io::Error::last_os_error())
}
