use std::path::PathBuf;

use clap::{Args, Parser, Subcommand};
use clap_complete::Shell;

use crate::numbers::{parse_bytes, parse_rate, parse_rows, parse_seconds};

const EXIT_STATUS: &str = "Exit status:
  0    done
  1    refused, with the number of documents 01 and 02 where it has one, and a sentence
  2    usage: an argument is wrong
  3    input and output: a file cannot be opened, read or written
  4    check found faults
  5    a file is too short for its volume
  6    no volume: the record is refused with 13
  7    another process has the volume
  130  ended by Ctrl-C; what was saved and recorded is kept, and run goes on there

VOL is an image file, or a folder with the files record and disk-00, disk-01, ..
Sizes and rates take K, M or G behind the number: 64K is 65,536 bytes.";

/// A RAID-0 volume on real files that takes more disks while it is in use
#[derive(Parser)]
#[command(name = "streterva", version, after_help = EXIT_STATUS, max_term_width = 100)]
pub struct Arguments {
    #[command(flatten)]
    pub general: General,
    #[command(subcommand)]
    pub command: Command,
}

#[derive(Args, Clone, Copy)]
pub struct General {
    /// Answers as one JSON object; an error is one on standard error
    #[arg(long, global = true)]
    pub json: bool,
    /// Shows no progress
    #[arg(long, short, global = true)]
    pub quiet: bool,
    /// Waits so long for another process that has the volume
    #[arg(long, global = true, value_name = "SECONDS", default_value = "0", value_parser = parse_seconds)]
    pub wait: f64,
}

#[derive(Subcommand)]
pub enum Command {
    /// Makes a volume on an image file, or in a folder with a file for each disk
    Create(Create),
    /// Tells disks, history, open blocks, how far a growth is, and the blocks on each disk
    Status(Status),
    /// Tells a record sector in words, or which column and byte of it are wrong
    Examine(Examine),
    /// Begins a growth to COUNT disks
    Grow(Grow),
    /// Takes a growth some calls further
    Advance(Advance),
    /// Takes a growth to its end
    Run(Run),
    /// Saves standard input, one block long, as a block
    Write(OneBlock),
    /// Writes a block to standard output
    Read(OneBlock),
    /// Saves a file as blocks, one after the other
    Import(Import),
    /// Writes blocks, one after the other, to a file
    Export(Export),
    /// Tells where a block is, why, and how often it was moved
    Where(OneBlock),
    /// Tells which block is at a spot
    Holder(Holder),
    /// Tells how many blocks of a scene list each disk serves
    Load(Load),
    /// Prints the wall chart: which block is at each spot
    Chart(Chart),
    /// Checks record, files, and that address and holder agree at every block
    Check(OneVolume),
    /// Copies the record to a file
    BackupRecord(BackupRecord),
    /// Checks a record in a file and stores it as the volume's
    RestoreRecord(RestoreRecord),
    /// Draws a page to look at and to print
    Report(Report),
    /// Prints the completions for a shell
    Completions(Completions),
}

#[derive(Args)]
pub struct OneVolume {
    /// The volume
    #[arg(value_name = "VOL")]
    pub volume: PathBuf,
}

#[derive(Args)]
pub struct OneBlock {
    /// The volume
    #[arg(value_name = "VOL")]
    pub volume: PathBuf,
    /// The block, counted from 0
    #[arg(value_name = "BLOCK")]
    pub block: u64,
}

#[derive(Args)]
pub struct Create {
    /// The image file or folder to make
    #[arg(value_name = "VOL")]
    pub volume: PathBuf,
    /// Bytes in a block: 512 to 64K, a multiple of 512
    #[arg(long, value_name = "BYTES", value_parser = parse_bytes)]
    pub size: u64,
    /// Rows on each disk: 1 to 1000000
    #[arg(long, value_name = "ROWS")]
    pub rows: u64,
    /// Disks: 1 to 16
    #[arg(long, value_name = "DISKS")]
    pub disks: u64,
    /// Disks that the image file has room for [default: twice DISKS, at most 16]
    #[arg(long, value_name = "DISKS", conflicts_with = "folder")]
    pub room: Option<u64>,
    /// Makes a folder with a file for each disk
    #[arg(long)]
    pub folder: bool,
    /// Overwrites what is there
    #[arg(long)]
    pub force: bool,
}

#[derive(Args)]
pub struct Status {
    /// The volume
    #[arg(value_name = "VOL")]
    pub volume: PathBuf,
    /// Tells it again and again until Ctrl-C
    #[arg(long)]
    pub watch: bool,
    /// With --watch: how often
    #[arg(long, value_name = "SECONDS", default_value = "1", value_parser = parse_seconds)]
    pub interval: f64,
}

#[derive(Args)]
pub struct Examine {
    /// A file of 512 bytes, an image file, a file record, or a folder
    #[arg(value_name = "FILE")]
    pub file: PathBuf,
}

#[derive(Args)]
pub struct Grow {
    /// The volume
    #[arg(value_name = "VOL")]
    pub volume: PathBuf,
    /// The disks after the growth: more than there are, at most twice as many and at most 16
    #[arg(value_name = "COUNT")]
    pub count: u64,
    /// Tells moves, bytes and an estimate, and begins nothing
    #[arg(long)]
    pub dry_run: bool,
    /// Takes a count above twice the present one, for a rack whose power supply takes it
    #[arg(long)]
    pub beyond_doubling: bool,
    /// Makes an image file longer that has no room for COUNT disks
    #[arg(long)]
    pub lengthen: bool,
    /// Bytes copied in a second, for the estimate
    #[arg(long, value_name = "BYTES", default_value = "100M", value_parser = parse_rate)]
    pub rate: u64,
}

#[derive(Args)]
pub struct Advance {
    /// The volume
    #[arg(value_name = "VOL")]
    pub volume: PathBuf,
    /// Advance calls to make; copies are recorded at the end, which is one call more where it fills a window
    #[arg(long, value_name = "N", default_value = "1", value_parser = clap::value_parser!(u64).range(1..))]
    pub calls: u64,
    /// Copies at most so many bytes in a second
    #[arg(long, value_name = "BYTES", value_parser = parse_rate)]
    pub rate: Option<u64>,
}

#[derive(Args)]
pub struct Run {
    /// The volume
    #[arg(value_name = "VOL")]
    pub volume: PathBuf,
    /// Copies at most so many bytes in a second
    #[arg(long, value_name = "BYTES", value_parser = parse_rate)]
    pub rate: Option<u64>,
}

#[derive(Args)]
pub struct Import {
    /// The volume
    #[arg(value_name = "VOL")]
    pub volume: PathBuf,
    /// The file; its last block is filled up with zeros
    #[arg(value_name = "FILE")]
    pub file: PathBuf,
    /// The block that gets the file's first bytes
    #[arg(long, value_name = "BLOCK", default_value = "0")]
    pub first: u64,
}

#[derive(Args)]
pub struct Export {
    /// The volume
    #[arg(value_name = "VOL")]
    pub volume: PathBuf,
    /// The file to make, or - for standard output
    #[arg(value_name = "FILE")]
    pub file: PathBuf,
    /// The first block
    #[arg(long, value_name = "BLOCK", default_value = "0")]
    pub first: u64,
    /// How many blocks [default: all open ones from the first on]
    #[arg(long, value_name = "COUNT")]
    pub blocks: Option<u64>,
    /// Overwrites a file that is there
    #[arg(long)]
    pub force: bool,
}

#[derive(Args)]
pub struct Holder {
    /// The volume
    #[arg(value_name = "VOL")]
    pub volume: PathBuf,
    /// The disk, counted from 0
    #[arg(value_name = "DISK")]
    pub disk: u64,
    /// The row, counted from 0
    #[arg(value_name = "ROW")]
    pub row: u64,
}

#[derive(Args)]
pub struct Load {
    /// The volume
    #[arg(value_name = "VOL")]
    pub volume: PathBuf,
    /// A file with a scene a line: first block, count, and a name if wanted; - for standard input
    #[arg(value_name = "SCENES")]
    pub scenes: PathBuf,
}

#[derive(Args)]
pub struct Chart {
    /// The volume
    #[arg(value_name = "VOL")]
    pub volume: PathBuf,
    /// Only these rows, both included
    #[arg(long, value_name = "A-B", value_parser = parse_rows)]
    pub rows: Option<(u64, u64)>,
}

#[derive(Args)]
pub struct BackupRecord {
    /// The volume
    #[arg(value_name = "VOL")]
    pub volume: PathBuf,
    /// The file to make, of 512 bytes
    #[arg(value_name = "FILE")]
    pub file: PathBuf,
    /// Overwrites a file that is there
    #[arg(long)]
    pub force: bool,
}

#[derive(Args)]
pub struct RestoreRecord {
    /// The volume
    #[arg(value_name = "VOL")]
    pub volume: PathBuf,
    /// A file that backup-record made
    #[arg(value_name = "FILE")]
    pub file: PathBuf,
    /// Stores it also in place of another sound record
    #[arg(long)]
    pub force: bool,
}

#[derive(Args)]
pub struct Report {
    /// The volume
    #[arg(value_name = "VOL")]
    pub volume: PathBuf,
    /// The page to make; an earlier report is replaced
    #[arg(value_name = "OUT.html")]
    pub out: PathBuf,
    /// A scene list whose load is shown too
    #[arg(long, value_name = "FILE")]
    pub scenes: Option<PathBuf>,
    /// Overwrites any file that is there
    #[arg(long)]
    pub force: bool,
}

#[derive(Args)]
pub struct Completions {
    /// The shell
    #[arg(value_name = "SHELL")]
    pub shell: Shell,
}
