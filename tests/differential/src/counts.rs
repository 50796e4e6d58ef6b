//! What happened in a run, and what has to happen in a standard one.

use crate::call::{Call, KINDS, NO_STATE};

/// The refusals that each call has, in the order of `KINDS`; 100 comes with all.
const NUMBERS: [&[usize]; 18] = [
    &[8, 2],
    &[2, 13],
    &[1, 6, 9, 8, 20, 2, 19, 18],
    &[1, 6, 9, 8, 2, 19, 18],
    &[1, 2, 5, 3, 10, 11, 19],
    &[1, 2, 5, 12, 19, 18],
    &[1, 2, 5, 19, 18],
    &[1, 2, 3, 4, 7, 19],
    &[1, 2, 3, 4],
    &[1, 3],
    &[1, 14, 15],
    &[1],
    &[1],
    &[1, 8, 2, 3],
    &[],
    &[21],
    &[1, 21, 2, 3, 4],
    &[1, 21, 2, 3, 4, 7, 19],
];

/// How the names of cuts begin.
const CUT: &str = "cut: ";
/// Places for the numbers of answers, of which `NO_STATE` is the greatest.
const ANSWERS: usize = NO_STATE as usize + 1;

/// Declares the events with their names.
macro_rules! events {
    ($($event:ident: $name:literal,)*) => {
        #[derive(Clone, Copy, PartialEq, Eq, Debug)]
        pub enum Event { $($event,)* }

        const EVENTS: &[&str] = &[$($name,)*];
    };
}

events! {
    TornWrite: "cut: write torn",
    TornClientWrite: "cut: client_write torn",
    TornCopy: "cut: copy torn",
    TornAdvance: "cut: advance torn",
    OldInFormat: "cut: format, old record",
    NewInFormat: "cut: format, new record",
    OldInGrow: "cut: grow, old record",
    NewInGrow: "cut: grow, new record",
    OldInOtherGrow: "cut: grow_beyond_doubling, old record",
    NewInOtherGrow: "cut: grow_beyond_doubling, new record",
    OldInCheckpoint: "cut: checkpoint, old record",
    NewInCheckpoint: "cut: checkpoint, new record",
    OldInAdvance: "cut: advance, old record",
    NewInAdvance: "cut: advance, new record",
    BetweenNothing: "cut: between calls, nothing pending",
    BetweenBlocks: "cut: between calls, block stores pending",
    BetweenOld: "cut: between calls, old record",
    BetweenNew: "cut: between calls, new record",
    TwoSaves: "cut between calls with two saved blocks or more pending",
    SavedTwice: "cut between calls with two saves of one block pending",
    SavesAndCopies: "cut between calls with saves and copies pending",
    CopiesOnly: "cut between calls with only copies pending",
    OtherStores: "cut in a block store with others pending",
    GrowTakenBack: "cut between calls, old record: grow taken back",
    RecordTakenBack: "cut between calls, old record: checkpoint taken back",
    GrowthTakenBack: "cut between calls, old record: finished growth taken back",
    GrowthKept: "cut between calls, new record: finished growth kept",
    LandedOld: "pending spot with its old bytes",
    LandedNew: "pending spot with its new bytes",
    LandedHalf: "pending spot with some new and some old bytes",
    LandedAny: "pending spot with random bytes",
    LandedEarlier: "pending spot with the bytes of an earlier pending store",
    CopiedHead: "advance copied a head",
    CopiedBody: "advance copied a body",
    CopiedTail: "advance copied a tail",
    Recorded: "advance recorded",
    Finished: "advance finished",
    SetOut: "address: set out",
    Added: "address: added",
    MovedHead: "address: moved as head",
    MovedBody: "address: moved as body",
    MovedTail: "address: moved as tail",
    NeverMoved: "address: moved by no growth",
    MovedOnce: "address: moved by one growth",
    MovedTwice: "address: moved by two growths",
    MovedOften: "address: moved by three growths or more",
    WindowCounted: "address: growth under way counted, window finished",
    MarkCounted: "address: growth under way counted, copy recorded",
    CopyNotCounted: "address: growth under way not counted, copy not recorded",
    SevenGrowths: "seventh growth finished",
    GrowTwice: "grow to exactly twice the disks",
    BeyondWithUnsound: "grow to more than twice the disks refused with 1",
    BeyondWithGrowing: "grow to more than twice the disks refused with 6",
    BeyondWithLast: "grow to more than twice the disks refused with 9",
    BeyondWithOutside: "grow to more than twice the disks refused with 8",
    BeyondAlone: "grow refused with 20, accepted without it",
    BeyondBeforeShort: "grow refused with 20, with 2 without it",
    BeyondBeforeRecord: "grow refused with 20, with 19 without it",
    BeyondBeforeBlocks: "grow refused with 20, with 18 without it",
    OtherGrowWithin: "grow_beyond_doubling up to twice the disks",
    OtherGrowBeyond: "grow_beyond_doubling to more than twice the disks",
    BeyondRestarted: "restart while a growth beyond doubling runs",
    BeyondFinished: "growth beyond doubling finished",
    RestartAfterBeyond: "restart after a growth beyond doubling",
    GrowAfterBeyond: "grow after a growth beyond doubling",
    FullRuns: "growth run to its end by the calls left",
    FlushedInRun: "flushed between the advances of such a run",
    RefusedInRun: "refused call between the advances of such a run",
    OutsideLists: "list that the guarantee does not cover",
    PendingRestart: "restart without a cut while stores are pending",
    PendingFormat: "format while stores are pending",
    DroppedCopies: "restart dropped copied blocks",
    RestartNoRecord: "restart: too short for a record",
    RestartFewDisks: "restart: too short for the disks",
    UnsoundStates: "damaged state not sound",
    StillSound: "damaged state still sound",
    WordsOutOfRange: "state word out of range",
    NoState: "last word above 3: no state",
    BothPending: "record store and block stores pending in one state",
    BadRecords: "damaged record refused",
    GoodRecords: "damaged record still sound",
    ByteRefused: "one byte changed: refused",
    ByteAccepted: "one byte changed: accepted",
    ShortMedium: "medium too short",
    WrongState: "state of a wrong length",
    WrongFigures: "figures of a wrong length",
    WrongSpans: "span table of a wrong length",
    SweptStages: "stage with all blocks and spots looked up",
    BigLookups: "lookup in a million rows",
    BigMedium: "call on a medium of gigabytes",
    ReadBacks: "volume read back whole",
    ViewFirst: "view out of the first shelf",
    ViewSecond: "view out of the second shelf",
    ViewFirstGrowing: "view out of the first shelf during a growth",
    ViewSecondGrowing: "view out of the second shelf during a growth",
    ViewExact: "view out of shelves without spare bytes",
    ViewSpare: "view out of a shelf with spare bytes",
    ViewOneShelf: "view with no second shelf",
    ViewPending: "view while stores are pending",
    ViewFirstShort: "view refused: only the first shelf too short, by a byte",
    ViewSecondShort: "view refused: only the second shelf too short, by a byte",
    ViewUnopened: "view refused: block added by the growth under way",
    ViewBeyond: "view refused: block past all disks",
    ViewNotSoundGrowing: "view refused with 1 during a growth",
    ViewOutsideGrowing: "view refused with 8 during a growth",
    ViewShortGrowing: "view refused with 2 during a growth",
    ViewNotOpenGrowing: "view refused with 3 during a growth",
    ViewEveryK: "views with every k from 0 to N[t] + 1",
    TableEntry: "table_move told an entry",
    TableNoMark: "table_move told that there is no such mark",
    TableWrapped: "table_move with m + n beyond 64 bits",
    TableSwept: "table_move with all small numbers",
    SpansApart: "spans made with blocks between them",
    SpansTouching: "spans made, one ends where the other begins",
    SpansEmptyInside: "spans made, one of 0 blocks inside the other",
    SpansZeros: "spans made of zeros",
    SpansToReach: "spans made up to block 15,999,999",
    SpansFromReach: "spans made, 0 blocks from 16,000,000 on",
    SpansEqual: "spans refused, both the same",
    SpansInside: "spans refused, one inside the other",
    SpansOneShared: "spans refused, one block shared",
    SpansOneTooFar: "spans refused, first plus count 16,000,001",
    SpansFarFirst: "spans refused, first above 16,000,000 and a count of 0",
    SpansWrapped: "spans refused, first plus count beyond 64 bits",
    ReadByZero: "client_read of client 0",
    ReadByOne: "client_read of client 1",
    ReadFirst: "client_read of the first block of a span",
    ReadLast: "client_read of the last block of a span",
    ReadUnsoundOutside: "client_read refused with 1, outside the span too",
    ReadOutside: "client_read refused with 21 alone",
    ReadOutsideShort: "client_read refused with 21, with 2 without it",
    ReadOutsideClosed: "client_read refused with 21, with 3 without it",
    ReadOutsidePiece: "client_read refused with 21, with 4 without it",
    WriteByZero: "client_write of client 0",
    WriteByOne: "client_write of client 1",
    WriteFirst: "client_write of the first block of a span",
    WriteLast: "client_write of the last block of a span",
    WriteUnsoundOutside: "client_write refused with 1, outside the span too",
    WriteOutside: "client_write refused with 21 alone",
    WriteOutsideShort: "client_write refused with 21, with 2 without it",
    WriteOutsideClosed: "client_write refused with 21, with 3 without it",
    WriteOutsidePiece: "client_write refused with 21, with 4 without it",
    WriteOutsideUnrecorded: "client_write refused with 21, with 7 without it",
    WriteOutsideWaiting: "client_write refused with 21, with 19 without it",
    OutsideBefore: "21: the block before the span",
    OutsideAfter: "21: the block after the span",
    OutsideOther: "21: a block of the other client",
    OutsideNobody: "21: a block of no client",
    OutsideEmpty: "21: a span of 0 blocks",
    OutsideTwo: "21: client 2",
    OutsideHuge: "21: client beyond 32 bits",
    OutsideShared: "21: a table whose spans share a block",
    OutsideFar: "21: a table whose span reaches too far",
    OutsideWrapped: "21: a table with first plus count beyond 64 bits",
    InsideInGrowth: "client_write accepted while a growth runs",
    TwoRuns: "two runs compared",
    RunsOtherWrote: "two runs: the other wrote in one",
    RunsOtherRead: "two runs: the other read in one",
    RunsOtherRefused: "two runs: the other's write refused but with 21",
    RunsClientWrote: "two runs: the client wrote in both",
    RunsRead: "two runs: the client read a set block in both",
    RunsClientOutside: "two runs: 21 for the client",
    RunsOtherOutside: "two runs: 21 for the other",
    RunsWriteCut: "two runs: cut in the client's write",
    RunsCopyCut: "two runs: cut in a copy",
    RunsOldRecord: "two runs: cut in a record store, old record",
    RunsNewRecord: "two runs: cut in a record store, new record",
    RunsBetween: "two runs: cut between calls",
    RunsGrowthCut: "two runs: cut while a growth runs",
    RunsTornApart: "two runs: cut that left other bytes in each",
    RunsCopied: "two runs: copy accepted",
    RunsRecorded: "two runs: checkpoint accepted",
    RunsAdvanced: "two runs: advance accepted",
    RunsRestarted: "two runs: restart without a cut",
    RunsFinished: "two runs: growth finished",
    RunsSecond: "two runs: second growth finished",
    RunsSetAfterCut: "two runs: set block read after a cut in a growth",
    RunsMediaDiffer: "two runs: media that differ at the end",
}

#[derive(Clone)]
pub struct Counts {
    calls: [[u64; ANSWERS]; KINDS.len()],
    events: Vec<u64>,
    pub lists: u64,
    /// Calls made in lists, read-backs not counted.
    pub list_calls: u64,
    /// Blocks read back.
    pub read_backs: u64,
    pub comparisons: u64,
}

impl Counts {
    pub fn new() -> Counts {
        Counts {
            calls: [[0; ANSWERS]; KINDS.len()],
            events: vec![0; EVENTS.len()],
            lists: 0,
            list_calls: 0,
            read_backs: 0,
            comparisons: 0,
        }
    }

    pub fn event(&mut self, event: Event) {
        self.events[event as usize] += 1;
    }

    /// Counts a library call and what its answer tells.
    pub fn call(&mut self, call: &Call, number: u64, figures: &[u64]) {
        self.calls[call.kind()][number as usize] += 1;
        match (call, number) {
            // Counted with the state, in `views`; the moves of address in `lookups`.
            (Call::View { .. }, _) => {}
            (_, 2) => self.event(Event::ShortMedium),
            (Call::Advance, 0) => self.event(match (figures[1], figures[3]) {
                (1, 1) => Event::CopiedHead,
                (1, 2) => Event::CopiedBody,
                (1, _) => Event::CopiedTail,
                (2, _) => Event::Recorded,
                _ => Event::Finished,
            }),
            (Call::Address { .. }, 0) => self.event(match (figures[2], figures[4]) {
                (1, _) => Event::SetOut,
                (2, _) => Event::Added,
                (_, 1) => Event::MovedHead,
                (_, 2) => Event::MovedBody,
                _ => Event::MovedTail,
            }),
            (Call::TableMove { .. }, 0) => self.event(match figures[1] {
                0 => Event::TableNoMark,
                _ => Event::TableEntry,
            }),
            _ => {}
        }
    }

    pub fn add(&mut self, other: &Counts) {
        for (mine, theirs) in self.calls.iter_mut().zip(&other.calls) {
            for (a, b) in mine.iter_mut().zip(theirs) {
                *a += b;
            }
        }
        for (a, b) in self.events.iter_mut().zip(&other.events) {
            *a += b;
        }
        self.lists += other.lists;
        self.list_calls += other.list_calls;
        self.read_backs += other.read_backs;
        self.comparisons += other.comparisons;
    }

    /// What a standard run has to have seen and did not.
    pub fn missing(&self) -> Vec<String> {
        let mut missing = Vec::new();
        for (kind, name) in KINDS.iter().enumerate() {
            let numbers = [0, NO_STATE as usize].iter().chain(NUMBERS[kind]);
            for &number in numbers.filter(|&&number| self.calls[kind][number] == 0) {
                missing.push(format!("{name} answering {number}"));
            }
        }
        for (name, count) in EVENTS.iter().zip(&self.events) {
            if *count == 0 {
                missing.push(name.to_string());
            }
        }
        missing
    }

    /// All that happened besides the cuts, one line each.
    pub fn print_events(&self) {
        for (name, count) in self.named_events(false) {
            println!("{name}: {count}");
        }
    }

    /// The library calls, read-backs not counted: how many, and per kind how
    /// many accepted and how many refused with each number.
    pub fn calls_told(&self) -> String {
        let all: u64 = self.calls.iter().flatten().sum();
        let mut kinds = Vec::new();
        for (name, row) in KINDS.iter().zip(&self.calls) {
            let mut told = format!("{name} {} accepted", row[0]);
            for number in (1..row.len()).filter(|&number| row[number] > 0) {
                told += &format!(", {} refused with {number}", row[number]);
            }
            kinds.push(told);
        }
        format!("{all} ({})", kinds.join("; "))
    }

    /// The cuts: how many, and how many of each kind.
    pub fn cuts_told(&self) -> String {
        let cuts = self.named_events(true);
        let all: u64 = cuts.iter().map(|(_, count)| count).sum();
        let told: Vec<String> = cuts
            .iter()
            .map(|(name, count)| format!("{count} {}", &name[CUT.len()..]))
            .collect();
        format!("{all} ({})", told.join("; "))
    }

    /// The events that are cuts, or those that are not.
    fn named_events(&self, cuts: bool) -> Vec<(&str, u64)> {
        let named = EVENTS.iter().copied().zip(self.events.iter().copied());
        named
            .filter(|(name, _)| name.starts_with(CUT) == cuts)
            .collect()
    }
}
