/*
 * Streterva: a RAID-0 volume (striping without parity) that takes more disks while it is in use.
 *
 * Link with libcapi.a (x86-64). "Document 01" is the specification, and "document 02" that of load, flushed, view, the
 * number of moves, the limit to doubling, the table of moves and two clients; numbers and words here are their own: a
 * block is an address in the volume, a row is a position on one disk, a spot is a disk and a row.
 *
 * Answers. Every function returns 0 when it accepts the call, or else the number of the refusal (enum
 * streterva_refusal). Tests are made in the order given at each function, and the first that fails gives the number. A
 * refused call changes nothing in the medium, the state and the piece, with one exception: format and restart, refused,
 * set the state to zeros. It sets every figure to 0, all but the place that load tells with 17. A span table that is
 * refused when made is set to zeros.
 *
 * Slices. A buffer is lent for the call as a pointer and, directly after it, the number of its elements: bytes for a
 * medium or a piece, words of 64 bits for a state, a span table or figures, scenes for a list of them. The pointer must
 * be valid for that many elements, and aligned for them; with 0 elements it may be NULL. A state has exactly
 * STRETERVA_STATE_WORDS words, a span table STRETERVA_SPAN_WORDS, and figures have exactly the number told at the
 * function. Any other number is refused with STRETERVA_WRONG_LENGTH, before all other tests, and then nothing at all is
 * touched, figures and state included.
 * A medium or a shelf that is too short is refused with 2, a piece that is not one block long with 4, a list that is
 * too long with 17. Of a shelf only the length is told, without a pointer.
 *
 * No overlap. No two buffers of one call may overlap, unless the call only reads both. Calls may run at the same time
 * if nothing that one of them writes is read or written by another: states, pieces, figures, and of a medium the bytes
 * named under "Medium" below.
 *
 * State. It is plain data that the caller keeps; the library keeps nothing between calls. The last word tells what is
 * pending and is at most 3: with a greater one the words are no state, which is refused as a wrong length is. All other
 * words may have any values, and a state that is not sound is refused with 1; what is pending makes no difference to
 * that. Format and restart do not read the state they are lent. A state belongs to one medium: lend a medium only with
 * the state that the last accepted call left for it, never with one of another medium or an older copy. The library
 * cannot tell these apart.
 *
 * Medium. One buffer: the record in bytes 0 to 511, then spot (d, b) at byte 512 + (d * rows + b) * size. Bytes beyond
 * the last disk are never touched. A call stores to one place at most, the record or one spot:
 *
 *   call         reads of the medium           writes of the medium
 *   format       nothing                       the record
 *   restart      the record                    nothing
 *   grow         nothing                       the record; grow_beyond_doubling is the same
 *   copy         the block's old spot          its new spot, on an added disk
 *   checkpoint   nothing                       the record
 *   advance      a spot of an old disk         a spot of an added disk, or (it reads nothing then) the record
 *   write        nothing                       the block's live spot, which address tells; client_write is the same
 *   read         the block's live spot         nothing; client_read is the same
 *   view         nothing                       nothing; it is told lengths alone, see "Shelves"
 *
 * A refused call reads and writes nothing of it, but restart reads the record. A caller with several threads may lock
 * these bytes instead of the whole medium, beside the state: a state that a call may change belongs to it alone for the
 * call.
 *
 * Shelves. View shows a block without copying it, out of two shelves. The first has k disks, 1 to N[t]; N[t], which is
 * counts[growths] of the state, includes the disks of a growth under way.
 *
 *   shelf    holds                         needs so many bytes                      spot (d, b) is at byte
 *   first    the record, disks 0 to k-1    streterva_medium_bytes(size, rows, k)    512 + (d * rows + b) * size
 *   second   disks k to N[t]-1             (N[t] - k) * rows * size                 ((d - k) * rows + b) * size
 *
 * So a medium that is cut after disk k-1 is two shelves. Each may have spare bytes at its end, which are never shown.
 * With k = N[t] no second shelf is needed: its length may be 0, and the first is a whole medium. View tells the shelf
 * that has the block's live spot and the byte of that shelf at which the block starts. The caller adds the byte to the
 * start of its shelf and finds one block there, as read gives it on the two shelves joined without their spare bytes.
 *
 * As long as that spot is the block's live one, the bytes there change only by a write to the block. To use them is to
 * read the live spot, so no write to the block may run at the same time. A checkpoint, or the advance that does it, may
 * record the block's copy. Then the live spot is the new one, and later writes to the block go there; the old spot
 * keeps its bytes while the growth runs, and after that an added block may be written to it. So call view again after a
 * checkpoint, after an advance that did not copy, after restart and after format.
 *
 * Growths. Power supplies allow only as many new drives as old in one growth, so streterva_grow refuses a count above
 * twice N[t] with 20. Where a rack's supply takes more new drives than old, streterva_grow_beyond_doubling begins the
 * growth: it is grow without that test, and "grow" in this comment means either. A volume that has such a step in its
 * history, finished or under way, is restarted and completed by the same calls as any other. The next streterva_grow on
 * it takes up to twice its newest count.
 *
 * Table of moves. For each growth from m disks by n more and each mark of it the table has the new disk of that moving
 * block. The whole table is in streterva_moves.h, for firmware without this library; it also says which block has which
 * mark. streterva_table_move tells one entry. It takes numbers alone, neither a state nor a medium.
 *
 * Two clients. A span table gives client 0 and client 1 a first block and a count each. The spans share no block, and
 * first plus count of each is at most STRETERVA_MOST_REACHED. Blocks are those of the volume; a span may reach past the
 * open ones, and one of 0 blocks shares none. A client's read and write are the volume's with one test more, 21, after
 * 1 and before 2. All other calls are the rack's.
 *
 * Promised is this. Take two runs with one span table, from the same medium and the same format, that keep to what
 * "Power cuts" asks. The rack's calls and one client's are the same in both, in their order, and so are the power cuts,
 * each in the same one of these calls or between calls, with the record that it leaves; none falls inside a call of the
 * other client. Directly after every write that is not cut, of either client and refused ones too, streterva_flushed is
 * called, in both runs; it is the rack's. Then the client's reads get the same numbers, and of each block of its span
 * that is set the same bytes, whatever the other client reads and writes in one run or the other. A block is set once
 * it was written, until a power cut falls inside a write of it or finds one not yet flushed.
 *
 * Not promised: the bytes of a block that is not set, which may be what its spot held before, the other's too; the
 * bytes that a cut leaves of a store, which may differ; and anything where those calls of streterva_flushed are left
 * out, since then 18 and 19 may depend on the other's writes.
 *
 * Pending stores. Drives with a write cache may keep stores and put them down in any order, so a store is pending until
 * the caller tells by streterva_flushed that all earlier stores are down. On such drives:
 *   1. Store blocks: write, copy, and advance while it copies, as many calls as wanted.
 *   2. Flush the drives: fsync, fdatasync, msync with MS_SYNC or the drive's flush command.
 *   3. Call streterva_flushed. The blocks written before are saved from now on.
 *   4. Store the record: grow, checkpoint, or the advance that finds no block left to copy.
 *   5. Flush the drives and call streterva_flushed, before the next store.
 * 18 asks for steps 2 and 3 and 19 for step 5: flush the drives, call streterva_flushed and make the refused call
 * again. If streterva_flushed is called before all earlier stores are down, a block that was told as saved may be lost
 * at a power cut, and the record may name a copy whose bytes are not down, so that a block may be read with old or torn
 * bytes. A caller whose drives keep no store (write through) calls streterva_flushed directly after every call that
 * stores.
 *
 * Power cuts. The state is lost with memory, so after a cut restart is the first call: it reads the state back from the
 * record and begins with nothing pending. Without a cut, call restart only directly after streterva_flushed. A block
 * written before the last streterva_flushed is not lost at a cut. This begins at the first streterva_flushed after
 * format and rests on two things outside the library: all stores are down when streterva_flushed is called, and of a
 * record store that is pending at the cut the drives hold the 512 bytes of the old record or of the new one, never a
 * mixture. A block written after the last streterva_flushed may hold any bytes until it is written again. With the old
 * record, the call that stored the new one was not made.
 */
#ifndef STRETERVA_H
#define STRETERVA_H

#include <stddef.h>
#include <stdint.h>

#ifdef __cplusplus
extern "C" {
#define STRETERVA_ASSERT(condition, text) static_assert(condition, text)
#else
#define STRETERVA_ASSERT(condition, text) _Static_assert(condition, text)
#endif

/* Anonymous structures are standard in C11 and an extension in C++. */
#if defined(__cplusplus) && defined(__GNUC__)
#define STRETERVA_ANONYMOUS __extension__
#else
#define STRETERVA_ANONYMOUS
#endif

/* Limits of a volume. A block size is also a multiple of STRETERVA_SIZE_STEP. */
#define STRETERVA_LEAST_DISKS 1
#define STRETERVA_MOST_DISKS 16
#define STRETERVA_MOST_GROWTHS 7
#define STRETERVA_LEAST_ROWS 1
#define STRETERVA_MOST_ROWS 1000000
#define STRETERVA_SIZE_STEP 512
#define STRETERVA_LEAST_SIZE 512
#define STRETERVA_MOST_SIZE 65536

/* Bytes of the record, at the start of the medium. */
#define STRETERVA_RECORD_BYTES 512

/* Words of a state. */
#define STRETERVA_STATE_WORDS 16

/* Words of a span table. */
#define STRETERVA_SPAN_WORDS 4

/* The most that a span's first block and count make together. */
#define STRETERVA_MOST_REACHED 16000000

/* Numbers of figures. The first is for restart, both grows, copy and checkpoint: figure 0 is the advance calls left. */
#define STRETERVA_LEFT_FIGURES 1
#define STRETERVA_ADVANCE_FIGURES 4
#define STRETERVA_VIEW_FIGURES 2
#define STRETERVA_ADDRESS_FIGURES 6
#define STRETERVA_HOLDER_FIGURES 1
#define STRETERVA_LOAD_FIGURES 17
#define STRETERVA_TABLE_MOVE_FIGURES 2

/* The most scenes in a list. */
#define STRETERVA_MOST_SCENES 65536

/* The state. Lend `words` to the functions; read it by the names. */
typedef union streterva_state {
    STRETERVA_ANONYMOUS struct {
        uint64_t size;      /* Z: bytes in a block */
        uint64_t rows;      /* s: rows on each disk */
        uint64_t growths;   /* t: number of growths, one under way included */
        uint64_t counts[8]; /* N[0] to N[7]: disk counts, 0 after N[t] */
        uint64_t growing;   /* 1 while a growth is under way, else 0 */
        uint64_t window;    /* w: windows finished of the growth under way */
        uint64_t recorded;  /* recorded marks of window w: mark j is bit j, of value 2^j */
        uint64_t copied;    /* copied marks of window w */
        uint64_t pending;   /* what is pending, a sum of enum streterva_pending; not in the record */
    };
    uint64_t words[STRETERVA_STATE_WORDS];
} streterva_state;

STRETERVA_ASSERT(sizeof(streterva_state) == 128, "a state is 16 words of 64 bits");
STRETERVA_ASSERT(offsetof(streterva_state, pending) == 120, "what is pending is the last word");
STRETERVA_ASSERT(sizeof(size_t) == 8, "the library is for x86-64 with 64-bit sizes");

/* What is pending in a state: nothing is 0, both is 3. */
enum streterva_pending {
    STRETERVA_RECORD_PENDING = 1, /* a record store */
    STRETERVA_BLOCKS_PENDING = 2  /* block stores */
};

/* A scene: `count` blocks from block `first` on. With a count of 0 it names no block, and `first` may be any number. */
typedef struct streterva_scene {
    uint64_t first;
    uint64_t count;
} streterva_scene;

STRETERVA_ASSERT(sizeof(streterva_scene) == 16, "a scene is 2 words of 64 bits");

/* A client's span: `count` blocks from block `first` on. With a count of 0 the client has no block. */
typedef struct streterva_span {
    uint64_t first;
    uint64_t count;
} streterva_span;

/* A span table. Lend `words` to the functions. */
typedef union streterva_span_table {
    streterva_span clients[2]; /* the spans of client 0 and of client 1 */
    uint64_t words[STRETERVA_SPAN_WORDS];
} streterva_span_table;

STRETERVA_ASSERT(sizeof(streterva_span_table) == 32, "a span table is 4 words of 64 bits");

/* What a function returns. 16, for a page that is too short, is the wall chart's: no function here has it. */
enum streterva_refusal {
    STRETERVA_ACCEPTED = 0,
    STRETERVA_NOT_SOUND = 1,           /* the state is not sound */
    STRETERVA_MEDIUM_TOO_SHORT = 2,    /* the medium is too short for record and disks, or a shelf for what it holds */
    STRETERVA_BLOCK_NOT_OPEN = 3,      /* the block is not open: past the end, or added by the growth under way */
    STRETERVA_PIECE_SIZE = 4,          /* the piece is not one block long */
    STRETERVA_NOT_GROWING = 5,         /* no growth is under way */
    STRETERVA_GROWING = 6,             /* a growth is under way already */
    STRETERVA_COPY_NOT_RECORDED = 7,   /* the block is copied but not recorded: checkpoint first */
    STRETERVA_OUTSIDE_LIMITS = 8,      /* a size, rows, a disk count or the first shelf's disks are outside limits */
    STRETERVA_NO_MORE_GROWTHS = 9,     /* the volume has had its 7 growths */
    STRETERVA_NOT_MOVING = 10,         /* the block does not move, or is not in window w */
    STRETERVA_ALREADY_COPIED = 11,     /* the block is copied already */
    STRETERVA_NOTHING_TO_RECORD = 12,  /* all copies are recorded */
    STRETERVA_NO_RECORD = 13,          /* bytes 0 to 511 are not the record of a sound state */
    STRETERVA_NO_SUCH_SPOT = 14,       /* the disk or the row does not exist */
    STRETERVA_NO_BLOCK_THERE = 15,     /* no open block lives at the spot */
    STRETERVA_SCENE_REFUSED = 17,      /* a scene reaches past the open blocks or stands after the first 65,536 */
    STRETERVA_FLUSH_BLOCKS = 18,       /* a record store is due, block stores are pending: flush, flushed, again */
    STRETERVA_FLUSH_RECORD = 19,       /* a record store is pending: flush, flushed, again */
    STRETERVA_BEYOND_DOUBLING = 20,    /* the growth would more than double the disks */
    STRETERVA_OUTSIDE_SPAN = 21,       /* block outside the client's span, no such client, or table breaks the rule */
    STRETERVA_WRONG_LENGTH = 100       /* wrong length of state, table or figures, last word above 3: nothing touched */
};

/* Places of the figures of advance. */
enum streterva_advance_figure {
    STRETERVA_ADVANCE_LEFT = 0,  /* advance calls left */
    STRETERVA_ADVANCE_DID = 1,   /* what it did, an enum streterva_did */
    STRETERVA_ADVANCE_BLOCK = 2, /* the block copied, else 0 */
    STRETERVA_ADVANCE_PART = 3   /* its part, an enum streterva_part; 0 when none was copied */
};

/* What advance did. */
enum streterva_did {
    STRETERVA_COPIED = 1,   /* copied a block */
    STRETERVA_RECORDED = 2, /* made a checkpoint */
    STRETERVA_FINISHED = 3  /* made the checkpoint that ended the growth */
};

/* Places of the figures of view. */
enum streterva_view_figure {
    STRETERVA_VIEW_SHELF = 0, /* the shelf that has the block, an enum streterva_shelf */
    STRETERVA_VIEW_BYTE = 1   /* the byte of that shelf at which the block starts */
};

/* The two shelves. */
enum streterva_shelf { STRETERVA_FIRST_SHELF = 1, STRETERVA_SECOND_SHELF = 2 };

/* Places of the figures of address. */
enum streterva_address_figure {
    STRETERVA_ADDRESS_DISK = 0,
    STRETERVA_ADDRESS_ROW = 1,
    STRETERVA_ADDRESS_WHY = 2,    /* an enum streterva_why */
    STRETERVA_ADDRESS_GROWTH = 3, /* the growth that put the block there, 1 to t; 0 for format */
    STRETERVA_ADDRESS_PART = 4,   /* an enum streterva_part when moved, else 0 */
    STRETERVA_ADDRESS_MOVES = 5   /* by how many growths the block was moved, 0 to t */
};

/* Why a block is where it is. */
enum streterva_why {
    STRETERVA_SET_OUT = 1, /* set out at format */
    STRETERVA_ADDED = 2,   /* added by a growth */
    STRETERVA_MOVED = 3    /* moved by a growth */
};

/* The part of its window that a moved block is in. */
enum streterva_part { STRETERVA_HEAD = 1, STRETERVA_BODY = 2, STRETERVA_TAIL = 3 };

/* Places of the figures of load. */
enum streterva_load_figure {
    STRETERVA_LOAD_PLACE = 0, /* refused with 17: the place of the first such scene, counted from 0; else 0 */
    STRETERVA_LOAD_SERVED = 1 /* at STRETERVA_LOAD_SERVED + d: the blocks that disk d serves, 0 if there is none */
};

/* Places of the figures of table move. */
enum streterva_table_move_figure {
    STRETERVA_TABLE_MOVE_OFFSET = 0, /* the offset of the entry in the table, counted from 0 */
    STRETERVA_TABLE_MOVE_DISK = 1    /* the entry, which is the new disk: 1 to 15; 0 where there is no such mark */
};

/*
 * The bytes that a medium needs for this block size, these rows and this number of disks. Within the limits it is far
 * from the largest number; outside them it is the largest number, UINT64_MAX, where it would be more than that.
 */
static inline uint64_t streterva_medium_bytes(uint64_t size, uint64_t rows, uint64_t disks)
{
    const uint64_t most = UINT64_MAX - STRETERVA_RECORD_BYTES;
    if (size == 0 || rows == 0 || disks == 0)
        return STRETERVA_RECORD_BYTES;
    if (rows > most / disks || size > most / (disks * rows))
        return UINT64_MAX;
    return STRETERVA_RECORD_BYTES + disks * rows * size;
}

/*
 * Format: begins a volume with blocks of `size` bytes, `rows` rows on each disk and `disks` disks. Stores the record,
 * which is then pending; the blocks hold what the medium held. The words of `state` before the call do not matter.
 * Refuses: 8, size, rows or disks outside the limits; 2.
 * Refused, it sets the state to zeros.
 */
uint64_t streterva_format(uint64_t *state, size_t state_words, uint8_t *medium, size_t medium_bytes, uint64_t size,
                          uint64_t rows, uint64_t disks);

/*
 * Restart: reads the state back from the record, with the copied marks equal to the recorded ones and nothing pending.
 * Stores nothing. The words of `state` before the call do not matter.
 * Refuses: 2, below 512 bytes; 13, no record of a sound state; 2, too short for the disks of the record.
 * Figures (1): advance calls left, 0 when no growth is under way.
 * Refused, it sets the state to zeros.
 */
uint64_t streterva_restart(uint64_t *state, size_t state_words, const uint8_t *medium, size_t medium_bytes,
                           uint64_t *figures, size_t figures_words);

/*
 * Grow: begins a growth to `count` disks. Stores the record. The added blocks open when the growth is finished.
 * Refuses: 1; 6; 9; 8, count not above the present one or above 16; 20, count above twice the present one; 2, too short
 * for `count` disks; 19; 18.
 * Figures (1): advance calls left.
 * Refused, it leaves the state as it was.
 */
uint64_t streterva_grow(uint64_t *state, size_t state_words, uint8_t *medium, size_t medium_bytes, uint64_t count,
                        uint64_t *figures, size_t figures_words);

/*
 * Grow beyond doubling: grow without 20, for a rack whose power supply takes more new drives than old in one growth;
 * see "Growths". With a count up to twice the present one it does what grow does.
 * Refuses: 1; 6; 9; 8, count not above the present one or above 16; 2, too short for `count` disks; 19; 18.
 * Figures (1): advance calls left.
 * Refused, it leaves the state as it was.
 */
uint64_t streterva_grow_beyond_doubling(uint64_t *state, size_t state_words, uint8_t *medium, size_t medium_bytes,
                                        uint64_t count, uint64_t *figures, size_t figures_words);

/*
 * Copy: stores a moving block of window w at its new spot too and sets its copied mark. The block is read at its old
 * spot, and cannot be written, until a checkpoint records the copy.
 * Refuses: 1; 2; 5; 3; 10; 11; 19.
 * Figures (1): advance calls left.
 * Refused, it leaves the state as it was.
 */
uint64_t streterva_copy(uint64_t *state, size_t state_words, uint8_t *medium, size_t medium_bytes, uint64_t block,
                        uint64_t *figures, size_t figures_words);

/*
 * Checkpoint: stores the record with every copied block recorded; these are then read and written at their new spots.
 * When all moving blocks of window w are recorded, that same store goes on to the next window or, after the last, ends
 * the growth.
 * Refuses: 1; 2; 5; 12; 19; 18.
 * Figures (1): advance calls left, 0 when the growth is ended.
 * Refused, it leaves the state as it was.
 */
uint64_t streterva_checkpoint(uint64_t *state, size_t state_words, uint8_t *medium, size_t medium_bytes,
                              uint64_t *figures, size_t figures_words);

/*
 * Advance: takes the growth one step. It copies the block with the lowest mark of window w that is not copied or, when
 * all are, does the checkpoint. Flushed and refused calls in between change nothing in the number of calls left.
 * Refuses: 1; 2; 5; 19; 18, only where it would do the checkpoint.
 * Figures (4): enum streterva_advance_figure.
 * Refused, it leaves the state as it was.
 */
uint64_t streterva_advance(uint64_t *state, size_t state_words, uint8_t *medium, size_t medium_bytes, uint64_t *figures,
                           size_t figures_words);

/*
 * Write: stores the piece, one block long, as the block. In the state it changes only what is pending.
 * Refuses: 1; 2; 3; 4; 7, accepted after a checkpoint; 19.
 * Refused, it leaves the state and the medium as they were.
 */
uint64_t streterva_write(uint64_t *state, size_t state_words, uint8_t *medium, size_t medium_bytes, uint64_t block,
                         const uint8_t *piece, size_t piece_bytes);

/*
 * Flushed: tells that all earlier stores are down; nothing is pending then. Stores nothing.
 * Refuses: 1.
 * Refused, it leaves the state as it was.
 */
uint64_t streterva_flushed(uint64_t *state, size_t state_words);

/*
 * Read: fills the piece, one block long, with the block.
 * Refuses: 1; 2; 3; 4.
 * Refused, it leaves the piece as it was. The state and the medium never change.
 */
uint64_t streterva_read(const uint64_t *state, size_t state_words, const uint8_t *medium, size_t medium_bytes,
                        uint64_t block, uint8_t *piece, size_t piece_bytes);

/*
 * View: tells where the block starts on two shelves that have `first_bytes` and `second_bytes` bytes, with k =
 * `first_disks` disks on the first: see "Shelves". What is pending makes no difference. The state never changes.
 * Refuses: 1; 8, first_disks not from 1 to N[t]; 2, the first shelf or the second is too short; 3.
 * Figures (2): enum streterva_view_figure.
 */
uint64_t streterva_view(const uint64_t *state, size_t state_words, size_t first_bytes, size_t second_bytes,
                        uint64_t first_disks, uint64_t block, uint64_t *figures, size_t figures_words);

/*
 * Address: tells the live spot of the block, where it is read and written now, why it is there, and by how many growths
 * the block was moved. Only growths in the history count, and the one under way only once the block's copy is recorded
 * and the live spot is the new one. Format and the growth that added the block are no moves. A growth counts once, also
 * where it had to copy the block again after a power cut.
 * Refuses: 1; 3.
 * Figures (6): enum streterva_address_figure.
 */
uint64_t streterva_address(const uint64_t *state, size_t state_words, uint64_t block, uint64_t *figures,
                           size_t figures_words);

/*
 * Holder: tells which block lives at the spot. With no growth under way every spot has one.
 * Refuses: 1; 14; 15.
 * Figures (1): the block.
 */
uint64_t streterva_holder(const uint64_t *state, size_t state_words, uint64_t disk, uint64_t row, uint64_t *figures,
                          size_t figures_words);

/*
 * Load: tells how many of the blocks that the scenes name each disk serves, by their live spots. A block named by two
 * scenes counts twice. The state and the scenes never change.
 * Refuses: 1; 17, a scene reaches past the open blocks or stands after the first 65,536 (there with 0 blocks too).
 * Figures (17): enum streterva_load_figure.
 */
uint64_t streterva_load(const uint64_t *state, size_t state_words, const streterva_scene *scenes, size_t scenes_count,
                        uint64_t *figures, size_t figures_words);

/*
 * Table move: tells the entry of the table of moves for `mark` of the growth from m disks by n more; see "Table of
 * moves". The arguments may be any numbers. Where there is no such mark both figures are 0: m or n is 0, m + n is above
 * 16 (also where the sum needs more than 64 bits), or mark is not below m * n.
 * Refuses: nothing but a wrong length of the figures.
 * Figures (2): enum streterva_table_move_figure.
 */
uint64_t streterva_table_move(uint64_t m, uint64_t n, uint64_t mark, uint64_t *figures, size_t figures_words);

/*
 * Spans: tests a span table that the caller has filled in. It takes no state. The client calls test the table too.
 * Refuses: 21, the spans share a block, or first plus count of one is above STRETERVA_MOST_REACHED.
 * Refused, it sets the table to zeros: two spans of no block.
 */
uint64_t streterva_spans(uint64_t *spans, size_t spans_words);

/*
 * Client read: read through the span of `client`, 0 or 1.
 * Refuses: 1; 21, the block is outside the client's span, the client is neither 0 nor 1, or the table breaks the rule
 * on spans; 2; 3; 4.
 * Refused, it leaves the piece as it was. The table, the state and the medium never change.
 */
uint64_t streterva_client_read(const uint64_t *spans, size_t spans_words, uint64_t client, const uint64_t *state,
                               size_t state_words, const uint8_t *medium, size_t medium_bytes, uint64_t block,
                               uint8_t *piece, size_t piece_bytes);

/*
 * Client write: write through the span of `client`, 0 or 1.
 * Refuses: 1; 21, as client read; 2; 3; 4; 7, accepted after a checkpoint; 19.
 * Refused, it leaves the state and the medium as they were. The table never changes.
 */
uint64_t streterva_client_write(const uint64_t *spans, size_t spans_words, uint64_t client, uint64_t *state,
                                size_t state_words, uint8_t *medium, size_t medium_bytes, uint64_t block,
                                const uint8_t *piece, size_t piece_bytes);

/* Soundness: 0 when the state is sound, 1 when it is not, 100 when it has not 16 words or the last is above 3. */
uint64_t streterva_soundness(const uint64_t *state, size_t state_words);

#undef STRETERVA_ASSERT
#undef STRETERVA_ANONYMOUS

#ifdef __cplusplus
}
#endif

#endif
