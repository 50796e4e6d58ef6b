/*
 * One show on a volume in plain memory, called as for drives with a write cache: pictures are saved, the volume grows
 * from 3 disks to 5 while it is read and written, the power fails in the middle of a store, and at the end every
 * picture is read back and compared, and two are shown straight from the medium. Exits with 1 at the first difference.
 */
#include "streterva.h"

#include <stdio.h>
#include <stdlib.h>
#include <string.h>

enum { SIZE = 1024, ROWS = 12, OLD_DISKS = 3, NEW_DISKS = 5 };
enum { OLD_BLOCKS = OLD_DISKS * ROWS, NEW_BLOCKS = NEW_DISKS * ROWS };

static streterva_state state;
static uint8_t *medium;
static size_t medium_bytes;
static unsigned saves[NEW_BLOCKS]; /* how often each block was saved; the picture depends on it */
static unsigned checkpoints;       /* made because a save was refused with 7 */
static unsigned waits;             /* calls made again after 18 or 19 */

static void fail(const char *what, uint64_t got, uint64_t wanted)
{
    printf("%s: %llu, expected %llu\n", what, (unsigned long long)got, (unsigned long long)wanted);
    exit(1);
}

static void expect(const char *what, uint64_t got, uint64_t wanted)
{
    if (got != wanted)
        fail(what, got, wanted);
}

/* The picture of a block after so many saves. */
static void draw(uint8_t *piece, uint64_t block, unsigned save)
{
    for (size_t i = 0; i < SIZE; i++)
        piece[i] = (uint8_t)(block * 7 + save * 101 + i * (block + save + 1) / 3);
}

/* Waits until all stores are down: on drives fsync, fdatasync, msync or the flush command. Memory has no cache. */
static void flush_drives(void)
{
}

/* Flushes the drives and then tells the library. The blocks written before are saved. */
static void flush(void)
{
    flush_drives();
    expect("flushed", streterva_flushed(state.words, STRETERVA_STATE_WORDS), STRETERVA_ACCEPTED);
    expect("what is pending", state.pending, 0);
}

/* After 18 or 19: flushes, and the call is to be made again. */
static int flushed_for(uint64_t answer)
{
    if (answer != STRETERVA_FLUSH_BLOCKS && answer != STRETERVA_FLUSH_RECORD)
        return 0;
    flush();
    waits++;
    return 1;
}

/* A checkpoint between two flushes: copies are down before the record names them, the record before the next store. */
static void checkpoint(void)
{
    uint64_t left[STRETERVA_LEFT_FIGURES];
    flush();
    expect("checkpoint",
           streterva_checkpoint(state.words, STRETERVA_STATE_WORDS, medium, medium_bytes, left, STRETERVA_LEFT_FIGURES),
           STRETERVA_ACCEPTED);
    flush();
    checkpoints++;
}

/*
 * Writes the next picture of a block; it is saved at the next flush. A block that is copied but not recorded is written
 * after a checkpoint.
 */
static void save(uint64_t block)
{
    uint8_t piece[SIZE];
    draw(piece, block, saves[block] + 1);
    uint64_t answer = streterva_write(state.words, STRETERVA_STATE_WORDS, medium, medium_bytes, block, piece, SIZE);
    if (answer == STRETERVA_COPY_NOT_RECORDED)
        checkpoint();
    if (answer == STRETERVA_COPY_NOT_RECORDED || flushed_for(answer))
        answer = streterva_write(state.words, STRETERVA_STATE_WORDS, medium, medium_bytes, block, piece, SIZE);
    expect("write", answer, STRETERVA_ACCEPTED);
    saves[block]++;
}

/* Compares one block of bytes with the last picture of a saved block. */
static void compare(const uint8_t *bytes, uint64_t block)
{
    uint8_t wanted[SIZE];
    draw(wanted, block, saves[block]);
    for (size_t i = 0; i < SIZE; i++)
        expect("a byte of a picture", bytes[i], wanted[i]);
}

/* Reads a saved block and compares it with its last picture. */
static void check(uint64_t block)
{
    uint8_t piece[SIZE];
    expect("read", streterva_read(state.words, STRETERVA_STATE_WORDS, medium, medium_bytes, block, piece, SIZE),
           STRETERVA_ACCEPTED);
    compare(piece, block);
}

static void check_all(uint64_t blocks)
{
    for (uint64_t block = 0; block < blocks; block++)
        check(block);
}

/* One step of the growth. Returns the advance calls left after it; one refused with 18 or 19 does not count. */
static uint64_t advance(uint64_t *figures)
{
    uint64_t answer;
    do
        answer = streterva_advance(state.words, STRETERVA_STATE_WORDS, medium, medium_bytes, figures,
                                   STRETERVA_ADVANCE_FIGURES);
    while (flushed_for(answer));
    expect("advance", answer, STRETERVA_ACCEPTED);
    return figures[STRETERVA_ADVANCE_LEFT];
}

/* Start-up after a cut or a flush: nothing in memory but what restart reads from the record. Returns the calls left. */
static uint64_t restart(void)
{
    uint64_t left[STRETERVA_LEFT_FIGURES];
    memset(&state, 0xFF, sizeof state);
    expect("restart",
           streterva_restart(state.words, STRETERVA_STATE_WORDS, medium, medium_bytes, left, STRETERVA_LEFT_FIGURES),
           STRETERVA_ACCEPTED);
    return left[0];
}

/*
 * The power fails within the store of a copy: one half of the spot has the new bytes, the other half has any. All
 * pictures are flushed before, so none is lost.
 */
static uint64_t cut_in_copy(void)
{
    uint64_t figures[STRETERVA_ADVANCE_FIGURES];
    flush();
    uint8_t *before = malloc(medium_bytes);
    if (before == NULL)
        fail("memory", 0, medium_bytes);
    memcpy(before, medium, medium_bytes);
    advance(figures);
    expect("the step that is cut", figures[STRETERVA_ADVANCE_DID], STRETERVA_COPIED);
    size_t first = 0;
    while (first < medium_bytes && medium[first] == before[first])
        first++;
    free(before);
    if (first < STRETERVA_RECORD_BYTES || first == medium_bytes)
        fail("the first byte stored", first, STRETERVA_RECORD_BYTES);
    size_t spot = first - (first - STRETERVA_RECORD_BYTES) % SIZE;
    memset(medium + spot + SIZE / 2, 0xEE, SIZE / 2);
    return figures[STRETERVA_ADVANCE_BLOCK];
}

static void address(uint64_t block, uint64_t *at)
{
    expect("address", streterva_address(state.words, STRETERVA_STATE_WORDS, block, at, STRETERVA_ADDRESS_FIGURES),
           STRETERVA_ACCEPTED);
}

static void tell(uint64_t block)
{
    static const char *const parts[] = {"", ", head", ", body", ", tail"};
    static const char *const whys[] = {"", "set out at format", "added by growth", "moved by growth"};
    uint64_t at[STRETERVA_ADDRESS_FIGURES];
    address(block, at);
    printf("block %llu: disk %llu, row %llu, %s", (unsigned long long)block,
           (unsigned long long)at[STRETERVA_ADDRESS_DISK], (unsigned long long)at[STRETERVA_ADDRESS_ROW],
           whys[at[STRETERVA_ADDRESS_WHY]]);
    if (at[STRETERVA_ADDRESS_GROWTH] > 0)
        printf(" %llu%s", (unsigned long long)at[STRETERVA_ADDRESS_GROWTH], parts[at[STRETERVA_ADDRESS_PART]]);
    printf("\n");
}

/*
 * Shows a saved block where it is, without reading it into a piece. The medium is cut into two shelves: the record and
 * the old disks, and the added disks.
 */
static void show(uint64_t block)
{
    const size_t first_bytes = (size_t)streterva_medium_bytes(SIZE, ROWS, OLD_DISKS);
    const uint8_t *const shelves[] = {NULL, medium, medium + first_bytes};
    uint64_t found[STRETERVA_VIEW_FIGURES];
    expect("view",
           streterva_view(state.words, STRETERVA_STATE_WORDS, first_bytes, medium_bytes - first_bytes, OLD_DISKS, block,
                          found, STRETERVA_VIEW_FIGURES),
           STRETERVA_ACCEPTED);
    compare(shelves[found[STRETERVA_VIEW_SHELF]] + found[STRETERVA_VIEW_BYTE], block);
    printf("block %llu: shown without a copy, from byte %llu of shelf %llu\n", (unsigned long long)block,
           (unsigned long long)found[STRETERVA_VIEW_BYTE], (unsigned long long)found[STRETERVA_VIEW_SHELF]);
}

/* The holder of each block's spot is the block. */
static void check_holders(void)
{
    for (uint64_t block = 0; block < NEW_BLOCKS; block++) {
        uint64_t at[STRETERVA_ADDRESS_FIGURES], holder[STRETERVA_HOLDER_FIGURES];
        address(block, at);
        expect("holder",
               streterva_holder(state.words, STRETERVA_STATE_WORDS, at[STRETERVA_ADDRESS_DISK],
                                at[STRETERVA_ADDRESS_ROW], holder, STRETERVA_HOLDER_FIGURES),
               STRETERVA_ACCEPTED);
        expect("the holder of a block's spot", holder[0], block);
    }
    printf("address and holder agree on blocks 0 to %d\n", NEW_BLOCKS - 1);
}

/* How many blocks of three scenes each disk serves, counted once more block by block. */
static void tell_load(void)
{
    static const streterva_scene scenes[] = {{0, 20}, {15, 10}, {UINT64_MAX, 0}};
    enum { SCENES = sizeof scenes / sizeof scenes[0] };
    uint64_t load[STRETERVA_LOAD_FIGURES], counted[STRETERVA_MOST_DISKS] = {0};
    expect("load",
           streterva_load(state.words, STRETERVA_STATE_WORDS, scenes, SCENES, load, STRETERVA_LOAD_FIGURES),
           STRETERVA_ACCEPTED);
    for (size_t i = 0; i < SCENES; i++)
        for (uint64_t j = 0; j < scenes[i].count; j++) {
            uint64_t at[STRETERVA_ADDRESS_FIGURES];
            address(scenes[i].first + j, at);
            counted[at[STRETERVA_ADDRESS_DISK]]++;
        }
    printf("load of blocks 0 to 19, blocks 15 to 24 and no blocks:");
    for (size_t disk = 0; disk < STRETERVA_MOST_DISKS; disk++) {
        expect("a disk's number", load[STRETERVA_LOAD_SERVED + disk], counted[disk]);
        if (disk < NEW_DISKS)
            printf(" %llu", (unsigned long long)load[STRETERVA_LOAD_SERVED + disk]);
    }
    printf("\n");
}

/* How many blocks were moved, and how many stayed or were added. Copies made again after the power cut do not count. */
static void tell_moves(void)
{
    unsigned blocks[STRETERVA_MOST_GROWTHS + 1] = {0};
    for (uint64_t block = 0; block < NEW_BLOCKS; block++) {
        uint64_t at[STRETERVA_ADDRESS_FIGURES];
        address(block, at);
        blocks[at[STRETERVA_ADDRESS_MOVES]]++;
    }
    printf("moved: %u blocks once, %u blocks never\n", blocks[1], blocks[0]);
}

/* Where blocks are and why, without a growth under way. */
static void look_up(void)
{
    tell(0);
    tell(1);
    tell(4);
    tell(OLD_BLOCKS);
    show(1);
    show(4);
    check_holders();
    tell_load();
    tell_moves();
}

/*
 * Begins the growth. To more than twice the disks it is refused with 20, and with pictures written and not flushed with
 * 18. Returns the advance calls left.
 */
static uint64_t grow(void)
{
    uint64_t left[STRETERVA_LEFT_FIGURES];
    expect("grow to more than twice the disks",
           streterva_grow(state.words, STRETERVA_STATE_WORDS, medium, medium_bytes, 2 * OLD_DISKS + 1, left,
                          STRETERVA_LEFT_FIGURES),
           STRETERVA_BEYOND_DOUBLING);
    printf("grow to %d disks: refused with %d, more new drives than old\n", 2 * OLD_DISKS + 1,
           STRETERVA_BEYOND_DOUBLING);
    expect("grow before a flush",
           streterva_grow(state.words, STRETERVA_STATE_WORDS, medium, medium_bytes, NEW_DISKS, left,
                          STRETERVA_LEFT_FIGURES),
           STRETERVA_FLUSH_BLOCKS);
    printf("grow: refused with %d, the saves are not down\n", STRETERVA_FLUSH_BLOCKS);
    flush();
    expect("grow",
           streterva_grow(state.words, STRETERVA_STATE_WORDS, medium, medium_bytes, NEW_DISKS, left,
                          STRETERVA_LEFT_FIGURES),
           STRETERVA_ACCEPTED);
    flush();
    return left[0];
}

/* The power fails in a copy, and all saved pictures are there after it. */
static void cut_and_restart(void)
{
    uint64_t block = cut_in_copy();
    uint64_t left = restart();
    check_all(OLD_BLOCKS);
    printf("power cut while block %llu was copied: restarted, %llu advance calls left, blocks 0 to %d are right\n",
           (unsigned long long)block, (unsigned long long)left, OLD_BLOCKS - 1);
}

/* The whole growth, with saves and reads all along. */
static void grow_in_use(void)
{
    uint64_t left = grow();
    printf("growing: %d disks to %d, %llu advance calls left\n", OLD_DISKS, NEW_DISKS, (unsigned long long)left);

    uint64_t figures[STRETERVA_ADVANCE_FIGURES];
    for (unsigned step = 1; state.growing == 1; step++) {
        if (step == 10)
            cut_and_restart();
        advance(figures);
        check_all(OLD_BLOCKS);
        if (figures[STRETERVA_ADVANCE_DID] == STRETERVA_COPIED && step % 4 == 0)
            save(figures[STRETERVA_ADVANCE_BLOCK]); /* copied a moment ago, so the write is refused with 7 */
        save(step * 5 % OLD_BLOCKS);
    }
    expect("calls left at the end", figures[STRETERVA_ADVANCE_LEFT], 0);
    expect("the last step", figures[STRETERVA_ADVANCE_DID], STRETERVA_FINISHED);
    printf("finished: saved and read all along, %u saves waited for a checkpoint, %u calls for a flush\n", checkpoints,
           waits);
    check_all(OLD_BLOCKS);
}

/* The first write after format is refused with 19, as format's record is pending. */
static void write_too_early(void)
{
    uint8_t piece[SIZE] = {0};
    expect("write before a flush",
           streterva_write(state.words, STRETERVA_STATE_WORDS, medium, medium_bytes, 0, piece, SIZE),
           STRETERVA_FLUSH_RECORD);
    printf("write: refused with %d, the record is not down\n", STRETERVA_FLUSH_RECORD);
    flush();
}

int main(void)
{
    medium_bytes = (size_t)streterva_medium_bytes(SIZE, ROWS, NEW_DISKS);
    medium = malloc(medium_bytes);
    if (medium == NULL)
        fail("memory", 0, medium_bytes);
    memset(medium, 0x55, medium_bytes);

    expect("format", streterva_format(state.words, STRETERVA_STATE_WORDS, medium, medium_bytes, SIZE, ROWS, OLD_DISKS),
           STRETERVA_ACCEPTED);
    printf("formatted: %d disks of %d rows, blocks of %d bytes\n", OLD_DISKS, ROWS, SIZE);
    write_too_early();
    for (uint64_t block = 0; block < OLD_BLOCKS; block++)
        save(block);
    check_all(OLD_BLOCKS);
    printf("written: blocks 0 to %d\n", OLD_BLOCKS - 1);

    grow_in_use();

    for (uint64_t block = OLD_BLOCKS; block < NEW_BLOCKS; block++)
        save(block);
    flush();
    check_all(NEW_BLOCKS);
    printf("saved: blocks %d to %d, on the added space\n", OLD_BLOCKS, NEW_BLOCKS - 1);

    expect("calls left at start-up", restart(), 0);
    check_all(NEW_BLOCKS);
    printf("restarted: blocks 0 to %d are right\n", NEW_BLOCKS - 1);

    look_up();
    free(medium);
    return 0;
}
