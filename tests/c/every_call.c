/*
 * Calls every function of the header from C, accepted and refused. The medium's pages are closed to the process but for
 * those that the header says a call reads or writes, so a call that touches another byte ends the test with a signal.
 * Blocks are one page long and the record is the end of the page before them, so that each spot is a page.
 * Exits with 1 at the first difference.
 */
#define _DEFAULT_SOURCE
#include "streterva.h"
#include "streterva_moves.h"

#include <stdio.h>
#include <stdlib.h>
#include <string.h>
#include <sys/mman.h>
#include <unistd.h>

enum { SIZE = 4096, ROWS = 5, OLD_DISKS = 3, NEW_DISKS = 5, SPARE = 2, PAGES = 1 + NEW_DISKS * ROWS + SPARE };
enum { MOVING = 6 };     /* blocks that the growth moves */
enum { MOVING_FAR = 4 }; /* blocks that the growth from one disk moves */

static streterva_state state;
static uint8_t *pages;  /* the record's page, then a page for each spot, then spare ones */
static uint8_t *medium; /* from the record on */
static const size_t medium_bytes = STRETERVA_RECORD_BYTES + (size_t)(PAGES - 1) * SIZE;
static uint64_t figures[STRETERVA_LOAD_FIGURES];
static uint8_t piece[SIZE];
static unsigned calls;

static void expect(const char *what, uint64_t got, uint64_t wanted)
{
    calls++;
    if (got == wanted)
        return;
    printf("%s: %llu, expected %llu\n", what, (unsigned long long)got, (unsigned long long)wanted);
    exit(1);
}

static void protect(size_t page, size_t count, int allowed)
{
    if (mprotect(pages + page * SIZE, count * SIZE, allowed) != 0) {
        perror("mprotect");
        exit(1);
    }
}

/* ---- which pages a call may touch */

static void close_all(void)
{
    protect(0, PAGES, PROT_NONE);
}

static void open_record(int allowed)
{
    close_all();
    protect(0, 1, allowed);
}

static size_t page_of(uint64_t disk, uint64_t row)
{
    return 1 + (size_t)(disk * ROWS + row);
}

/* Address touches no medium at all. */
static void address(uint64_t block, uint64_t *at)
{
    expect("address", streterva_address(state.words, STRETERVA_STATE_WORDS, block, at, STRETERVA_ADDRESS_FIGURES), 0);
}

static size_t live_page(uint64_t block)
{
    uint64_t at[STRETERVA_ADDRESS_FIGURES];
    address(block, at);
    return page_of(at[STRETERVA_ADDRESS_DISK], at[STRETERVA_ADDRESS_ROW]);
}

static void open_live(uint64_t block, int allowed)
{
    close_all();
    protect(live_page(block), 1, allowed);
}

static uint64_t disk_count(void)
{
    return state.counts[state.growths];
}

static uint64_t open_blocks(void)
{
    return state.counts[state.growths - state.growing] * ROWS;
}

/* A copy: so many pages to be read, and the added disks to be written. */
static void open_copy(size_t page, size_t count)
{
    const size_t old_pages = (size_t)open_blocks(), all_pages = (size_t)disk_count() * ROWS;
    close_all();
    protect(page, count, PROT_READ);
    protect(page_of(0, 0) + old_pages, all_pages - old_pages, PROT_READ | PROT_WRITE);
}

/* ---- the calls */

static uint64_t format(size_t bytes, uint64_t size, uint64_t disks)
{
    return streterva_format(state.words, STRETERVA_STATE_WORDS, medium, bytes, size, ROWS, disks);
}

static uint64_t restart(size_t bytes)
{
    return streterva_restart(state.words, STRETERVA_STATE_WORDS, medium, bytes, figures, STRETERVA_LEFT_FIGURES);
}

static uint64_t grow(size_t bytes, uint64_t count)
{
    return streterva_grow(state.words, STRETERVA_STATE_WORDS, medium, bytes, count, figures, STRETERVA_LEFT_FIGURES);
}

static uint64_t grow_beyond_doubling(size_t bytes, uint64_t count)
{
    return streterva_grow_beyond_doubling(state.words, STRETERVA_STATE_WORDS, medium, bytes, count, figures,
                                          STRETERVA_LEFT_FIGURES);
}

static uint64_t copy(size_t bytes, uint64_t block)
{
    return streterva_copy(state.words, STRETERVA_STATE_WORDS, medium, bytes, block, figures, STRETERVA_LEFT_FIGURES);
}

static uint64_t checkpoint(size_t bytes)
{
    return streterva_checkpoint(state.words, STRETERVA_STATE_WORDS, medium, bytes, figures, STRETERVA_LEFT_FIGURES);
}

static uint64_t advance(size_t bytes)
{
    return streterva_advance(state.words, STRETERVA_STATE_WORDS, medium, bytes, figures, STRETERVA_ADVANCE_FIGURES);
}

static uint64_t write_block(size_t bytes, uint64_t block, size_t piece_bytes)
{
    return streterva_write(state.words, STRETERVA_STATE_WORDS, medium, bytes, block, piece, piece_bytes);
}

static uint64_t read_block(size_t bytes, uint64_t block, size_t piece_bytes)
{
    return streterva_read(state.words, STRETERVA_STATE_WORDS, medium, bytes, block, piece, piece_bytes);
}

static uint64_t view(size_t first_bytes, size_t second_bytes, uint64_t first_disks, uint64_t block)
{
    return streterva_view(state.words, STRETERVA_STATE_WORDS, first_bytes, second_bytes, first_disks, block, figures,
                          STRETERVA_VIEW_FIGURES);
}

static uint64_t holder(uint64_t disk, uint64_t row)
{
    return streterva_holder(state.words, STRETERVA_STATE_WORDS, disk, row, figures, STRETERVA_HOLDER_FIGURES);
}

static uint64_t load(uint64_t first, uint64_t count)
{
    const streterva_scene scene = {first, count};
    return streterva_load(state.words, STRETERVA_STATE_WORDS, &scene, 1, figures, STRETERVA_LOAD_FIGURES);
}

static streterva_span_table spans;

static uint64_t client_write(uint64_t client, size_t bytes, uint64_t block, size_t piece_bytes)
{
    return streterva_client_write(spans.words, STRETERVA_SPAN_WORDS, client, state.words, STRETERVA_STATE_WORDS, medium,
                                  bytes, block, piece, piece_bytes);
}

static uint64_t client_read(uint64_t client, size_t bytes, uint64_t block, size_t piece_bytes)
{
    return streterva_client_read(spans.words, STRETERVA_SPAN_WORDS, client, state.words, STRETERVA_STATE_WORDS, medium,
                                 bytes, block, piece, piece_bytes);
}

static void flushed(void)
{
    expect("flushed", streterva_flushed(state.words, STRETERVA_STATE_WORDS), 0);
}

/* ---- what is tested */

/* A call with state or figures of another length: 100, and neither of them nor the medium is touched. */
static void wrong_lengths(void)
{
    const streterva_state kept = state;
    uint64_t *words = state.words;
    const size_t n = STRETERVA_STATE_WORDS, wrong = STRETERVA_WRONG_LENGTH;
    close_all();
    memset(figures, 0x77, sizeof figures);
    expect("format", streterva_format(words, n - 1, medium, medium_bytes, SIZE, ROWS, OLD_DISKS), wrong);
    expect("restart", streterva_restart(words, n, medium, medium_bytes, figures, 0), wrong);
    expect("grow", streterva_grow(words, n + 1, medium, medium_bytes, NEW_DISKS, figures, 1), wrong);
    expect("grow", streterva_grow(words, n, medium, medium_bytes, 2 * OLD_DISKS + 1, figures, 0), wrong);
    expect("grow_beyond_doubling",
           streterva_grow_beyond_doubling(words, n - 1, medium, medium_bytes, NEW_DISKS, figures, 1), wrong);
    expect("grow_beyond_doubling",
           streterva_grow_beyond_doubling(words, n, medium, medium_bytes, NEW_DISKS, figures, 2), wrong);
    expect("copy", streterva_copy(words, n, medium, medium_bytes, 0, figures, 2), wrong);
    expect("checkpoint", streterva_checkpoint(words, 0, medium, medium_bytes, figures, 1), wrong);
    expect("advance", streterva_advance(words, n, medium, medium_bytes, figures, 1), wrong);
    expect("write", streterva_write(words, 1, medium, medium_bytes, 0, piece, SIZE), wrong);
    expect("read", streterva_read(words, 1, medium, medium_bytes, 0, piece, SIZE), wrong);
    expect("view", streterva_view(words, n - 1, medium_bytes, 0, OLD_DISKS, 0, figures, 2), wrong);
    expect("view", streterva_view(words, n, medium_bytes, 0, OLD_DISKS, 0, figures, 1), wrong);
    expect("view", streterva_view(words, n, medium_bytes, 0, OLD_DISKS, 0, figures, 3), wrong);
    expect("address", streterva_address(words, n, 0, figures, 5), wrong);
    expect("address", streterva_address(words, n, 0, figures, 7), wrong);
    expect("holder", streterva_holder(words, n, 0, 0, figures, 2), wrong);
    expect("load", streterva_load(words, n, NULL, 0, figures, 16), wrong);
    expect("flushed", streterva_flushed(words, n - 1), wrong);
    expect("soundness", streterva_soundness(words, n - 1), wrong);
    expect("the state", (uint64_t)memcmp(&kept, &state, sizeof kept), 0);
    for (size_t i = 0; i < STRETERVA_LOAD_FIGURES; i++)
        expect("a figure", figures[i], UINT64_C(0x7777777777777777));
}

/* Nothing to point at: a pointer may be NULL where its length is 0. */
static void null_pointers(void)
{
    const streterva_state kept = state;
    uint64_t *words = state.words;
    const size_t n = STRETERVA_STATE_WORDS;
    uint64_t none[STRETERVA_STATE_WORDS];
    expect("soundness", streterva_soundness(NULL, 0), STRETERVA_WRONG_LENGTH);
    expect("flushed", streterva_flushed(NULL, 0), STRETERVA_WRONG_LENGTH);
    expect("restart", streterva_restart(none, n, NULL, 0, figures, 1), STRETERVA_MEDIUM_TOO_SHORT);
    expect("format", streterva_format(none, n, NULL, 0, SIZE, ROWS, OLD_DISKS), STRETERVA_MEDIUM_TOO_SHORT);
    expect("grow", streterva_grow(words, n, NULL, 0, NEW_DISKS, figures, 1), STRETERVA_MEDIUM_TOO_SHORT);
    expect("grow_beyond_doubling", streterva_grow_beyond_doubling(words, n, NULL, 0, NEW_DISKS, figures, 1),
           STRETERVA_MEDIUM_TOO_SHORT);
    expect("advance", streterva_advance(words, n, NULL, 0, figures, 4), STRETERVA_MEDIUM_TOO_SHORT);
    expect("read", streterva_read(words, n, NULL, 0, 0, NULL, 0), STRETERVA_MEDIUM_TOO_SHORT);
    expect("read", streterva_read(words, n, medium, medium_bytes, 0, NULL, 0), STRETERVA_PIECE_SIZE);
    expect("write", streterva_write(words, n, medium, medium_bytes, 0, NULL, 0), STRETERVA_PIECE_SIZE);
    expect("view", streterva_view(NULL, 0, medium_bytes, 0, OLD_DISKS, 0, figures, 2), STRETERVA_WRONG_LENGTH);
    expect("view", streterva_view(words, n, medium_bytes, 0, OLD_DISKS, 0, NULL, 0), STRETERVA_WRONG_LENGTH);
    expect("address", streterva_address(words, n, 0, NULL, 0), STRETERVA_WRONG_LENGTH);
    expect("table_move", streterva_table_move(3, 2, 0, NULL, 0), STRETERVA_WRONG_LENGTH);
    expect("load", streterva_load(words, n, NULL, 0, figures, STRETERVA_LOAD_FIGURES), 0);
    expect("the state", (uint64_t)memcmp(&kept, &state, sizeof kept), 0);
}

/* A refused address sets its six figures to 0 and no other. */
static void refused_address(uint64_t block, uint64_t wanted)
{
    memset(figures, 0x77, sizeof figures);
    expect("address",
           streterva_address(state.words, STRETERVA_STATE_WORDS, block, figures, STRETERVA_ADDRESS_FIGURES), wanted);
    for (size_t i = 0; i < STRETERVA_ADDRESS_FIGURES; i++)
        expect("a figure of a refused address", figures[i], 0);
    expect("the figure after them", figures[STRETERVA_ADDRESS_FIGURES], UINT64_C(0x7777777777777777));
}

/*
 * Grow and the one without 20, refused with these numbers on a medium of which no byte may be touched; the state stays,
 * and the figure is 0.
 */
static void refused_grows(size_t bytes, uint64_t count, uint64_t wanted, uint64_t wanted_without)
{
    const streterva_state kept = state;
    close_all();
    figures[0] = 7;
    expect("grow", grow(bytes, count), wanted);
    expect("the figure of grow", figures[0], 0);
    figures[0] = 7;
    expect("grow_beyond_doubling", grow_beyond_doubling(bytes, count), wanted_without);
    expect("the figure of grow_beyond_doubling", figures[0], 0);
    expect("the state", (uint64_t)memcmp(&kept, &state, sizeof kept), 0);
}

/* Each refusal of both grows but 6; most also with a count above twice the disks, which only grow refuses. */
static void refusals_of_grows(void)
{
    const streterva_state kept = state;
    const size_t need = (size_t)streterva_medium_bytes(SIZE, ROWS, NEW_DISKS);
    const uint64_t far = 2 * OLD_DISKS + 1, beyond = STRETERVA_BEYOND_DOUBLING, too_short = STRETERVA_MEDIUM_TOO_SHORT;
    state.counts[7] = 1;
    refused_grows(medium_bytes, far, STRETERVA_NOT_SOUND, STRETERVA_NOT_SOUND);
    state.growths = STRETERVA_MOST_GROWTHS;
    for (uint64_t i = 0; i <= STRETERVA_MOST_GROWTHS; i++)
        state.counts[i] = i + 1;
    refused_grows(medium_bytes, 17, STRETERVA_NO_MORE_GROWTHS, STRETERVA_NO_MORE_GROWTHS);
    state = kept;
    refused_grows(medium_bytes, OLD_DISKS, STRETERVA_OUTSIDE_LIMITS, STRETERVA_OUTSIDE_LIMITS);
    refused_grows(medium_bytes, 17, STRETERVA_OUTSIDE_LIMITS, STRETERVA_OUTSIDE_LIMITS);
    for (state.pending = 0; state.pending <= 3; state.pending++) {
        refused_grows(medium_bytes, far, beyond, too_short);
        refused_grows(medium_bytes, far - 1, too_short, too_short);
        refused_grows(need - 1, NEW_DISKS, too_short, too_short);
    }
    state.pending = STRETERVA_BLOCKS_PENDING;
    refused_grows(need, NEW_DISKS, STRETERVA_FLUSH_BLOCKS, STRETERVA_FLUSH_BLOCKS);
    state.pending |= STRETERVA_RECORD_PENDING;
    refused_grows(need, NEW_DISKS, STRETERVA_FLUSH_RECORD, STRETERVA_FLUSH_RECORD);
    state = kept;
}

/* Refused on a medium of which no byte may be touched; the state stays. */
static void refusals_at_rest(void)
{
    const streterva_state kept = state;
    const size_t need = (size_t)streterva_medium_bytes(SIZE, ROWS, OLD_DISKS);
    close_all();
    expect("copy", copy(medium_bytes, 0), STRETERVA_NOT_GROWING);
    expect("checkpoint", checkpoint(medium_bytes), STRETERVA_NOT_GROWING);
    expect("advance", advance(medium_bytes), STRETERVA_NOT_GROWING);
    expect("write", write_block(need - 1, 0, SIZE), STRETERVA_MEDIUM_TOO_SHORT);
    expect("write", write_block(medium_bytes, OLD_DISKS * ROWS, SIZE), STRETERVA_BLOCK_NOT_OPEN);
    expect("read", read_block(medium_bytes, OLD_DISKS * ROWS, SIZE), STRETERVA_BLOCK_NOT_OPEN);
    expect("read", read_block(medium_bytes, 0, SIZE - 1), STRETERVA_PIECE_SIZE);
    expect("holder", holder(OLD_DISKS, 0), STRETERVA_NO_SUCH_SPOT);
    expect("load", load(0, OLD_DISKS * ROWS + 1), STRETERVA_SCENE_REFUSED);
    refused_address(OLD_DISKS * ROWS, STRETERVA_BLOCK_NOT_OPEN);
    expect("the state", (uint64_t)memcmp(&kept, &state, sizeof kept), 0);
}

/* The exception: a refused format or restart sets the state to zeros. A state that is not sound is refused with 1. */
static void zeros(void)
{
    const streterva_state kept = state, zero = {.words = {0}};
    close_all();
    expect("format", format(medium_bytes, SIZE + 1, OLD_DISKS), STRETERVA_OUTSIDE_LIMITS);
    expect("the state", (uint64_t)memcmp(&zero, &state, sizeof zero), 0);
    expect("soundness", streterva_soundness(state.words, STRETERVA_STATE_WORDS), STRETERVA_NOT_SOUND);
    expect("flushed", streterva_flushed(state.words, STRETERVA_STATE_WORDS), STRETERVA_NOT_SOUND);
    expect("read", read_block(medium_bytes, 0, SIZE), STRETERVA_NOT_SOUND);
    refused_address(0, STRETERVA_NOT_SOUND);
    state = kept;
    expect("restart", restart(STRETERVA_RECORD_BYTES - 1), STRETERVA_MEDIUM_TOO_SHORT);
    expect("the state", (uint64_t)memcmp(&zero, &state, sizeof zero), 0);
    open_record(PROT_READ);
    expect("restart", restart(STRETERVA_RECORD_BYTES), STRETERVA_MEDIUM_TOO_SHORT);
    expect("the state", (uint64_t)memcmp(&zero, &state, sizeof zero), 0);
    state = kept;
    expect("soundness", streterva_soundness(state.words, STRETERVA_STATE_WORDS), 0);
}

/* Writes a block and reads it back, each with its live spot alone. */
static void save(uint64_t block, uint8_t byte)
{
    memset(piece, byte, SIZE);
    open_live(block, PROT_READ | PROT_WRITE);
    expect("write", write_block(medium_bytes, block, SIZE), 0);
    flushed();
}

static void check(uint64_t block, uint8_t byte)
{
    memset(piece, 0, SIZE);
    open_live(block, PROT_READ);
    expect("read", read_block(medium_bytes, block, SIZE), 0);
    for (size_t i = 0; i < SIZE; i++)
        expect("a byte read", piece[i], byte);
}

/* ---- two clients */

/* Makes a table, accepted as it is or refused and set to zeros. */
static void make_table(streterva_span zero, streterva_span one, uint64_t wanted)
{
    const streterva_span_table asked = {.clients = {zero, one}}, zeros = {.words = {0}};
    spans = asked;
    expect("spans", streterva_spans(spans.words, STRETERVA_SPAN_WORDS), wanted);
    expect("the table", (uint64_t)memcmp(wanted == 0 ? &asked : &zeros, &spans, sizeof spans), 0);
}

/* The same with the spans in either order. */
static void make_tables(uint64_t first, uint64_t count, uint64_t other, uint64_t others, uint64_t wanted)
{
    const streterva_span zero = {first, count}, one = {other, others};
    make_table(zero, one, wanted);
    make_table(one, zero, wanted);
}

static void span_tables(void)
{
    const uint64_t reach = STRETERVA_MOST_REACHED, most = UINT64_MAX, refused = STRETERVA_OUTSIDE_SPAN;
    make_tables(0, 0, 0, 0, 0);
    make_tables(0, 3, 3, 2, 0);
    make_tables(0, 3, 4, 2, 0);
    make_tables(2, 0, 0, 5, 0);
    make_tables(0, 0, 0, 5, 0);
    make_tables(0, reach, reach, 0, 0);
    make_tables(reach - 1, 1, 0, reach - 1, 0);
    make_tables(0, 3, 2, 2, refused);
    make_tables(0, 5, 2, 1, refused);
    make_tables(1, 3, 1, 3, refused);
    make_tables(reach - 1, 1, 0, reach, refused);
    make_tables(reach, 1, 0, 0, refused);
    make_tables(0, reach + 1, 0, 0, refused);
    make_tables(reach + 1, 0, 0, 0, refused);
    make_tables(most, 0, 0, 0, refused);
    make_tables(most, 1, 0, 0, refused);
    make_tables(1, most, 0, 0, refused);
    make_tables(most, most, 0, 0, refused);
    make_tables(most - reach, reach + 1, 0, 0, refused);
}

/* Any other number of words: 100, and the table stays; so it does where the state has another number of words. */
static void span_lengths(void)
{
    const streterva_span_table kept = {.clients = {{0, 3}, {2, 2}}};
    const size_t n = STRETERVA_STATE_WORDS, all = medium_bytes, wrong = STRETERVA_WRONG_LENGTH;
    uint64_t *words = state.words, *four = spans.words;
    spans = kept;
    close_all();
    expect("spans", streterva_spans(four, STRETERVA_SPAN_WORDS - 1), wrong);
    expect("spans", streterva_spans(NULL, 0), wrong);
    expect("client_read", streterva_client_read(four, 3, 0, words, n, medium, all, 0, piece, SIZE), wrong);
    expect("client_read", streterva_client_read(NULL, 0, 0, words, n, medium, all, 0, piece, SIZE), wrong);
    expect("client_read", streterva_client_read(four, 4, 0, words, n - 1, medium, all, 0, piece, SIZE), wrong);
    expect("client_write", streterva_client_write(four, 3, 0, words, n, medium, all, 0, piece, SIZE), wrong);
    expect("client_write", streterva_client_write(four, 4, 0, words, n + 1, medium, all, 0, piece, SIZE), wrong);
    expect("the table", (uint64_t)memcmp(&kept, &spans, sizeof spans), 0);
}

/* Refused with no page open: the state, the table and the piece stay. */
static void refused_clients(uint64_t client, size_t bytes, uint64_t block, size_t piece_bytes, uint64_t wanted)
{
    const streterva_state kept = state;
    const streterva_span_table table = spans;
    close_all();
    memset(piece, 0x77, SIZE);
    expect("client_write", client_write(client, bytes, block, piece_bytes), wanted);
    expect("client_read", client_read(client, bytes, block, piece_bytes), wanted);
    expect("the state", (uint64_t)memcmp(&kept, &state, sizeof kept), 0);
    expect("the table", (uint64_t)memcmp(&table, &spans, sizeof table), 0);
    for (size_t i = 0; i < SIZE; i++)
        expect("a byte of the piece", piece[i], 0x77);
}

/* A write refused with no page open, where a read is accepted. */
static void refused_client_write(uint64_t client, uint64_t block, uint64_t wanted)
{
    const streterva_state kept = state;
    close_all();
    expect("client_write", client_write(client, medium_bytes, block, SIZE), wanted);
    expect("the state", (uint64_t)memcmp(&kept, &state, sizeof kept), 0);
    open_live(block, PROT_READ);
    expect("client_read", client_read(client, medium_bytes, block, SIZE), 0);
}

/* A client writes and reads a block, each with its live spot alone open. */
static void own_block(uint64_t client, uint64_t block, uint8_t byte)
{
    memset(piece, byte, SIZE);
    open_live(block, PROT_READ | PROT_WRITE);
    expect("client_write", client_write(client, medium_bytes, block, SIZE), 0);
    expect("block stores are pending", state.pending, STRETERVA_BLOCKS_PENDING);
    flushed();
    memset(piece, 0, SIZE);
    open_live(block, PROT_READ);
    expect("client_read", client_read(client, medium_bytes, block, SIZE), 0);
    for (size_t i = 0; i < SIZE; i++)
        expect("a byte read by a client", piece[i], byte);
}

/* 21 for each reason: the block before and after the span, the other's span, no such client, no such table. */
static void outside_spans(uint64_t before, uint64_t end)
{
    const streterva_span_table table = spans;
    const uint64_t outside = STRETERVA_OUTSIDE_SPAN;
    refused_clients(0, medium_bytes, end, SIZE, outside);
    refused_clients(0, medium_bytes, before, SIZE, outside);
    refused_clients(0, medium_bytes, UINT64_MAX, SIZE, outside);
    refused_clients(1, medium_bytes, end - 1, SIZE, outside);
    refused_clients(1, medium_bytes, STRETERVA_MOST_REACHED, SIZE, outside);
    refused_clients(2, medium_bytes, end - 1, SIZE, outside);
    refused_clients(UINT64_MAX, medium_bytes, end - 1, SIZE, outside);
    spans.clients[1].first--;
    refused_clients(0, medium_bytes, end - 1, SIZE, outside);
    spans = table;
    spans.clients[1].count++;
    refused_clients(0, medium_bytes, end - 1, SIZE, outside);
    spans = (streterva_span_table){.words = {0}};
    refused_clients(0, medium_bytes, 0, SIZE, outside);
    refused_clients(1, medium_bytes, 0, SIZE, outside);
    spans = table;
}

/* 1, 21, 2, 3, 4, each with the next fault beside it. Client 1 has the blocks past the open ones too. */
static void order_of_clients(uint64_t end)
{
    const streterva_state kept = state;
    const size_t too_short = (size_t)streterva_medium_bytes(SIZE, ROWS, disk_count()) - 1;
    const uint64_t closed = open_blocks();
    state.counts[7] = 1;
    refused_clients(0, medium_bytes, end - 1, SIZE, STRETERVA_NOT_SOUND);
    refused_clients(0, medium_bytes, end, SIZE, STRETERVA_NOT_SOUND);
    refused_clients(2, 0, closed, 0, STRETERVA_NOT_SOUND);
    state = kept;
    refused_clients(0, too_short, end, SIZE, STRETERVA_OUTSIDE_SPAN);
    refused_clients(0, medium_bytes, closed, SIZE, STRETERVA_OUTSIDE_SPAN);
    refused_clients(0, medium_bytes, end, SIZE - 1, STRETERVA_OUTSIDE_SPAN);
    refused_clients(1, too_short, end, SIZE, STRETERVA_MEDIUM_TOO_SHORT);
    refused_clients(1, too_short, closed, SIZE, STRETERVA_MEDIUM_TOO_SHORT);
    refused_clients(1, medium_bytes, closed, SIZE, STRETERVA_BLOCK_NOT_OPEN);
    refused_clients(1, medium_bytes, closed, SIZE - 1, STRETERVA_BLOCK_NOT_OPEN);
    refused_clients(1, medium_bytes, end, SIZE - 1, STRETERVA_PIECE_SIZE);
    state.pending = STRETERVA_RECORD_PENDING;
    refused_clients(0, medium_bytes, end, SIZE, STRETERVA_OUTSIDE_SPAN);
    refused_clients(1, medium_bytes, end, SIZE - 1, STRETERVA_PIECE_SIZE);
    refused_client_write(1, end, STRETERVA_FLUSH_RECORD);
    state = kept;
}

/* Client 0 has blocks 1 and 2, client 1 those from 3 on. */
static void use_spans(void)
{
    make_table((streterva_span){1, 2}, (streterva_span){3, STRETERVA_MOST_REACHED - 3}, 0);
}

static void clients(void)
{
    span_tables();
    span_lengths();
    use_spans();
    own_block(0, 1, 0x21);
    own_block(0, 2, 0x22);
    own_block(1, 3, 0x23);
    own_block(1, open_blocks() - 1, 0x24);
    outside_spans(0, 3);
    order_of_clients(3);
}

/* In a growth, with block 0 copied and not recorded: 7 is before 19 and after 4, and 21 before all of them. */
static void clients_in_growth(void)
{
    const streterva_state kept = state;
    make_table((streterva_span){0, 1}, (streterva_span){1, 2}, 0);
    refused_client_write(0, 0, STRETERVA_COPY_NOT_RECORDED);
    refused_clients(1, medium_bytes, 0, SIZE, STRETERVA_OUTSIDE_SPAN);
    refused_clients(0, medium_bytes, 0, SIZE - 1, STRETERVA_PIECE_SIZE);
    state.pending = STRETERVA_RECORD_PENDING;
    refused_client_write(0, 0, STRETERVA_COPY_NOT_RECORDED);
    refused_client_write(1, 1, STRETERVA_FLUSH_RECORD);
    state = kept;
}

/* ---- views, of the medium cut into two shelves */

static size_t first_shelf(uint64_t first_disks)
{
    return (size_t)streterva_medium_bytes(SIZE, ROWS, first_disks);
}

static size_t second_shelf(uint64_t first_disks)
{
    return (size_t)(disk_count() - first_disks) * ROWS * SIZE;
}

/* What a view finds, with no page open for the call, is the block's live spot and has the bytes that read gives. */
static void show(size_t first_bytes, size_t second_bytes, uint64_t first_disks, uint64_t block)
{
    const streterva_state kept = state;
    const size_t page = live_page(block);
    const int is_first = page < page_of(first_disks, 0);
    close_all();
    memset(figures, 0x77, sizeof figures);
    expect("view", view(first_bytes, second_bytes, first_disks, block), 0);
    expect("the shelf", figures[STRETERVA_VIEW_SHELF], is_first ? STRETERVA_FIRST_SHELF : STRETERVA_SECOND_SHELF);
    expect("the state", (uint64_t)memcmp(&kept, &state, sizeof kept), 0);
    const uint8_t *found = medium + (is_first ? 0 : first_shelf(first_disks)) + figures[STRETERVA_VIEW_BYTE];
    expect("the byte", (uint64_t)(found - pages), page * SIZE);
    open_live(block, PROT_READ);
    expect("read", read_block(medium_bytes, block, SIZE), 0);
    expect("the bytes found", (uint64_t)memcmp(found, piece, SIZE), 0);
}

static void refused_view(uint64_t wanted, size_t first_bytes, size_t second_bytes, uint64_t first_disks, uint64_t block)
{
    const streterva_state kept = state;
    memset(figures, 0x77, sizeof figures);
    expect("view", view(first_bytes, second_bytes, first_disks, block), wanted);
    expect("the shelf of a refusal", figures[STRETERVA_VIEW_SHELF], 0);
    expect("the byte of a refusal", figures[STRETERVA_VIEW_BYTE], 0);
    expect("the state", (uint64_t)memcmp(&kept, &state, sizeof kept), 0);
}

/* Every open block, on shelves that just fit and on shelves with spare bytes. */
static void show_blocks(uint64_t first_disks)
{
    const size_t first = first_shelf(first_disks), second = second_shelf(first_disks);
    for (uint64_t block = 0; block < open_blocks(); block++) {
        show(first, second, first_disks, block);
        show(first + 1, second, first_disks, block);
        show(first, second + SIZE, first_disks, block);
        show(SIZE_MAX, SIZE_MAX, first_disks, block);
    }
}

/* Either shelf too short, with an open block and with one that is not; then that block alone. */
static void refuse_blocks(uint64_t first_disks)
{
    const size_t first = first_shelf(first_disks), second = second_shelf(first_disks);
    const uint64_t closed = open_blocks(), too_short = STRETERVA_MEDIUM_TOO_SHORT, not_open = STRETERVA_BLOCK_NOT_OPEN;
    close_all();
    refused_view(too_short, first - 1, second, first_disks, 0);
    refused_view(too_short, first - 1, SIZE_MAX, first_disks, closed);
    refused_view(too_short, 0, 0, first_disks, UINT64_MAX);
    if (second > 0) {
        refused_view(too_short, first, second - 1, first_disks, 0);
        refused_view(too_short, SIZE_MAX, second - 1, first_disks, closed);
        refused_view(too_short, first + second, 0, first_disks, 0);
    }
    refused_view(not_open, first, second, first_disks, closed);
    refused_view(not_open, SIZE_MAX, SIZE_MAX, first_disks, UINT64_MAX);
}

/* A number of disks that the first shelf cannot have, also with shelves too short and a block that is not open. */
static void refuse_disks(uint64_t first_disks)
{
    close_all();
    refused_view(STRETERVA_OUTSIDE_LIMITS, SIZE_MAX, SIZE_MAX, first_disks, 0);
    refused_view(STRETERVA_OUTSIDE_LIMITS, 0, SIZE_MAX, first_disks, 0);
    refused_view(STRETERVA_OUTSIDE_LIMITS, 0, 0, first_disks, open_blocks());
}

/* A state that is not sound, with nothing else wrong and with all; then words that are no state, as the last is 4. */
static void refuse_states(void)
{
    const streterva_state kept = state;
    close_all();
    state.counts[7] = 1;
    refused_view(STRETERVA_NOT_SOUND, SIZE_MAX, SIZE_MAX, 1, 0);
    refused_view(STRETERVA_NOT_SOUND, 0, 0, 0, UINT64_MAX);
    state.pending = 4;
    memset(figures, 0x77, sizeof figures);
    expect("view", view(0, 0, 0, UINT64_MAX), STRETERVA_WRONG_LENGTH);
    expect("the shelf", figures[STRETERVA_VIEW_SHELF], UINT64_C(0x7777777777777777));
    expect("the byte", figures[STRETERVA_VIEW_BYTE], UINT64_C(0x7777777777777777));
    state = kept;
}

/* Views accepted and refused, with every number of disks on the first shelf. */
static void views(void)
{
    for (uint64_t first_disks = 1; first_disks <= disk_count(); first_disks++) {
        show_blocks(first_disks);
        refuse_blocks(first_disks);
    }
    refuse_disks(0);
    refuse_disks(disk_count() + 1);
    refuse_disks(UINT64_MAX);
    refuse_states();
}

/* ---- a growth, and what is after it */

/* So many of the open blocks were moved, each by one growth, as their reason tells; all others by none. */
static void moves(uint64_t wanted)
{
    uint64_t at[STRETERVA_ADDRESS_FIGURES], sum = 0;
    for (uint64_t block = 0; block < open_blocks(); block++) {
        address(block, at);
        expect("the moves of a block", at[STRETERVA_ADDRESS_MOVES], at[STRETERVA_ADDRESS_WHY] == STRETERVA_MOVED);
        sum += at[STRETERVA_ADDRESS_MOVES];
    }
    expect("the blocks moved", sum, wanted);
}

/* Advance calls, so many, to the one that finishes; only that one records, and the moves go from `moved` to `all`. */
static void advances(uint64_t left, uint64_t moved, uint64_t all)
{
    while (left > 0) {
        flushed();
        open_copy(page_of(0, 0), (size_t)open_blocks());
        if (left == 1)
            open_record(PROT_READ | PROT_WRITE);
        expect("advance", advance(medium_bytes), 0);
        expect("calls left", figures[STRETERVA_ADVANCE_LEFT], --left);
        expect("finished", figures[STRETERVA_ADVANCE_DID] == STRETERVA_FINISHED, left == 0);
        moves(left == 0 ? all : moved);
        views();
    }
    flushed();
}

/* From 3 disks to 5: a copy and a checkpoint, then advance calls; views and moves after each store. */
static void growth(void)
{
    moves(0);
    open_record(PROT_READ | PROT_WRITE);
    expect("grow", grow(medium_bytes, NEW_DISKS), 0);
    uint64_t left = figures[0];
    moves(0);
    flushed();
    refused_grows(medium_bytes, 2 * NEW_DISKS + 1, STRETERVA_GROWING, STRETERVA_GROWING);
    expect("copy", copy(medium_bytes, 1), STRETERVA_NOT_MOVING);
    expect("checkpoint", checkpoint(medium_bytes), STRETERVA_NOTHING_TO_RECORD);
    open_copy(live_page(0), 1);
    expect("copy", copy(medium_bytes, 0), 0);
    expect("calls left", figures[0], --left);
    moves(0);
    views();
    close_all();
    expect("copy", copy(medium_bytes, 0), STRETERVA_ALREADY_COPIED);
    expect("write", write_block(medium_bytes, 0, SIZE), STRETERVA_COPY_NOT_RECORDED);
    clients_in_growth();
    close_all();
    expect("checkpoint", checkpoint(medium_bytes), STRETERVA_FLUSH_BLOCKS);
    flushed();
    open_record(PROT_READ | PROT_WRITE);
    expect("checkpoint", checkpoint(medium_bytes), 0);
    moves(1);
    views();
    close_all();
    expect("advance", advance(medium_bytes), STRETERVA_FLUSH_RECORD);
    advances(left, 1, MOVING);
}

/* Every spot has one block, whose address it is, and all of them are the load of one scene. */
static void look_ups(void)
{
    close_all();
    for (uint64_t disk = 0; disk < NEW_DISKS; disk++)
        for (uint64_t row = 0; row < ROWS; row++) {
            expect("holder", holder(disk, row), 0);
            expect("the page of its block", live_page(figures[0]), page_of(disk, row));
        }
    expect("load", load(0, NEW_DISKS * ROWS), 0);
    for (uint64_t disk = 0; disk < STRETERVA_MOST_DISKS; disk++)
        expect("a disk's blocks", figures[STRETERVA_LOAD_SERVED + disk], disk < NEW_DISKS ? ROWS : 0);
}

/* A new volume of one disk, its blocks saved. */
static void one_disk(void)
{
    open_record(PROT_READ | PROT_WRITE);
    expect("format", format(medium_bytes, SIZE, 1), 0);
    flushed();
    for (uint64_t block = 0; block < ROWS; block++)
        save(block, (uint8_t)(block + 1));
}

/* From 1 disk to 5: refused by grow, begun without 20, restarted and completed. Then the 5 disks count for grow. */
static void growth_beyond_doubling(void)
{
    one_disk();
    const streterva_state kept = state;
    close_all();
    expect("grow", grow(medium_bytes, NEW_DISKS), STRETERVA_BEYOND_DOUBLING);
    expect("the state", (uint64_t)memcmp(&kept, &state, sizeof kept), 0);
    state.pending = STRETERVA_RECORD_PENDING;
    refused_grows(medium_bytes, NEW_DISKS, STRETERVA_BEYOND_DOUBLING, STRETERVA_FLUSH_RECORD);
    state.pending = STRETERVA_BLOCKS_PENDING;
    refused_grows(medium_bytes, NEW_DISKS, STRETERVA_BEYOND_DOUBLING, STRETERVA_FLUSH_BLOCKS);
    state = kept;
    open_record(PROT_READ | PROT_WRITE);
    expect("grow_beyond_doubling", grow_beyond_doubling(medium_bytes, NEW_DISKS), 0);
    expect("calls left", figures[0], MOVING_FAR + 1);
    expect("a record store is pending", state.pending, STRETERVA_RECORD_PENDING);
    flushed();
    open_record(PROT_READ);
    expect("restart", restart(medium_bytes), 0);
    expect("calls left", figures[0], MOVING_FAR + 1);
    advances(MOVING_FAR + 1, 0, MOVING_FAR);
    open_record(PROT_READ);
    expect("restart", restart(medium_bytes), 0);
    expect("disks", disk_count(), NEW_DISKS);
    for (uint64_t block = 0; block < ROWS; block++)
        check(block, (uint8_t)(block + 1));
    look_ups();
    refused_grows(medium_bytes, 2 * NEW_DISKS + 1, STRETERVA_BEYOND_DOUBLING, STRETERVA_MEDIUM_TOO_SHORT);
    refused_grows(medium_bytes, 2 * NEW_DISKS, STRETERVA_MEDIUM_TOO_SHORT, STRETERVA_MEDIUM_TOO_SHORT);
}

/* To exactly twice the disks: both grows do the same. */
static void growth_to_twice(void)
{
    one_disk();
    const streterva_state kept = state;
    open_record(PROT_READ | PROT_WRITE);
    expect("grow", grow(medium_bytes, 2), 0);
    const streterva_state grown = state;
    state = kept;
    expect("grow_beyond_doubling", grow_beyond_doubling(medium_bytes, 2), 0);
    expect("the state", (uint64_t)memcmp(&grown, &state, sizeof grown), 0);
}

/* ---- the table of moves */

/* Accepted with these figures; the next one is not touched. */
static void table_tells(uint64_t m, uint64_t n, uint64_t mark, uint64_t offset, uint64_t disk)
{
    memset(figures, 0x77, sizeof figures);
    expect("table_move", streterva_table_move(m, n, mark, figures, STRETERVA_TABLE_MOVE_FIGURES), 0);
    expect("the offset of an entry", figures[STRETERVA_TABLE_MOVE_OFFSET], offset);
    expect("the disk of an entry", figures[STRETERVA_TABLE_MOVE_DISK], disk);
    expect("the figure after them", figures[STRETERVA_TABLE_MOVE_FIGURES], UINT64_C(0x7777777777777777));
}

/* Every mark of every pair, in the order of the header's table, whose offset is counted here too. */
static void table_entries(void)
{
    uint64_t offset = 0;
    for (uint32_t disks = 2; disks <= STRETERVA_MOST_DISKS; disks++)
        for (uint32_t m = 1; m < disks; m++) {
            const uint32_t n = disks - m;
            for (uint32_t mark = 0; mark < m * n; mark++, offset++) {
                expect("the header's offset", streterva_moves_offset(m, n, mark), offset);
                table_tells(m, n, mark, offset, streterva_moves[offset]);
            }
        }
    expect("the entries", offset, STRETERVA_MOVES_COUNT);
}

/* Figures of 0 where there is no such mark, also where sums and products need more than 64 bits. */
static void table_has_no_such_mark(void)
{
    static const uint64_t numbers[] = {
        0, 1, 2, 3, 8, 9, 15, 16, 17, 64, 225, UINT32_MAX, UINT64_C(1) << 32, (UINT64_C(1) << 32) + 3,
        UINT64_C(1) << 63, UINT64_MAX - 15, UINT64_MAX - 1, UINT64_MAX,
    };
    const size_t count = sizeof numbers / sizeof numbers[0];
    for (size_t i = 0; i < count * count * count; i++) {
        const uint64_t m = numbers[i % count], n = numbers[i / count % count], mark = numbers[i / count / count];
        const int grows = m >= 1 && n >= 1 && m < STRETERVA_MOST_DISKS && n <= STRETERVA_MOST_DISKS - m;
        if (!grows || mark >= m * n)
            table_tells(m, n, mark, 0, 0);
    }
    for (uint64_t m = 1; m < STRETERVA_MOST_DISKS; m++) {
        table_tells(m, STRETERVA_MOST_DISKS + 1 - m, 0, 0, 0);
        for (uint64_t n = 1; n <= STRETERVA_MOST_DISKS - m; n++)
            table_tells(m, n, m * n, 0, 0);
    }
}

/* Any number of figures but two: 100, and none is touched, also where there is no such mark. */
static void table_wrong_lengths(void)
{
    memset(figures, 0x77, sizeof figures);
    for (size_t words = 0; words <= STRETERVA_LOAD_FIGURES; words++)
        if (words != STRETERVA_TABLE_MOVE_FIGURES) {
            expect("table_move", streterva_table_move(3, 2, 0, figures, words), STRETERVA_WRONG_LENGTH);
            expect("table_move", streterva_table_move(0, 0, 0, figures, words), STRETERVA_WRONG_LENGTH);
        }
    for (size_t i = 0; i < STRETERVA_LOAD_FIGURES; i++)
        expect("a figure", figures[i], UINT64_C(0x7777777777777777));
}

/* No page of the medium is open. First the header's example, from 3 disks to 5. */
static void table_of_moves(void)
{
    static const uint64_t example[] = {3, 3, 4, 3, 4, 4};
    for (uint64_t mark = 0; mark < 6; mark++)
        table_tells(3, 2, mark, 25 + mark, example[mark]);
    table_entries();
    table_has_no_such_mark();
    table_wrong_lengths();
}

/* The bytes of a medium, also where they would not fit into 64 bits. */
static void medium_sizes(void)
{
    const uint64_t most = UINT64_MAX;
    expect("bytes", streterva_medium_bytes(512, 5, 3), 512 + 15 * 512);
    expect("bytes", streterva_medium_bytes(STRETERVA_MOST_SIZE, STRETERVA_MOST_ROWS, STRETERVA_MOST_DISKS),
           UINT64_C(1048576000512));
    expect("bytes", streterva_medium_bytes(STRETERVA_LEAST_SIZE, STRETERVA_LEAST_ROWS, STRETERVA_LEAST_DISKS), 1024);
    expect("bytes", streterva_medium_bytes(0, most, most), 512);
    expect("bytes", streterva_medium_bytes(most, 0, most), 512);
    expect("bytes", streterva_medium_bytes(most, most, most), most);
    expect("bytes", streterva_medium_bytes(1, UINT64_C(1) << 32, UINT64_C(1) << 32), most);
    expect("bytes", streterva_medium_bytes(1, 1, most - 512), most);
    expect("bytes", streterva_medium_bytes(1, 1, most - 513), most - 1);
    expect("bytes", streterva_medium_bytes(512, UINT64_C(1) << 55, 1), most);
}

static void map_pages(void)
{
    if (sysconf(_SC_PAGESIZE) != SIZE) {
        printf("pages are not %d bytes\n", SIZE);
        exit(1);
    }
    pages = mmap(NULL, (size_t)PAGES * SIZE, PROT_NONE, MAP_PRIVATE | MAP_ANONYMOUS, -1, 0);
    if (pages == MAP_FAILED) {
        perror("mmap");
        exit(1);
    }
    medium = pages + SIZE - STRETERVA_RECORD_BYTES;
}

int main(void)
{
    map_pages();
    medium_sizes();
    table_of_moves();
    open_record(PROT_READ | PROT_WRITE);
    expect("format", format(medium_bytes, SIZE, OLD_DISKS), 0);
    close_all();
    expect("write", write_block(medium_bytes, 0, SIZE), STRETERVA_FLUSH_RECORD);
    views();
    flushed();
    wrong_lengths();
    null_pointers();
    refusals_of_grows();
    refusals_at_rest();
    zeros();
    clients();
    for (uint64_t block = 0; block < OLD_DISKS * ROWS; block++)
        save(block, (uint8_t)(block + 1));
    views();
    growth();
    open_record(PROT_READ);
    expect("restart", restart(medium_bytes), 0);
    for (uint64_t block = 0; block < OLD_DISKS * ROWS; block++)
        check(block, (uint8_t)(block + 1));
    views();
    moves(MOVING);
    look_ups();
    growth_beyond_doubling();
    growth_to_twice();
    printf("calls and values compared: %u\n", calls);
    return 0;
}
