/*
 * Compares streterva_moves_disk with the library's address, for every growth from m disks to m + n: all old blocks of
 * disks with two windows and one row more, and those in as many last rows of the longest disks. Exits with 1 at the
 * first difference.
 */
#include "streterva.h"
#include "streterva_moves.h"

#include <stdio.h>
#include <stdlib.h>

static unsigned compared;

static void expect(const char *what, uint64_t got, uint64_t wanted)
{
    compared++;
    if (got == wanted)
        return;
    printf("%s: %llu, expected %llu\n", what, (unsigned long long)got, (unsigned long long)wanted);
    exit(1);
}

/* A volume after format, or with m + n disks after its first growth. */
static streterva_state at_rest(uint64_t rows, uint64_t m, uint64_t n)
{
    streterva_state state = {.words = {0}};
    state.size = STRETERVA_LEAST_SIZE;
    state.rows = rows;
    state.counts[0] = m;
    if (n > 0) {
        state.growths = 1;
        state.counts[1] = m + n;
    }
    expect("soundness", streterva_soundness(state.words, STRETERVA_STATE_WORDS), 0);
    return state;
}

static void address(const streterva_state *state, uint64_t block, uint64_t *at)
{
    expect("address", streterva_address(state->words, STRETERVA_STATE_WORDS, block, at, STRETERVA_ADDRESS_FIGURES), 0);
}

/* The old blocks of the last `count` rows, before the growth and after it. */
static void old_blocks(uint32_t m, uint32_t n, uint64_t rows, uint64_t count)
{
    const streterva_state before = at_rest(rows, m, 0), after = at_rest(rows, m, n);
    uint64_t from[STRETERVA_ADDRESS_FIGURES], to[STRETERVA_ADDRESS_FIGURES];
    for (uint64_t block = m * (rows - count); block < m * rows; block++) {
        address(&before, block, from);
        address(&after, block, to);
        const uint32_t row = (uint32_t)from[STRETERVA_ADDRESS_ROW];
        const uint32_t disk = streterva_moves_disk(m, n, (uint32_t)from[STRETERVA_ADDRESS_DISK], row);
        expect("the disk by the table", disk, to[STRETERVA_ADDRESS_DISK]);
        expect("the row", row, to[STRETERVA_ADDRESS_ROW]);
        expect("moved", disk != from[STRETERVA_ADDRESS_DISK], to[STRETERVA_ADDRESS_WHY] == STRETERVA_MOVED);
    }
}

/* The last rows that 32 bits have: the same disks as in those rows of the first window. */
static void largest_rows(uint32_t m, uint32_t n)
{
    for (uint32_t disk = 0; disk < m; disk++)
        for (uint32_t back = 0; back < m + n; back++) {
            const uint32_t row = UINT32_MAX - back;
            expect("the disk in a large row", streterva_moves_disk(m, n, disk, row),
                   streterva_moves_disk(m, n, disk, row % (m + n)));
        }
}

int main(void)
{
    for (uint32_t disks = 2; disks <= STRETERVA_MOST_DISKS; disks++)
        for (uint32_t m = 1; m < disks; m++) {
            const uint64_t rows = 2 * disks + 1;
            old_blocks(m, disks - m, rows, rows);
            old_blocks(m, disks - m, STRETERVA_MOST_ROWS, rows);
            largest_rows(m, disks - m);
        }
    printf("values compared with the table of moves: %u\n", compared);
    return 0;
}
