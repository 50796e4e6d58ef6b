/* The header of the table of moves and no other, its functions unused or, where USED is 1, used. */
#include "streterva_moves.h"

#if USED
uint32_t offset_of(uint32_t m, uint32_t n, uint32_t mark)
{
    return streterva_moves_offset(m, n, mark);
}

uint32_t disk_after(uint32_t m, uint32_t n, uint32_t disk, uint32_t row)
{
    return streterva_moves_disk(m, n, disk, row);
}
#endif
