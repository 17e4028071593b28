/* A first board in tables of the caller: two trains at one platform, and which of them stands there in the two minutes from 01:41 on. first.c does the same with an index that
   keeps its own. */
#include "servercape.h"

#include <inttypes.h>
#include <stdio.h>
#include <stdlib.h>

/* A table of so many rows. */
static uint64_t *table(uint64_t which, uint64_t rows, size_t *length)
{
    *length = servercape_length(which, rows);
    return calloc(*length, sizeof(uint64_t));
}

/* Ends with the number of a refusal. */
static void must(uint64_t refused)
{
    if (refused != 0) {
        printf("refused %" PRIu64 "\n", refused);
        exit(1);
    }
}

#define TABLES pieces, pieces_length, blocks, blocks_length, store, sizeof store, nodes, nodes_length, entries, entries_length

int main(void)
{
    size_t pieces_length, blocks_length, nodes_length, entries_length;
    uint64_t *pieces = table(SERVERCAPE_PIECES, 16, &pieces_length), *blocks = table(SERVERCAPE_BLOCKS, 32, &blocks_length);
    uint64_t *nodes = table(SERVERCAPE_NODES, 64, &nodes_length), *entries = table(SERVERCAPE_ENTRIES, 64, &entries_length);
    uint8_t store[64];
    if (!pieces || !blocks || !nodes || !entries)
        return 3;

    uint64_t scratch[8] = {0}, updated, cell, numbers[32], count;
    must(servercape_open(TABLES, 8, (const uint8_t[]){SERVERCAPE_MEMORY}, 1));
    must(servercape_record(TABLES, scratch, 8, SERVERCAPE_MEMORY, 1, 100, (const uint8_t[]){7, 7, 7}, 3, &updated, &cell)); /* train 07 from 01:40 on, at tick 1 */
    must(servercape_record(TABLES, scratch, 8, SERVERCAPE_MEMORY, 3, 102, (const uint8_t[]){9, 9, 9}, 3, &updated, &cell)); /* train 09 from 01:42 on, at tick 3 */
    must(servercape_finish(TABLES));
    must(servercape_touching(TABLES, SERVERCAPE_MEMORY, 6, 101, 103, numbers, 32, &count)); /* at tick 6, who holds cell 101 or 102? */

    for (uint64_t k = 0; k < count; k++) {
        uint64_t kind, first, length, created, destroyed, offset, label;
        must(servercape_block(TABLES, numbers[k], &kind, &first, &length, &created, &destroyed, &offset));
        must(servercape_clock(TABLES, first, &label));
        printf("%strain %02x at %04" PRIu64 " for %" PRIu64 " min", k ? ", " : "", store[offset], label, length);
    }
    printf("\n");
    free(pieces), free(blocks), free(nodes), free(entries);
    return 0;
}
