/* A first board: two trains at one platform, and which of them stands there in the two minutes from
   01:41 on. The index keeps its own tables; lent_tables.c does the same with the caller's. */
#include "servercape_index.h"

#include <inttypes.h>
#include <stdio.h>

/* Ends with what a call returned: a refusal's number, or that there is no memory. */
static void must(uint64_t refused)
{
    if (refused == SERVERCAPE_NO_MEMORY)
        printf("no memory\n");
    else if (refused != 0)
        printf("refused %" PRIu64 "\n", refused);
    if (refused != 0)
        exit(1);
}

int main(void)
{
    static const uint8_t kinds[] = {SERVERCAPE_MEMORY};
    static const uint8_t seven[] = {7, 7, 7}, nine[] = {9, 9, 9};
    struct servercape_index board, now;
    struct servercape_numbers found = {0};

    must(servercape_index_open(&board, 8, kinds, 1));
    /* train 07 from 01:40 on, at tick 1; train 09 from 01:42 on, at tick 3 */
    must(servercape_index_record(&board, SERVERCAPE_MEMORY, 1, 100, seven, 3, NULL, NULL));
    must(servercape_index_record(&board, SERVERCAPE_MEMORY, 3, 102, nine, 3, NULL, NULL));

    /* the board goes on; a clone that is finished is read: at tick 6, who holds cell 101 or 102? */
    must(servercape_index_clone(&now, &board));
    must(servercape_index_finish(&now));
    must(servercape_index_touching(&now, SERVERCAPE_MEMORY, 6, 101, 103, &found));

    for (size_t k = 0; k < found.count; k++) {
        struct servercape_block block;
        uint64_t label;
        must(servercape_index_block(&now, found.numbers[k], &block));
        must(servercape_index_clock(&now, block.first, &label));
        printf("%strain %02x at %04" PRIu64 " for %" PRIu64 " min", k ? ", " : "", block.bytes[0],
               label, block.length);
    }
    printf("\n");
    servercape_numbers_free(&found);
    servercape_index_free(&now);
    servercape_index_free(&board);
    return 0;
}
