/* The calls of servercape.h after one test, for C. Link dist/libservercape_tested.a in front of libservercape.a, which it calls.

   Every call of servercape.h but open and load tests all rows of its tables, for refusal 2. The calls here do not: they take the state that the test found, as
   a number.

   A state is true of the tables that it was asked of, and a caller knows it as long as calls of this library alone change them:

     servercape_state      gives the state of any tables;
     an accepted open      leaves 1, an accepted finish 2, an accepted load 2: open and load where each table holds its head, as one of servercape_length does;
     a load refused 21 to 24
                           leaves 0, since the tables hold zeros;
     any other call        leaves it as it was: a record, servercape_record_all, a calendar, a list of days, a read, a call that was refused.

   With a state that is true each call is proved to be the one of servercape.h that it is named after: the same number, the same values, the same bytes in every
   slice. With any other number as its state, or tables that something else has changed, the answer means nothing: it may be accepted and wrong, and a record may
   spoil the tables. But every call ends, and it touches nothing outside its slices.

   A call takes the state, then what the other takes, without the tables that it does not use. Slices are as servercape.h has them. */
#ifndef SERVERCAPE_TESTED_H
#define SERVERCAPE_TESTED_H

#include "servercape.h"

#ifdef __cplusplus
extern "C" {
#endif

/* What the test says of tables. */
enum servercape_states {
    SERVERCAPE_NOT_WELL_FORMED = 0, /* they hold no index */
    SERVERCAPE_OPEN = 1,            /* an open index: it takes bookings */
    SERVERCAPE_CLOSED = 2           /* one that is finished or loaded: it is read */
};

/* Tests the tables: one of these states. */
uint64_t servercape_state(
    const uint64_t *pieces, size_t pieces_length,
    const uint64_t *blocks, size_t blocks_length,
    const uint8_t *store, size_t store_length,
    const uint64_t *nodes, size_t nodes_length,
    const uint64_t *entries, size_t entries_length);

/* servercape_record. */
uint64_t servercape_record_tested(
    uint64_t state,
    uint64_t *pieces, size_t pieces_length,
    uint64_t *blocks, size_t blocks_length,
    uint8_t *store, size_t store_length,
    const uint64_t *scratch, size_t scratch_length,
    uint8_t kind, uint64_t tick, uint64_t first,
    const uint8_t *bytes, size_t bytes_length,
    uint64_t *updated, uint64_t *cell);

/* servercape_info. */
uint64_t servercape_info_tested(
    uint64_t state,
    const uint64_t *pieces, size_t pieces_length,
    const uint64_t *blocks, size_t blocks_length,
    const uint64_t *nodes, size_t nodes_length,
    const uint64_t *entries, size_t entries_length,
    struct servercape_info *info);

/* servercape_block. */
uint64_t servercape_block_tested(
    uint64_t state,
    const uint64_t *blocks, size_t blocks_length,
    const uint8_t *store, size_t store_length,
    uint64_t number,
    uint64_t *kind, uint64_t *first, uint64_t *length, uint64_t *created, uint64_t *destroyed, uint64_t *offset);

/* servercape_find. */
uint64_t servercape_find_tested(
    uint64_t state,
    const uint64_t *blocks, size_t blocks_length,
    const uint64_t *nodes, size_t nodes_length,
    const uint64_t *entries, size_t entries_length,
    uint8_t kind, uint64_t tick, uint64_t start, uint64_t end,
    uint64_t *answer, size_t answer_length,
    uint64_t *count, uint64_t *visited);

/* servercape_read_cells. */
uint64_t servercape_read_cells_tested(
    uint64_t state,
    const uint64_t *blocks, size_t blocks_length,
    const uint8_t *store, size_t store_length,
    const uint64_t *nodes, size_t nodes_length,
    const uint64_t *entries, size_t entries_length,
    uint8_t kind, uint64_t tick, uint64_t start, uint64_t end,
    uint8_t *bytes, size_t bytes_length,
    uint8_t *held, size_t held_length);

/* servercape_touching. */
uint64_t servercape_touching_tested(
    uint64_t state,
    const uint64_t *blocks, size_t blocks_length,
    const uint64_t *nodes, size_t nodes_length,
    const uint64_t *entries, size_t entries_length,
    uint8_t kind, uint64_t tick, uint64_t start, uint64_t end,
    uint64_t *answer, size_t answer_length,
    uint64_t *count);

/* servercape_next. */
uint64_t servercape_next_tested(
    uint64_t state,
    const uint64_t *blocks, size_t blocks_length,
    const uint64_t *nodes, size_t nodes_length,
    const uint64_t *entries, size_t entries_length,
    uint8_t kind, uint64_t tick, uint64_t cell,
    uint64_t *found, uint64_t *number);

/* servercape_last. */
uint64_t servercape_last_tested(
    uint64_t state,
    const uint64_t *blocks, size_t blocks_length,
    const uint64_t *nodes, size_t nodes_length,
    const uint64_t *entries, size_t entries_length,
    uint8_t kind, uint64_t tick, uint64_t cell,
    uint64_t *found, uint64_t *number);

/* servercape_occupation. */
uint64_t servercape_occupation_tested(
    uint64_t state,
    const uint64_t *blocks, size_t blocks_length,
    const uint8_t *store, size_t store_length,
    const uint64_t *nodes, size_t nodes_length,
    const uint64_t *entries, size_t entries_length,
    uint8_t kind, uint64_t tick,
    const uint64_t *windows, size_t windows_length,
    uint64_t *occupied, uint64_t *cells, uint64_t *tenths);

/* servercape_write. */
uint64_t servercape_write_tested(
    uint64_t state,
    const uint64_t *blocks, size_t blocks_length,
    const uint8_t *store, size_t store_length,
    const uint64_t *nodes, size_t nodes_length,
    const uint64_t *entries, size_t entries_length,
    uint8_t *out, size_t out_length,
    uint64_t *written);

/* servercape_clock. */
uint64_t servercape_clock_tested(
    uint64_t state,
    const uint64_t *blocks, size_t blocks_length,
    uint64_t cell, uint64_t *label);

#ifdef __cplusplus
}
#endif

#endif
