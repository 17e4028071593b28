/* A board's history that keeps its own tables, for C and C++: this header alone, over the calls
   after one test (servercape_tested.h). Link as servercape.h says.

     struct servercape_index board;
     uint64_t refused = servercape_index_open(&board, 1000, (uint8_t[]){SERVERCAPE_MEMORY}, 1);
     ..
     servercape_index_free(&board);

   Every function returns 0, the number of a refusal, or SERVERCAPE_NO_MEMORY; then the index and
   what was handed over for an answer are as they were. Tables grow by themselves, so refusals 9 to
   13 and 20 do not come up, nor does 16 but where the caller lends the place for an answer. All
   others are those of the call of that name in servercape.h.

   The index knows the state of its tables, so a call takes the time of its own work, and not of
   all rows. Change nothing in the struct, and do not copy it by `=`, which would share the tables:
   servercape_index_clone makes one of its own.

   Answers whose length is not known before go into a list that grows, and that may be handed over
   again for the next call:

     struct servercape_numbers found = {0};
     refused = servercape_index_touching(&board, SERVERCAPE_MEMORY, 6, 101, 103, &found);
     for (size_t k = 0; k < found.count; k++) .. found.numbers[k] ..
     servercape_numbers_free(&found);

   An index is for one thread at a time. What takes it as const changes nothing in it, so several
   threads may call that together, each with lists of its own.

   A pointer for a value may be null where the value is not wanted, and so may one to no elements.
   */
#ifndef SERVERCAPE_INDEX_H
#define SERVERCAPE_INDEX_H

#include "servercape_tested.h"

#include <stdlib.h>
#include <string.h>

/* Where the memory comes from. Define both in front of the include to take it from elsewhere. */
#ifndef SERVERCAPE_REALLOC
#define SERVERCAPE_REALLOC(memory, size) realloc(memory, size)
#define SERVERCAPE_FREE(memory) free(memory)
#endif

/* There is no memory, or no table can be so long. It is no refusal's number. */
#define SERVERCAPE_NO_MEMORY UINT64_MAX

#ifdef __cplusplus
extern "C" {
#endif

/* Numbers, as those of blocks that are listed, with room for some more. All zeros are none. */
struct servercape_numbers {
    uint64_t *numbers;
    size_t count, room;
};

/* The bytes of a file. All zeros are none. */
struct servercape_bytes {
    uint8_t *bytes;
    size_t count, room;
};

/* An index: its tables, of which only the room counts, and what servercape_state says of them. All
   zeros are one that is not opened: every function refuses it 2, and it may be freed. */
struct servercape_index {
    struct servercape_numbers pieces, blocks, nodes, entries;
    struct servercape_bytes store;
    uint64_t scratch[8];
    uint64_t state;
};

/* A block. Its bytes are the index's own: they stay until the index is changed or freed. */
struct servercape_block {
    uint64_t kind, first, length, created, destroyed;
    const uint8_t *bytes;
};

/* A booking, and what became of it: the number of its refusal, or 0 and what it changed. */
struct servercape_operation {
    uint64_t tick, first;
    const uint8_t *bytes;
    size_t length;
};
struct servercape_recorded {
    uint64_t refused, updated, cell;
};

/* A find, and what came of it: the number of its refusal, or 0, how many blocks it lists and how
   many nodes it looked at. */
struct servercape_query {
    uint64_t tick, start, end;
};
struct servercape_found {
    uint64_t refused, count, visited;
};

/* The five tables as the calls of servercape.h take them. */
#define SERVERCAPE_INDEX_TABLES(index)                                                             \
    (index)->pieces.numbers, (index)->pieces.room, SERVERCAPE_INDEX_BLOCKS(index),                 \
        SERVERCAPE_INDEX_STORE(index), SERVERCAPE_INDEX_TREE(index)
#define SERVERCAPE_INDEX_BLOCKS(index) (index)->blocks.numbers, (index)->blocks.room
#define SERVERCAPE_INDEX_STORE(index) (index)->store.bytes, (index)->store.room
#define SERVERCAPE_INDEX_TREE(index)                                                               \
    (index)->nodes.numbers, (index)->nodes.room, (index)->entries.numbers, (index)->entries.room

/* ── memory ── */

/* The refusals that this header answers itself. */
enum servercape_index_refusals {
    SERVERCAPE_INDEX_NOT_OPENED = 2,
    SERVERCAPE_INDEX_NO_PIECES = 9,
    SERVERCAPE_INDEX_NO_BLOCKS = 10,
    SERVERCAPE_INDEX_NO_BYTES = 11,
    SERVERCAPE_INDEX_NO_ANSWER = 16
};

/* Makes memory longer by zeros, where it is not as long. Where there is none it stays. */
static inline uint64_t servercape_index_reserve(void **memory, size_t *room, size_t wanted,
                                                size_t size)
{
    void *longer;
    if (wanted <= *room)
        return 0;
    if (wanted > SIZE_MAX / size)
        return SERVERCAPE_NO_MEMORY;
    longer = SERVERCAPE_REALLOC(*memory, wanted * size);
    if (!longer)
        return SERVERCAPE_NO_MEMORY;
    memset((uint8_t *)longer + *room * size, 0, (wanted - *room) * size);
    *memory = longer;
    *room = wanted;
    return 0;
}

/* Makes room for at least so many numbers. */
static inline uint64_t servercape_numbers_reserve(struct servercape_numbers *list, size_t room)
{
    void *memory = list->numbers;
    uint64_t failed = servercape_index_reserve(&memory, &list->room, room, sizeof(uint64_t));
    list->numbers = (uint64_t *)memory;
    return failed;
}

static inline void servercape_numbers_free(struct servercape_numbers *list)
{
    SERVERCAPE_FREE(list->numbers);
    memset(list, 0, sizeof *list);
}

/* Makes room for at least so many bytes. */
static inline uint64_t servercape_bytes_reserve(struct servercape_bytes *list, size_t room)
{
    void *memory = list->bytes;
    uint64_t failed = servercape_index_reserve(&memory, &list->room, room, 1);
    list->bytes = (uint8_t *)memory;
    return failed;
}

static inline void servercape_bytes_free(struct servercape_bytes *list)
{
    SERVERCAPE_FREE(list->bytes);
    memset(list, 0, sizeof *list);
}

/* Twice a room, or more where that is not enough. Past all numbers it stops. */
static inline size_t servercape_index_twice(size_t room, size_t more)
{
    size_t added = room > more ? room : more;
    return added > SIZE_MAX - room ? SIZE_MAX : room + added;
}

/* The length of a table of so many rows. Where there is none it is one that no memory holds. */
static inline size_t servercape_index_length(uint64_t table, uint64_t rows)
{
    uint64_t length = servercape_length(table, rows);
    return (length == 0 && rows > 0) || length > SIZE_MAX ? SIZE_MAX : (size_t)length;
}

static inline uint64_t servercape_index_rows(struct servercape_numbers *table, uint64_t which,
                                             uint64_t rows)
{
    return servercape_numbers_reserve(table, servercape_index_length(which, rows));
}

/* Makes the table longer for which a booking of so many bytes was refused. */
static inline uint64_t servercape_index_grow(struct servercape_index *index, uint64_t refused,
                                             size_t bytes)
{
    struct servercape_numbers *table;
    if (refused == SERVERCAPE_INDEX_NO_BYTES)
        return servercape_bytes_reserve(&index->store,
                                        servercape_index_twice(index->store.room, bytes));
    table = refused == SERVERCAPE_INDEX_NO_PIECES ? &index->pieces : &index->blocks;
    return servercape_numbers_reserve(table, servercape_index_twice(table->room, 0));
}

/* A slice without elements has an address too. */
static inline const uint8_t *servercape_index_bytes(const uint8_t *bytes)
{
    return bytes ? bytes : (const uint8_t *)"";
}

static inline void servercape_index_tell(uint64_t *where, uint64_t value)
{
    if (where)
        *where = value;
}

/* ── opening, copies ── */

/* Gives the memory of an index back, and leaves one that is not opened. */
static inline void servercape_index_free(struct servercape_index *index)
{
    servercape_numbers_free(&index->pieces);
    servercape_numbers_free(&index->blocks);
    servercape_numbers_free(&index->nodes);
    servercape_numbers_free(&index->entries);
    servercape_bytes_free(&index->store);
    memset(index, 0, sizeof *index);
}

/* Zeros for so many rows of each table, over whatever the struct held. */
static inline uint64_t servercape_index_lend(struct servercape_index *index, uint64_t pieces,
                                             uint64_t blocks, uint64_t bytes, uint64_t nodes,
                                             uint64_t entries)
{
    uint64_t failed;
    memset(index, 0, sizeof *index);
    failed = servercape_index_rows(&index->pieces, SERVERCAPE_PIECES, pieces);
    if (!failed)
        failed = servercape_index_rows(&index->blocks, SERVERCAPE_BLOCKS, blocks);
    if (!failed)
        failed = servercape_index_rows(&index->nodes, SERVERCAPE_NODES, nodes);
    if (!failed)
        failed = servercape_index_rows(&index->entries, SERVERCAPE_ENTRIES, entries);
    if (!failed)
        failed = servercape_bytes_reserve(
            &index->store, servercape_index_length(SERVERCAPE_STORE, bytes ? bytes : 1));
    return failed;
}

/* Keeps what a call has put into the tables, or frees them where it was refused. */
static inline uint64_t servercape_index_settle(struct servercape_index *index, uint64_t state,
                                               uint64_t refused)
{
    if (refused)
        servercape_index_free(index);
    else
        index->state = state;
    return refused;
}

/* Opens an index. The struct is new or was freed: what stands there is overwritten, and after a
   refusal it is one that is not opened. Refusal 1. */
static inline uint64_t servercape_index_open(struct servercape_index *index, uint64_t end_tick,
                                             const uint8_t *kinds, size_t kinds_length)
{
    uint64_t refused = servercape_index_lend(index, 64, 64, 1024, 0, 0);
    if (!refused)
        refused = servercape_open(SERVERCAPE_INDEX_TABLES(index), end_tick,
                                  servercape_index_bytes(kinds), kinds_length);
    return servercape_index_settle(index, SERVERCAPE_OPEN, refused);
}

static inline uint64_t servercape_index_copy_table(struct servercape_numbers *copy,
                                                   const struct servercape_numbers *table)
{
    uint64_t failed = servercape_numbers_reserve(copy, table->room);
    if (!failed)
        memcpy(copy->numbers, table->numbers, table->room * sizeof *table->numbers);
    return failed;
}

/* Makes an index of its own that stands as another one does, into a struct that is new or was
   freed. To read a board that goes on, finish a clone of it. Refusal 2. */
static inline uint64_t servercape_index_clone(struct servercape_index *copy,
                                              const struct servercape_index *index)
{
    uint64_t failed;
    memset(copy, 0, sizeof *copy);
    if (index->state == SERVERCAPE_NOT_WELL_FORMED)
        return SERVERCAPE_INDEX_NOT_OPENED;
    failed = servercape_index_copy_table(&copy->pieces, &index->pieces);
    if (!failed)
        failed = servercape_index_copy_table(&copy->blocks, &index->blocks);
    if (!failed)
        failed = servercape_index_copy_table(&copy->nodes, &index->nodes);
    if (!failed)
        failed = servercape_index_copy_table(&copy->entries, &index->entries);
    if (!failed)
        failed = servercape_bytes_reserve(&copy->store, index->store.room);
    if (!failed)
        memcpy(copy->store.bytes, index->store.bytes, index->store.room);
    return servercape_index_settle(copy, index->state, failed);
}

/* ── what it is ── */

/* SERVERCAPE_OPEN or SERVERCAPE_CLOSED; SERVERCAPE_NOT_WELL_FORMED of one that is not opened. */
static inline uint64_t servercape_index_state(const struct servercape_index *index)
{
    return index->state;
}

/* What stands in an index, open or closed. Refusal 2. */
static inline uint64_t servercape_index_info(const struct servercape_index *index,
                                             struct servercape_info *info)
{
    if (index->state == SERVERCAPE_NOT_WELL_FORMED)
        return SERVERCAPE_INDEX_NOT_OPENED;
    return servercape_info_tested(index->state, index->pieces.numbers, index->pieces.room,
                                  SERVERCAPE_INDEX_BLOCKS(index), SERVERCAPE_INDEX_TREE(index), info);
}

/* The clock label of a cell by the list of days: hours times 100 plus minutes. Refusal 2. */
static inline uint64_t servercape_index_clock(const struct servercape_index *index, uint64_t cell,
                                              uint64_t *label)
{
    uint64_t refused, told = 0;
    if (index->state == SERVERCAPE_NOT_WELL_FORMED)
        return SERVERCAPE_INDEX_NOT_OPENED;
    refused = servercape_clock_tested(index->state, SERVERCAPE_INDEX_BLOCKS(index), cell, &told);
    if (!refused)
        servercape_index_tell(label, told);
    return refused;
}

/* ── recording ── */

/* Records the bytes of the cells of a kind from `first` on, at a tick. Of a booking that changed
   something `updated` is 1 and `cell` the lowest cell that was unknown or had another byte; else
   both are 0. Refusals 2, 3, 25, 5 to 8, 26. */
static inline uint64_t servercape_index_record(struct servercape_index *index, uint8_t kind,
                                               uint64_t tick, uint64_t first, const uint8_t *bytes,
                                               size_t length, uint64_t *updated, uint64_t *cell)
{
    uint64_t refused, update = 0, changed = 0;
    if (index->state == SERVERCAPE_NOT_WELL_FORMED)
        return SERVERCAPE_INDEX_NOT_OPENED;
    do {
        refused = servercape_record_tested(
            index->state, index->pieces.numbers, index->pieces.room, SERVERCAPE_INDEX_BLOCKS(index),
            SERVERCAPE_INDEX_STORE(index), index->scratch, 8, kind, tick, first,
            servercape_index_bytes(bytes), length, &update, &changed);
        if (refused < SERVERCAPE_INDEX_NO_PIECES || refused > SERVERCAPE_INDEX_NO_BYTES)
            break;
        refused = servercape_index_grow(index, refused, length);
    } while (!refused);
    if (!refused) {
        servercape_index_tell(updated, update);
        servercape_index_tell(cell, changed);
    }
    return refused;
}

/* Records bookings of one kind, one after the other, and says of each what became of it: a refused
   one changes nothing, and the next one is recorded. Returns the number of the first one that was
   refused, 0 where none was. */
static inline uint64_t servercape_index_record_all(struct servercape_index *index, uint8_t kind,
                                                   const struct servercape_operation *operations,
                                                   size_t count,
                                                   struct servercape_recorded *answers)
{
    uint64_t first = 0;
    size_t k;
    for (k = 0; k < count; k++) {
        const struct servercape_operation *each = &operations[k];
        struct servercape_recorded answer = {0, 0, 0};
        answer.refused = servercape_index_record(index, kind, each->tick, each->first, each->bytes,
                                                 each->length, &answer.updated, &answer.cell);
        first = first ? first : answer.refused;
        if (answers)
            answers[k] = answer;
    }
    return first;
}

/* Installs station hours, as the numbers of servercape_install_calendar. Refusals 2, 3, 27. */
static inline uint64_t servercape_index_install_calendar(struct servercape_index *index,
                                                         const uint64_t *calendar, size_t length)
{
    if (index->state == SERVERCAPE_NOT_WELL_FORMED)
        return SERVERCAPE_INDEX_NOT_OPENED;
    return servercape_install_calendar(SERVERCAPE_INDEX_TABLES(index),
                                       length ? calendar : index->scratch, length);
}

/* Installs a list of days, as the pairs of servercape_install_days. Refusals 2, 28. */
static inline uint64_t servercape_index_install_days(struct servercape_index *index,
                                                     const uint64_t *days, size_t length)
{
    if (index->state == SERVERCAPE_NOT_WELL_FORMED)
        return SERVERCAPE_INDEX_NOT_OPENED;
    return servercape_install_days(SERVERCAPE_INDEX_TABLES(index), length ? days : index->scratch,
                                   length);
}

/* ── what finish needs ── */

/* How many entries a life has at or below the node [low, high), which it meets from a tick to the
   end, or else from the beginning to a tick. */
static inline uint64_t servercape_index_half(uint64_t low, uint64_t high, uint64_t tick, int to_end)
{
    uint64_t count = 1;
    while (low < tick && tick < high) {
        uint64_t middle = low + (high - low) / 2;
        int left = to_end ? tick < middle : tick <= middle;
        /* where the way goes to one half, the other one is covered or not met */
        count += left == to_end;
        if (left)
            high = middle;
        else
            low = middle;
    }
    return count;
}

/* How many entries a life has: one of each node that it covers, but whose parent it does not. */
static inline uint64_t servercape_index_entries(uint64_t end, uint64_t created, uint64_t destroyed)
{
    uint64_t low = 0, high = end;
    while (created > low || high > destroyed) {
        uint64_t middle = low + (high - low) / 2;
        if (created == destroyed || high - low < 2)
            return 0;
        if (created < middle && middle < destroyed)
            return servercape_index_half(low, middle, created, 1) +
                   servercape_index_half(middle, high, destroyed, 0);
        if (destroyed <= middle)
            high = middle;
        else
            low = middle;
    }
    return 1;
}

/* The way down to a tick: the nodes that have it strictly inside, each half of the one before. */
struct servercape_index_way {
    uint64_t low[64], high[64];
    unsigned depth;
};

static inline void servercape_index_down(struct servercape_index_way *way, uint64_t low,
                                         uint64_t high)
{
    way->low[way->depth] = low;
    way->high[way->depth] = high;
    way->depth++;
}

/* How many nodes are on the way to a tick that were not on the one before, to a lower tick. */
static inline uint64_t servercape_index_go(struct servercape_index_way *way, uint64_t end,
                                           uint64_t tick)
{
    unsigned common;
    while (way->depth > 0 && way->high[way->depth - 1] <= tick)
        way->depth--;
    common = way->depth;
    if (common == 0)
        servercape_index_down(way, 0, end);
    for (;;) {
        uint64_t low = way->low[way->depth - 1], high = way->high[way->depth - 1];
        uint64_t middle = low + (high - low) / 2;
        if (tick == middle)
            return way->depth - common;
        if (tick < middle)
            servercape_index_down(way, low, middle);
        else
            servercape_index_down(way, middle, high);
    }
}

/* Ticks that are noted in any order and told ascending: a bit for each, or a list where that is
   shorter. */
struct servercape_index_ticks {
    struct servercape_numbers list;
    int bits;
};

/* Notes a tick strictly inside [0, end), for which there is room. */
static inline void servercape_index_note(struct servercape_index_ticks *ticks, uint64_t end,
                                         uint64_t tick)
{
    if (tick == 0 || tick >= end)
        return;
    if (ticks->bits)
        ticks->list.numbers[tick / 64] |= UINT64_C(1) << tick % 64;
    else
        ticks->list.numbers[ticks->list.count++] = tick;
}

static inline int servercape_index_compare(const void *one, const void *other)
{
    uint64_t a = *(const uint64_t *)one, b = *(const uint64_t *)other;
    return (a > b) - (a < b);
}

/* How many nodes have one of the ticks strictly inside, or are on the way to tick 0 where a block
   of no life is there. */
static inline uint64_t servercape_index_inner(struct servercape_index_ticks *ticks, uint64_t end,
                                              int from_0)
{
    struct servercape_index_way way;
    uint64_t count, high, *numbers = ticks->list.numbers;
    size_t k, words = ticks->bits ? ticks->list.room : ticks->list.count;
    way.depth = 0;
    for (high = end; from_0 && high > 1; high /= 2)
        servercape_index_down(&way, 0, high);
    count = way.depth;
    if (!ticks->bits)
        qsort(numbers, words, sizeof *numbers, servercape_index_compare);
    for (k = 0; k < words; k++) {
        unsigned bit;
        if (!ticks->bits && (k == 0 || numbers[k] != numbers[k - 1]))
            count += servercape_index_go(&way, end, numbers[k]);
        for (bit = 0; ticks->bits && numbers[k] && bit < 64; bit++)
            if (numbers[k] >> bit & 1)
                count += servercape_index_go(&way, end, 64 * (uint64_t)k + bit);
    }
    return count;
}

/* How many nodes the tree of a kind can have, and how many entries it has. The columns are those of
   docs/LAYOUT.md. */
static inline void servercape_index_need(const struct servercape_index *index,
                                         const struct servercape_info *info, uint64_t kind,
                                         struct servercape_index_ticks *ticks, uint64_t *nodes,
                                         uint64_t *entries)
{
    const uint64_t *row = index->blocks.numbers + servercape_length(SERVERCAPE_BLOCKS, 0);
    uint64_t end = info->end_tick, k, lives = 0;
    int from_0 = 0;
    for (k = 0; k < info->blocks; k++, row += 8) {
        if (row[5] != kind)
            continue;
        lives++;
        from_0 |= row[3] == 0;
        *entries += servercape_index_entries(end, row[2], row[3]);
        servercape_index_note(ticks, end, row[2]);
        servercape_index_note(ticks, end, row[3]);
    }
    for (k = 0, row = index->pieces.numbers + 8; k < info->pieces; k++, row += 8) {
        if (row[7] != kind)
            continue;
        lives++;
        *entries += servercape_index_entries(end, row[2], end);
        servercape_index_note(ticks, end, row[2]);
    }
    if (lives)
        *nodes += 1 + 2 * servercape_index_inner(ticks, end, from_0);
}

/* Makes room for what finish needs, which it counts. */
static inline uint64_t servercape_index_room(struct servercape_index *index)
{
    struct servercape_index_ticks ticks;
    struct servercape_info info;
    uint64_t failed, kind, nodes = 0, entries = 0, words, most;
    failed = servercape_index_info(index, &info);
    if (failed)
        return failed;
    words = info.last_tick / 64 + 1;
    most = 2 * (info.blocks + info.pieces) + 64;
    ticks.bits = words <= most;
    memset(&ticks.list, 0, sizeof ticks.list);
    failed = servercape_numbers_reserve(&ticks.list, (size_t)(ticks.bits ? words : most));
    for (kind = 0; !failed && kind <= SERVERCAPE_OTHER; kind++) {
        servercape_index_need(index, &info, kind, &ticks, &nodes, &entries);
        ticks.list.count = 0;
        if (ticks.bits)
            memset(ticks.list.numbers, 0, ticks.list.room * sizeof *ticks.list.numbers);
    }
    servercape_numbers_free(&ticks.list);
    if (!failed)
        failed = servercape_index_rows(&index->nodes, SERVERCAPE_NODES, nodes);
    if (!failed)
        failed = servercape_index_rows(&index->entries, SERVERCAPE_ENTRIES, entries);
    return failed;
}

/* Finishes an index: it can be read from now on, and takes no more bookings. Refusals 2, 3. */
static inline uint64_t servercape_index_finish(struct servercape_index *index)
{
    uint64_t refused = 0;
    if (index->state == SERVERCAPE_NOT_WELL_FORMED)
        return SERVERCAPE_INDEX_NOT_OPENED;
    if (index->state == SERVERCAPE_OPEN)
        refused = servercape_index_room(index);
    if (!refused)
        refused = servercape_finish(SERVERCAPE_INDEX_TABLES(index));
    if (!refused)
        index->state = SERVERCAPE_CLOSED;
    return refused;
}

/* ── reading a finished index ── */

/* The block of a number, from 0 in recorded order. Refusals 2, 4, 15. */
static inline uint64_t servercape_index_block(const struct servercape_index *index, uint64_t number,
                                              struct servercape_block *block)
{
    uint64_t refused, offset = 0;
    struct servercape_block told = {0, 0, 0, 0, 0, NULL};
    if (index->state == SERVERCAPE_NOT_WELL_FORMED)
        return SERVERCAPE_INDEX_NOT_OPENED;
    refused = servercape_block_tested(index->state, SERVERCAPE_INDEX_BLOCKS(index),
                                      SERVERCAPE_INDEX_STORE(index), number, &told.kind,
                                      &told.first, &told.length, &told.created, &told.destroyed,
                                      &offset);
    if (!refused) {
        told.bytes = index->store.bytes + offset;
        *block = told;
    }
    return refused;
}

/* Puts the blocks that a find lists behind those of a list. */
static inline uint64_t servercape_index_add_found(const struct servercape_index *index,
                                                  uint8_t kind, struct servercape_query query,
                                                  struct servercape_numbers *list,
                                                  uint64_t *visited)
{
    uint64_t refused, count = 0, nodes = 0;
    if (index->state == SERVERCAPE_NOT_WELL_FORMED)
        return SERVERCAPE_INDEX_NOT_OPENED;
    for (refused = servercape_numbers_reserve(list, 64); !refused;
         refused = servercape_numbers_reserve(list, servercape_index_twice(list->room, 0))) {
        refused = servercape_find_tested(index->state, SERVERCAPE_INDEX_BLOCKS(index),
                                         SERVERCAPE_INDEX_TREE(index), kind, query.tick,
                                         query.start, query.end, list->numbers + list->count,
                                         list->room - list->count, &count, &nodes);
        if (refused != SERVERCAPE_INDEX_NO_ANSWER)
            break;
    }
    if (!refused) {
        list->count += (size_t)count;
        servercape_index_tell(visited, nodes);
    }
    return refused;
}

/* The blocks of a kind that are live at a tick and whose first cell is in [start, end), in place of
   what the list had; and how many nodes were looked at. One that starts before the window is not
   listed: servercape_index_touching has all. Refusals 2, 4, 25, 14, 15. */
static inline uint64_t servercape_index_find(const struct servercape_index *index, uint8_t kind,
                                             uint64_t tick, uint64_t start, uint64_t end,
                                             struct servercape_numbers *found, uint64_t *visited)
{
    struct servercape_query query = {0, 0, 0};
    size_t before = found->count;
    uint64_t refused;
    query.tick = tick;
    query.start = start;
    query.end = end;
    found->count = 0;
    refused = servercape_index_add_found(index, kind, query, found, visited);
    if (refused)
        found->count = before;
    return refused;
}

/* Asks many finds of one kind, one after the other, and says of each what came of it. The blocks of
   all stand one behind the other in the list, in place of what it had. Returns the number of the
   first one that was refused, 0 where none was. */
static inline uint64_t servercape_index_find_all(const struct servercape_index *index, uint8_t kind,
                                                 const struct servercape_query *queries,
                                                 size_t count, struct servercape_found *answers,
                                                 struct servercape_numbers *found)
{
    uint64_t first = 0;
    size_t k;
    found->count = 0;
    for (k = 0; k < count; k++) {
        struct servercape_found answer = {0, 0, 0};
        size_t before = found->count;
        answer.refused =
            servercape_index_add_found(index, kind, queries[k], found, &answer.visited);
        answer.count = found->count - before;
        first = first ? first : answer.refused;
        if (answers)
            answers[k] = answer;
    }
    return first;
}

/* The blocks of a kind that are live at a tick and hold any cell of [start, end), ascending by
   first cell, in place of what the list had. Refusals 2, 4, 25, 14, 15. */
static inline uint64_t servercape_index_touching(const struct servercape_index *index, uint8_t kind,
                                                 uint64_t tick, uint64_t start, uint64_t end,
                                                 struct servercape_numbers *found)
{
    uint64_t refused, count = 0;
    if (index->state == SERVERCAPE_NOT_WELL_FORMED)
        return SERVERCAPE_INDEX_NOT_OPENED;
    for (refused = servercape_numbers_reserve(found, 64); !refused;
         refused = servercape_numbers_reserve(found, servercape_index_twice(found->room, 0))) {
        refused = servercape_touching_tested(index->state, SERVERCAPE_INDEX_BLOCKS(index),
                                             SERVERCAPE_INDEX_TREE(index), kind, tick, start, end,
                                             found->numbers, found->room, &count);
        if (refused != SERVERCAPE_INDEX_NO_ANSWER)
            break;
    }
    if (!refused)
        found->count = (size_t)count;
    return refused;
}

/* The first block of a kind that is live at a tick and starts at or after a cell: `found` is 1 and
   `number` its number; both are 0 where there is none. Refusals 2, 4, 25, 14. */
static inline uint64_t servercape_index_next(const struct servercape_index *index, uint8_t kind,
                                             uint64_t tick, uint64_t cell, uint64_t *found,
                                             uint64_t *number)
{
    uint64_t refused, is = 0, which = 0;
    if (index->state == SERVERCAPE_NOT_WELL_FORMED)
        return SERVERCAPE_INDEX_NOT_OPENED;
    refused = servercape_next_tested(index->state, SERVERCAPE_INDEX_BLOCKS(index),
                                     SERVERCAPE_INDEX_TREE(index), kind, tick, cell, &is, &which);
    if (!refused) {
        servercape_index_tell(found, is);
        servercape_index_tell(number, which);
    }
    return refused;
}

/* The last block of a kind that is live at a tick and whose cells are all below a cell, told in the
   same way. Refusals 2, 4, 25, 14. */
static inline uint64_t servercape_index_last(const struct servercape_index *index, uint8_t kind,
                                             uint64_t tick, uint64_t cell, uint64_t *found,
                                             uint64_t *number)
{
    uint64_t refused, is = 0, which = 0;
    if (index->state == SERVERCAPE_NOT_WELL_FORMED)
        return SERVERCAPE_INDEX_NOT_OPENED;
    refused = servercape_last_tested(index->state, SERVERCAPE_INDEX_BLOCKS(index),
                                     SERVERCAPE_INDEX_TREE(index), kind, tick, cell, &is, &which);
    if (!refused) {
        servercape_index_tell(found, is);
        servercape_index_tell(number, which);
    }
    return refused;
}

/* For each cell of [start, end) of a kind at a tick: its byte, and 1 where a live block holds it; 0
   and 0 where none does. The caller lends both, each `length` long. Refusals 2, 4, 25, 14 to 16. */
static inline uint64_t servercape_index_read_cells(const struct servercape_index *index,
                                                   uint8_t kind, uint64_t tick, uint64_t start,
                                                   uint64_t end, uint8_t *bytes, uint8_t *held,
                                                   size_t length)
{
    uint8_t none[2] = {0, 0};
    if (index->state == SERVERCAPE_NOT_WELL_FORMED)
        return SERVERCAPE_INDEX_NOT_OPENED;
    return servercape_read_cells_tested(index->state, SERVERCAPE_INDEX_BLOCKS(index),
                                        SERVERCAPE_INDEX_STORE(index), SERVERCAPE_INDEX_TREE(index),
                                        kind, tick, start, end, length ? bytes : none, length,
                                        length ? held : none + 1, length);
}

/* How many cells of some windows of a kind are occupied at a tick, of all of them together:
   `occupied` / `cells`, reduced fully, and in tenths of a percent. The windows are pairs of numbers,
   start and end. Refusals 2, 4, 25, 14, 15 of any window, 37. */
static inline uint64_t servercape_index_occupation(const struct servercape_index *index,
                                                   uint8_t kind, uint64_t tick,
                                                   const uint64_t *windows, size_t windows_length,
                                                   uint64_t *occupied, uint64_t *cells,
                                                   uint64_t *tenths)
{
    const uint64_t none = 0;
    uint64_t refused, part = 0, whole = 0, share = 0;
    if (index->state == SERVERCAPE_NOT_WELL_FORMED)
        return SERVERCAPE_INDEX_NOT_OPENED;
    refused = servercape_occupation_tested(
        index->state, SERVERCAPE_INDEX_BLOCKS(index), SERVERCAPE_INDEX_STORE(index),
        SERVERCAPE_INDEX_TREE(index), kind, tick, windows_length ? windows : &none, windows_length,
        &part, &whole, &share);
    if (!refused) {
        servercape_index_tell(occupied, part);
        servercape_index_tell(cells, whole);
        servercape_index_tell(tenths, share);
    }
    return refused;
}

/* ── files ── */

/* The file of an index, in place of what `file` had: a part for each kind that has blocks, one
   behind the other. Refusals 2, 4. */
static inline uint64_t servercape_index_write(const struct servercape_index *index,
                                              struct servercape_bytes *file)
{
    struct servercape_info info;
    uint64_t written = 0, most, refused = servercape_index_info(index, &info);
    if (refused)
        return refused;
    /* of each kind its code, a count and a child that is not there; the fields of blocks, and their
       bytes; of nodes a byte, the fields and a child that is not there, and the entries */
    most = 10 * 5 + 33 * info.blocks + info.store + 34 * info.nodes + 8 * info.entries;
    if (info.state == SERVERCAPE_OPEN)
        most = 1;
    refused = servercape_bytes_reserve(file, most > SIZE_MAX ? SIZE_MAX : (size_t)most);
    if (!refused)
        refused = servercape_write_tested(index->state, SERVERCAPE_INDEX_BLOCKS(index),
                                          SERVERCAPE_INDEX_STORE(index),
                                          SERVERCAPE_INDEX_TREE(index), file->bytes, file->room,
                                          &written);
    if (!refused)
        file->count = (size_t)written;
    return refused;
}

/* What is left of a file, and what was counted in front of it. */
struct servercape_index_reader {
    const uint8_t *file;
    size_t left;
    uint64_t blocks, bytes, nodes, entries;
};

static inline int servercape_index_skip(struct servercape_index_reader *reader, uint64_t bytes)
{
    if (bytes > reader->left)
        return 0;
    reader->file += bytes;
    reader->left -= (size_t)bytes;
    return 1;
}

/* Eight little-endian bytes. */
static inline int servercape_index_number(struct servercape_index_reader *reader, uint64_t *number)
{
    int k;
    if (reader->left < 8)
        return 0;
    for (*number = 0, k = 7; k >= 0; k--)
        *number = *number << 8 | reader->file[k];
    return servercape_index_skip(reader, 8);
}

/* Counts a file's blocks: kind, first cell, length, created, destroyed, bytes; then its nodes, root
   first, each a byte, min, max, mid, how many entries, these; a byte 0 for one that is not there.
   It ends where the file does. */
static inline void servercape_index_count(struct servercape_index_reader *reader)
{
    uint64_t count, length, awaited = 1;
    if (!servercape_index_skip(reader, 1) || !servercape_index_number(reader, &count))
        return;
    for (; count > 0; count--) {
        if (!servercape_index_skip(reader, 9) || !servercape_index_number(reader, &length) ||
            !servercape_index_skip(reader, 16) || !servercape_index_skip(reader, length))
            return;
        reader->blocks++;
        reader->bytes += length;
    }
    for (; awaited > 0; awaited--) {
        if (!servercape_index_skip(reader, 1))
            return;
        if (reader->file[-1] == 0)
            continue;
        if (!servercape_index_skip(reader, 24) || !servercape_index_number(reader, &length) ||
            length > reader->left / 8 || !servercape_index_skip(reader, 8 * length))
            return;
        reader->nodes++;
        reader->entries += length;
        awaited += 2;
    }
}

/* Loads a finished index from a file, from position `at` on, into a struct that is new or was
   freed; `next` is the position after it, where the next kind of the same board begins. After a
   refusal it is one that is not opened. Refusals 17 to 19, 21 to 24. */
static inline uint64_t servercape_index_load(struct servercape_index *index, const uint8_t *file,
                                             size_t length, uint64_t at, uint64_t *next)
{
    struct servercape_index_reader reader = {NULL, 0, 0, 0, 0, 0};
    uint64_t refused, behind = 0;
    file = servercape_index_bytes(file);
    if (at < length) {
        reader.file = file + at;
        reader.left = length - (size_t)at;
        servercape_index_count(&reader);
    }
    refused = servercape_index_lend(index, 0, reader.blocks, reader.bytes, reader.nodes,
                                    reader.entries);
    if (!refused)
        refused = servercape_load(SERVERCAPE_INDEX_TABLES(index), file, length, at, &behind);
    if (!refused)
        servercape_index_tell(next, behind);
    return servercape_index_settle(index, SERVERCAPE_CLOSED, refused);
}

#ifdef __cplusplus
}
#endif

#endif
