/* The board's history, for C. `bindings/install PREFIX` puts it where `pkg-config --cflags --libs servercape` finds it; or link dist/libservercape.a of the
   repository. Of other libraries it asks for memset of the C library alone. docs/RULES.md has the rules, and every refusal.

   The two headers are the one source of the signatures: `tools/bindings` writes from them what the Rust crate and the Python package declare, and the
   parameters of the proved exports.

   Every call is proved to give its answer for all slices of any length and content. It returns 0, or the number of the refusal; then nothing
   has changed, the values handed out included (but see servercape_load; servercape_record_all and servercape_find_all have an answer for each call).

   Every call but open and load tests the tables first, so it takes time that grows with the rows in use. A caller with many calls on one index may test them
   once: servercape_tested.h.

   A slice is a pointer and how many elements it has. The proof takes for granted what it takes of every caller in Rust: a pointer is not null and
   aligned, even where the length is 0; the elements are there; what a call may write to overlaps nothing else that it is lent.

   An index is five tables: pieces, blocks, store, nodes, entries. docs/LAYOUT.md says what stands in them; a caller need not know. Lend the same five
   to every call on the index, and change nothing in between, but that any of them may be made longer by zeros: longer tables stand for the same index. So
   after a refusal for want of room, 9 to 13, lengthen what it names (with realloc, say, and zeros behind) and call again. */
#ifndef SERVERCAPE_H
#define SERVERCAPE_H

#include <stddef.h>
#include <stdint.h>

#include "servercape_refusals.h"

#ifdef __cplusplus
extern "C" {
#endif

/* The version of this header. */
#define SERVERCAPE_VERSION "0.2.0"

/* The same as a number: major * 1,000,000 + minor * 1,000 + patch. */
#define SERVERCAPE_VERSION_NUMBER 2000

/* The version of the library that is linked, as SERVERCAPE_VERSION_NUMBER. */
uint64_t servercape_version(void);

/* What `servercape_length` counts. */
enum servercape_table {
    SERVERCAPE_PIECES = 0,  /* the piece table */
    SERVERCAPE_BLOCKS = 1,  /* the block table */
    SERVERCAPE_STORE = 2,   /* the store, in bytes */
    SERVERCAPE_NODES = 3,   /* the node table */
    SERVERCAPE_ENTRIES = 4, /* the entry table */
    SERVERCAPE_SCRATCH = 5  /* the scratch of record: one row is enough, 8 numbers */
};

/* How many numbers (of the store: bytes) to lend for so many rows. 0 where that is no 64-bit number, and for any other table. Of the scratch one row is
   enough: 8 numbers. Of nodes and entries finish needs rows by the end tick E: where E is at most 2^n and n at least 1, for each kind with operations
   1 + 2 * n * t nodes are enough where these were recorded at t different ticks, and 2 * n - 1 entries for each row of the block table. */
uint64_t servercape_length(uint64_t table, uint64_t rows);

/* The largest end tick. */
#define SERVERCAPE_MAX_END_TICK (UINT64_C(1) << 63)

/* The kinds. An index is opened with one or more of them. A cell of one kind is none of another: each call that records or reads cells names the kind, as one
   byte. Tables, block numbers and the last accepted tick are common to all kinds. */
enum servercape_kind {
    SERVERCAPE_CONSTANT = 0, /* the kind constant */
    SERVERCAPE_MEMORY = 1,   /* the kind memory, that of a board of platforms alone */
    SERVERCAPE_REGISTER = 2, /* the kind register */
    SERVERCAPE_UNIQUE = 3,   /* the kind unique */
    SERVERCAPE_OTHER = 4     /* the kind other */
};

/* Opens an index: the end tick is from 1 to SERVERCAPE_MAX_END_TICK. `kinds` has a byte for each kind that is opened; order and repeats do not matter.
   Refusal 1: another end tick, no kind, or one above 4. */
uint64_t servercape_open(
    uint64_t *pieces, size_t pieces_length,
    uint64_t *blocks, size_t blocks_length,
    const uint8_t *store, size_t store_length,
    uint64_t *nodes, size_t nodes_length,
    uint64_t *entries, size_t entries_length,
    uint64_t end_tick,
    const uint8_t *kinds, size_t kinds_length);

/* Records an operation of a kind: the bytes of the cells from `first` on, at a tick. Of an update `updated` is 1 and `cell` the lowest cell that was unknown or
   had another byte; of a read, which changes no cell, both are 0. Of the scratch only the length counts: 8 numbers are enough for any number of pieces, and
   with fewer every call is refused 2. Outside the hours of the installed calendar a byte other than 0 is refused 26, even where it is known; 0 is not.
   Refusals 2, 3, 25, 5 to 8, 26, 9 to 11. */
uint64_t servercape_record(
    uint64_t *pieces, size_t pieces_length,
    uint64_t *blocks, size_t blocks_length,
    uint8_t *store, size_t store_length,
    const uint64_t *nodes, size_t nodes_length,
    const uint64_t *entries, size_t entries_length,
    const uint64_t *scratch, size_t scratch_length,
    uint8_t kind, uint64_t tick, uint64_t first,
    const uint8_t *bytes, size_t bytes_length,
    uint64_t *updated, uint64_t *cell);

/* Records many operations of one kind with one test of the tables. They stand in a row: tick, first cell and length, 8 little-endian bytes each, then the bytes
   of the cells. Of operation i the answers have at 3 * i what servercape_record returns for it, and then `updated` and `cell`, which are 0 where it is refused: a
   refused operation changes nothing, and the next one is played. It ends where the next operation is cut short or no three places for answers are left.
   Returns how many were played, which is no refusal; `next` is the position behind them.
   Of each operation refusals 2, 3, 25, 5 to 8, 26, 9 to 11. */
uint64_t servercape_record_all(
    uint64_t *pieces, size_t pieces_length,
    uint64_t *blocks, size_t blocks_length,
    uint8_t *store, size_t store_length,
    const uint64_t *nodes, size_t nodes_length,
    const uint64_t *entries, size_t entries_length,
    const uint64_t *scratch, size_t scratch_length,
    uint8_t kind,
    const uint8_t *operations, size_t operations_length,
    uint64_t *answers, size_t answers_length,
    uint64_t *next);

/* What stands in an index. */
struct servercape_info {
    uint64_t state;     /* 1 open, 2 closed */
    uint64_t end_tick;  /* the end tick */
    uint64_t last_tick; /* the tick of the last accepted record; 0 before, and of a loaded index */
    uint64_t kinds;     /* bit k is set where kind k was opened */
    uint64_t pieces;    /* rows in use of the piece table */
    uint64_t blocks;    /* rows in use of the block table */
    uint64_t store;     /* bytes in use of the store */
    uint64_t nodes;     /* rows in use of the node table */
    uint64_t entries;   /* rows in use of the entry table */
};

/* Says what stands in an index, open or closed.
   Refusal 2. */
uint64_t servercape_info(
    const uint64_t *pieces, size_t pieces_length,
    const uint64_t *blocks, size_t blocks_length,
    const uint8_t *store, size_t store_length,
    const uint64_t *nodes, size_t nodes_length,
    const uint64_t *entries, size_t entries_length,
    struct servercape_info *info);

/* Finishes an index: its blocks can be read, and it takes no more operations. Each kind with blocks has a tree of its own, and all of them share the nodes and
   the entries.
   Refusals 2, 3, 12, 13. */
uint64_t servercape_finish(
    uint64_t *pieces, size_t pieces_length,
    uint64_t *blocks, size_t blocks_length,
    const uint8_t *store, size_t store_length,
    uint64_t *nodes, size_t nodes_length,
    uint64_t *entries, size_t entries_length);

/* Installs a calendar into an open index, in place of the one before; until the first, every cell is open. Day 0 is a Monday, and which day a cell falls on
   and what the clock shows then go by the list of days (servercape_install_days). A cell is open if a window [from, to), in minutes of the day as the clock
   shows them, of its weekday covers it; on a special day only the windows of that day count, and without any it is closed. The numbers are: seven times a count of windows and eight pairs from, to, Monday first; a count of special days; as many times a day number, a
   count and eight pairs. A number past the slice's end is 0, pairs past a count are not looked at, and nothing is read past the 64th special day, 1,272 numbers
   in all.
   Refusals 2, 3, 27: from >= to, to above 1440, more than eight windows or 64 special days, or special days that do not ascend. */
uint64_t servercape_install_calendar(
    const uint64_t *pieces, size_t pieces_length,
    uint64_t *blocks, size_t blocks_length,
    const uint8_t *store, size_t store_length,
    const uint64_t *nodes, size_t nodes_length,
    const uint64_t *entries, size_t entries_length,
    const uint64_t *calendar, size_t calendar_length);

/* Installs a list of days that have 1,380 or 1,500 minutes, into an open or a closed index, in place of the one before; every other day has 1,440, and until
   the first list all have. The numbers are pairs, a day and its minutes, ascending by day, at most 64; an empty list takes the one before back. Minutes count
   elapsed time: a day starts where the one before ends, so a listed day moves all later ones. On a short day the clock goes from 01:59 to 03:00, on a long one it
   shows 02:00 to 02:59 twice. For operators in Central European Time these are the last Sundays of March and October: with day 0 on a Monday of your choice, a
   date's number is how many days it lies after that Monday. What is booked already stays, and no file holds the list.
   Refusals 2, 28: days that do not ascend, more than 64, or one of another length; a last day without its minutes has 0 of them. */
uint64_t servercape_install_days(
    const uint64_t *pieces, size_t pieces_length,
    uint64_t *blocks, size_t blocks_length,
    const uint8_t *store, size_t store_length,
    const uint64_t *nodes, size_t nodes_length,
    const uint64_t *entries, size_t entries_length,
    const uint64_t *days, size_t days_length);

/* The block of a number, from 0 in recorded order, whatever its kind, which is told. Its bytes are store[offset] to store[offset + length - 1]. It is live from
   tick `created` up to, and not including, `destroyed`.
   Refusals 2, 4, 15. */
uint64_t servercape_block(
    const uint64_t *pieces, size_t pieces_length,
    const uint64_t *blocks, size_t blocks_length,
    const uint8_t *store, size_t store_length,
    const uint64_t *nodes, size_t nodes_length,
    const uint64_t *entries, size_t entries_length,
    uint64_t number,
    uint64_t *kind, uint64_t *first, uint64_t *length, uint64_t *created, uint64_t *destroyed, uint64_t *offset);

/* The blocks of a kind that are live at a tick and whose first cell is in [start, end): their numbers go into the answer. `count` says how many, `visited`
   how many nodes were looked at. A block that starts before the window and reaches into it is not listed: to look for conflicts, call servercape_touching.
   Refusals 2, 4, 25, 14 to 16. */
uint64_t servercape_find(
    const uint64_t *pieces, size_t pieces_length,
    const uint64_t *blocks, size_t blocks_length,
    const uint8_t *store, size_t store_length,
    const uint64_t *nodes, size_t nodes_length,
    const uint64_t *entries, size_t entries_length,
    uint8_t kind, uint64_t tick, uint64_t start, uint64_t end,
    uint64_t *answer, size_t answer_length,
    uint64_t *count, uint64_t *visited);

/* Asks many finds of one kind with one test of the tables. A query is three numbers: tick, start, end. Of query i the answers have at 3 * i what
   servercape_find returns for it, and then `count` and `visited`, which are 0 where it is refused. The block numbers of all go one behind the other into
   `numbers`; a query is lent what is left there, and refused 16 where that does not hold its own. It ends where no three numbers of a query or no three places
   for its answer are left.
   Returns how many were asked, which is no refusal.
   Of each query refusals 2, 4, 25, 14 to 16. */
uint64_t servercape_find_all(
    const uint64_t *pieces, size_t pieces_length,
    const uint64_t *blocks, size_t blocks_length,
    const uint8_t *store, size_t store_length,
    const uint64_t *nodes, size_t nodes_length,
    const uint64_t *entries, size_t entries_length,
    uint8_t kind,
    const uint64_t *queries, size_t queries_length,
    uint64_t *answers, size_t answers_length,
    uint64_t *numbers, size_t numbers_length);

/* For each cell of [start, end) of a kind at a tick: its byte, and 1 where a live block holds it; 0 and 0 where none does.
   Refusals 2, 4, 25, 14 to 16. */
uint64_t servercape_read_cells(
    const uint64_t *pieces, size_t pieces_length,
    const uint64_t *blocks, size_t blocks_length,
    const uint8_t *store, size_t store_length,
    const uint64_t *nodes, size_t nodes_length,
    const uint64_t *entries, size_t entries_length,
    uint8_t kind, uint64_t tick, uint64_t start, uint64_t end,
    uint8_t *bytes, size_t bytes_length,
    uint8_t *held, size_t held_length);

/* The blocks of a kind that are live at a tick and hold any cell of [start, end), those that start before the window too: their numbers go into the answer,
   ascending by first cell, and `count` says how many. An empty window has no cell, so it lists none.
   Refusals 2, 4, 25, 14 to 16. */
uint64_t servercape_touching(
    const uint64_t *pieces, size_t pieces_length,
    const uint64_t *blocks, size_t blocks_length,
    const uint8_t *store, size_t store_length,
    const uint64_t *nodes, size_t nodes_length,
    const uint64_t *entries, size_t entries_length,
    uint8_t kind, uint64_t tick, uint64_t start, uint64_t end,
    uint64_t *answer, size_t answer_length,
    uint64_t *count);

/* The first block of a kind that is live at a tick and starts at or after a cell: `found` is 1 and `number` its number; both are 0 where there is none.
   Refusals 2, 4, 25, 14. */
uint64_t servercape_next(
    const uint64_t *pieces, size_t pieces_length,
    const uint64_t *blocks, size_t blocks_length,
    const uint8_t *store, size_t store_length,
    const uint64_t *nodes, size_t nodes_length,
    const uint64_t *entries, size_t entries_length,
    uint8_t kind, uint64_t tick, uint64_t cell,
    uint64_t *found, uint64_t *number);

/* The last block of a kind that is live at a tick and whose cells are all below a cell, told in the same way. One that reaches over the cell is passed over;
   one that ends at it counts.
   Refusals 2, 4, 25, 14. */
uint64_t servercape_last(
    const uint64_t *pieces, size_t pieces_length,
    const uint64_t *blocks, size_t blocks_length,
    const uint8_t *store, size_t store_length,
    const uint64_t *nodes, size_t nodes_length,
    const uint64_t *entries, size_t entries_length,
    uint8_t kind, uint64_t tick, uint64_t cell,
    uint64_t *found, uint64_t *number);

/* How many cells of some windows of a kind are occupied at a tick: held, with a byte other than 0.
   The windows are pairs of numbers, start and end; a last start without its end has the end 0. They
   may be of several platforms and overlap: all are taken together, and a cell that several of them
   have counts for each. `occupied` / `cells` is that fraction of all cells, reduced fully, and 0 / 1
   where none is occupied. `tenths` of a percent are from 0 to 1,000: the nearest, and of two that
   are as near the even one. It takes the time of the live blocks in the windows.
   Refusals 2, 4, 25, 14, 15 of any window, 37: there is no cell in any window, or there are more
   than 256 windows, or more than 2^32 cells in all of them together. */
uint64_t servercape_occupation(
    const uint64_t *pieces, size_t pieces_length,
    const uint64_t *blocks, size_t blocks_length,
    const uint8_t *store, size_t store_length,
    const uint64_t *nodes, size_t nodes_length,
    const uint64_t *entries, size_t entries_length,
    uint8_t kind, uint64_t tick,
    const uint64_t *windows, size_t windows_length,
    uint64_t *occupied, uint64_t *cells, uint64_t *tenths);

/* Writes the file of an index from the start of `out` on; `written` says how many bytes. Where several kinds have blocks, their trees stand one behind the other,
   by kind code, each with its own blocks, numbered from 0: each is a file that servercape_load takes.
   Refusals 2, 4, 16. */
uint64_t servercape_write(
    const uint64_t *pieces, size_t pieces_length,
    const uint64_t *blocks, size_t blocks_length,
    const uint8_t *store, size_t store_length,
    const uint64_t *nodes, size_t nodes_length,
    const uint64_t *entries, size_t entries_length,
    uint8_t *out, size_t out_length,
    uint64_t *written);

/* Loads a finished index from a file, from position `at` on; `next` is the position after it. The tables need not be opened. It takes one tree and opens its kind
   alone; the next kind of the same file begins at `next`. It has no list of days: install it anew. After refusals 21 to 24 the tables hold zeros.
   Refusals 17 to 24. */
uint64_t servercape_load(
    uint64_t *pieces, size_t pieces_length,
    uint64_t *blocks, size_t blocks_length,
    uint8_t *store, size_t store_length,
    uint64_t *nodes, size_t nodes_length,
    uint64_t *entries, size_t entries_length,
    const uint8_t *file, size_t file_length,
    uint64_t at, uint64_t *next);

/* The clock label of a cell of an open or a closed index, by its list of days: hours times 100 plus minutes.
   Refusal 2. */
uint64_t servercape_clock(
    const uint64_t *pieces, size_t pieces_length,
    const uint64_t *blocks, size_t blocks_length,
    const uint8_t *store, size_t store_length,
    const uint64_t *nodes, size_t nodes_length,
    const uint64_t *entries, size_t entries_length,
    uint64_t cell, uint64_t *label);

#ifdef __cplusplus
}
#endif

#endif
