/* What both tests of the calls have in common: checks that are counted, and an index with its tables. Around each slice stand bytes that no call may touch. */
#include "../servercape.h"

#include <stdio.h>
#include <stdlib.h>
#include <string.h>

static int checks, wrong;

static inline void same(const char *what, uint64_t got, uint64_t want)
{
    checks++;
    if (got != want) {
        wrong++;
        printf("%s: %llu, and not %llu\n", what, (unsigned long long)got, (unsigned long long)want);
    }
}

/* ── slices ── */

enum { GUARD = 64, GUARDED = 0xC3, GARBAGE = 0xA5 };

/* Garbage: what stood in a table before must not matter. */
static inline void *filled(size_t bytes)
{
    uint8_t *p = malloc(GUARD + bytes + GUARD);
    if (!p)
        exit(2);
    memset(p, GUARDED, GUARD + bytes + GUARD);
    memset(p + GUARD, GARBAGE, bytes);
    return p + GUARD;
}

/* Nothing before or behind the slice was touched. */
static inline void untouched(const char *what, const void *slice, size_t bytes)
{
    const uint8_t *p = slice;
    size_t touched = 0;
    for (size_t i = 0; i < GUARD; i++)
        touched += (size_t)(p[-(ptrdiff_t)i - 1] != GUARDED) + (size_t)(p[bytes + i] != GUARDED);
    same(what, touched, 0);
}

static inline void let_go(void *slice, size_t bytes)
{
    untouched("around a slice", slice, bytes);
    free((uint8_t *)slice - GUARD);
}

/* ── an index with its tables ── */

struct lent {
    uint64_t *pieces, *blocks, *nodes, *entries, *scratch;
    uint8_t *store;
    size_t pieces_length, blocks_length, store_length, nodes_length, entries_length, scratch_length;
};

static inline struct lent lend(uint64_t pieces, uint64_t blocks, uint64_t store, uint64_t nodes, uint64_t entries)
{
    struct lent x;
    x.pieces_length = servercape_length(SERVERCAPE_PIECES, pieces);
    x.blocks_length = servercape_length(SERVERCAPE_BLOCKS, blocks);
    x.store_length = servercape_length(SERVERCAPE_STORE, store);
    x.nodes_length = servercape_length(SERVERCAPE_NODES, nodes);
    x.entries_length = servercape_length(SERVERCAPE_ENTRIES, entries);
    x.scratch_length = servercape_length(SERVERCAPE_SCRATCH, 1);
    x.pieces = filled(8 * x.pieces_length);
    x.blocks = filled(8 * x.blocks_length);
    x.store = filled(x.store_length);
    x.nodes = filled(8 * x.nodes_length);
    x.entries = filled(8 * x.entries_length);
    x.scratch = filled(8 * x.scratch_length);
    return x;
}

static inline void give_back(struct lent x)
{
    let_go(x.pieces, 8 * x.pieces_length);
    let_go(x.blocks, 8 * x.blocks_length);
    let_go(x.store, x.store_length);
    let_go(x.nodes, 8 * x.nodes_length);
    let_go(x.entries, 8 * x.entries_length);
    let_go(x.scratch, 8 * x.scratch_length);
}

/* A set of one kind, as a slice. */
#define ONLY(kind) (const uint8_t[]){kind}, 1

/* The five slices, in the order that every call has. */
#define TABLES(x)                                                                                                                                    \
    (x).pieces, (x).pieces_length, (x).blocks, (x).blocks_length, (x).store, (x).store_length, (x).nodes, (x).nodes_length, (x).entries,             \
        (x).entries_length
