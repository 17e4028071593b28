/* servercape_index.h: every function beside the public call of its name in tables that are large
   enough, every way to grow, every allocation refused once, and what is told of one that is not
   opened. Prints how many checks it made, and every one that failed. */
#include <stddef.h>

static void *limited_realloc(void *memory, size_t size);
static void counted_free(void *memory);

#define SERVERCAPE_REALLOC limited_realloc
#define SERVERCAPE_FREE counted_free
#include "../servercape_index.h"

#include "lent.h"

#include <unistd.h>

/* ── memory that is counted, and that may be refused ── */

static long held, asked, refuse_at;

static void *limited_realloc(void *memory, size_t size)
{
    void *longer;
    if (++asked == refuse_at)
        return NULL;
    longer = realloc(memory, size);
    held += longer && !memory;
    return longer;
}

static void counted_free(void *memory)
{
    held -= memory != NULL;
    free(memory);
}

/* ── boards ── */

static uint64_t seed = 1;

static uint64_t below(uint64_t limit)
{
    seed = seed * 6364136223846793005u + 1442695040888963407u;
    return (seed >> 33) % limit;
}

static const uint8_t both_kinds[] = {SERVERCAPE_OTHER, SERVERCAPE_MEMORY};

/* The state that is remembered is that of the tables. */
static void true_state(const struct servercape_index *x)
{
    same("the state", servercape_state(SERVERCAPE_INDEX_TABLES(x)), servercape_index_state(x));
}

/* An open index and the same in tables that are large enough. */
static void open_both(struct servercape_index *x, struct lent *y, uint64_t end)
{
    *y = lend(4096, 8192, 65536, 65536, 65536);
    same("open", servercape_index_open(x, end, both_kinds, 2), 0);
    same("open", servercape_open(TABLES(*y), end, both_kinds, 2), 0);
}

static void record_both(struct servercape_index *x, struct lent y, uint8_t kind, uint64_t tick,
                        uint64_t first, const uint8_t *bytes, size_t length)
{
    uint64_t a = 77, b = 77, c = 77, d = 77;
    uint64_t got = servercape_index_record(x, kind, tick, first, bytes, length, &a, &b);
    same("record", got,
         servercape_record(TABLES(y), y.scratch, 8, kind, tick, first, bytes, length, &c, &d));
    same("updated", a, c);
    same("its cell", b, d);
}

/* Random bookings, some of them refused. */
static void play_both(struct servercape_index *x, struct lent y, uint64_t end, int count)
{
    uint8_t bytes[9];
    for (int k = 0; k < count; k++) {
        uint8_t kind = (uint8_t)(below(20) == 0 ? 9
                                 : below(2)     ? SERVERCAPE_MEMORY
                                                : SERVERCAPE_OTHER);
        uint64_t tick = (uint64_t)k * (end / (uint64_t)count) + below(3);
        size_t length = (size_t)below(9);
        memset(bytes, (int)below(4), sizeof bytes);
        record_both(x, y, kind, tick, below(70), bytes, length);
    }
}

/* What stands in both is told alike. */
static void same_info(const struct servercape_index *x, struct lent y)
{
    const uint64_t *head = y.blocks + servercape_length(SERVERCAPE_BLOCKS, 0) - 8;
    struct servercape_info info = {0};
    same("info", servercape_index_info(x, &info), 0);
    same("its state", info.state, servercape_state(TABLES(y)));
    same("its end tick", info.end_tick, head[1]);
    same("its kinds", info.kinds, head[2]);
    same("its blocks", info.blocks, head[3]);
    same("its bytes", info.store, head[4]);
    same("its last tick", info.last_tick, head[5]);
    same("its pieces", info.pieces, y.pieces[1]);
    same("its nodes", info.nodes, y.nodes[5]);
    same("its entries", info.entries, y.entries[0]);
}

static void same_blocks(const struct servercape_index *x, struct lent y)
{
    for (uint64_t n = 0;; n++) {
        struct servercape_block block = {0};
        uint64_t v[6], got = servercape_index_block(x, n, &block);
        same("block", got,
             servercape_block(TABLES(y), n, &v[0], &v[1], &v[2], &v[3], &v[4], &v[5]));
        if (got)
            break;
        same("its kind", block.kind, v[0]);
        same("its first cell", block.first, v[1]);
        same("its length", block.length, v[2]);
        same("its life", block.created << 32 | block.destroyed, v[3] << 32 | v[4]);
        same("its bytes", (uint64_t)memcmp(block.bytes, y.store + v[5], v[2]), 0);
    }
}

enum { LISTED = 8192, CELLS = 80 };

/* Every read of a window by both. */
static void same_window(const struct servercape_index *x, struct lent y, uint8_t kind,
                        uint64_t tick, uint64_t start, uint64_t end,
                        struct servercape_numbers *found)
{
    static uint64_t listed[LISTED];
    uint64_t a = 77, b = 77, c = 77, d = 77, got;
    uint8_t bytes[2][CELLS], marks[2][CELLS];
    got = servercape_index_find(x, kind, tick, start, end, found, &a);
    same("find", got, servercape_find(TABLES(y), kind, tick, start, end, listed, LISTED, &c, &b));
    if (!got) {
        same("its visits", a, b);
        same("its count", found->count, c);
        same("its blocks", (uint64_t)memcmp(found->numbers, listed, 8 * found->count), 0);
    }
    got = servercape_index_touching(x, kind, tick, start, end, found);
    same("touching", got,
         servercape_touching(TABLES(y), kind, tick, start, end, listed, LISTED, &c));
    if (!got) {
        same("its count", found->count, c);
        same("its blocks", (uint64_t)memcmp(found->numbers, listed, 8 * found->count), 0);
    }
    a = b = c = d = 77;
    same("next", servercape_index_next(x, kind, tick, start, &a, &b),
         servercape_next(TABLES(y), kind, tick, start, &c, &d));
    same("its block", a << 32 | b, c << 32 | d);
    same("last", servercape_index_last(x, kind, tick, end, &a, &b),
         servercape_last(TABLES(y), kind, tick, end, &c, &d));
    same("its block", a << 32 | b, c << 32 | d);
    memset(bytes, 77, sizeof bytes);
    memset(marks, 77, sizeof marks);
    same(
        "cells", servercape_index_read_cells(x, kind, tick, start, end, bytes[0], marks[0], CELLS),
        servercape_read_cells(TABLES(y), kind, tick, start, end, bytes[1], CELLS, marks[1], CELLS));
    same("their bytes", (uint64_t)memcmp(bytes[0], bytes[1], CELLS), 0);
    same("their marks", (uint64_t)memcmp(marks[0], marks[1], CELLS), 0);
}

/* Reports on none, one and several windows by both; values that are not wanted are left out. */
static void same_reports(const struct servercape_index *x, struct lent y, uint8_t kind,
                         uint64_t tick)
{
    uint64_t windows[2 * 257], told[3], other[3];
    for (size_t k = 0; k < 257; k++) {
        windows[2 * k] = below(75);
        windows[2 * k + 1] = windows[2 * k] + below(75) - (below(400) ? 0 : 1);
    }
    for (size_t length = 0; length <= 514; length += 1 + below(40)) {
        told[0] = told[1] = told[2] = other[0] = other[1] = other[2] = 77;
        same("occupation",
             servercape_index_occupation(x, kind, tick, length ? windows : NULL, length, &told[0],
                                         &told[1], &told[2]),
             servercape_occupation(TABLES(y), kind, tick, windows, length, &other[0], &other[1],
                                   &other[2]));
        same("its values", (uint64_t)memcmp(told, other, sizeof told), 0);
    }
    same("values that are left out",
         servercape_index_occupation(x, kind, tick, windows, 2, NULL, NULL, NULL),
         servercape_occupation(TABLES(y), kind, tick, windows, 2, &other[0], &other[1],
                               &other[2]));
}

static void same_reads(const struct servercape_index *x, struct lent y, uint64_t end)
{
    struct servercape_numbers found = {0};
    true_state(x);
    same_info(x, y);
    same_blocks(x, y);
    for (int k = 0; k < 40; k++) {
        uint8_t kind = (uint8_t)(below(20) == 0 ? 9
                                 : below(2)     ? SERVERCAPE_MEMORY
                                                : SERVERCAPE_OTHER);
        uint64_t a = 77, b = 77, cell = below(UINT64_C(1) << 31);
        uint64_t tick = below(10) ? below(end) : end;
        same_window(x, y, kind, tick, below(75), below(75), &found);
        if (k % 10 == 0)
            same_reports(x, y, kind, tick);
        same("clock", servercape_index_clock(x, cell, &a), servercape_clock(TABLES(y), cell, &b));
        same("its label", a, b);
    }
    servercape_numbers_free(&found);
}

/* The same files, which are loaded part by part. */
static void same_files(const struct servercape_index *x, struct lent y)
{
    static uint8_t written[1 << 20];
    struct servercape_bytes file = {0}, again = {0};
    uint64_t size = 0, at = 0, next = 0, got = servercape_index_write(x, &file);
    same("write", got, servercape_write(TABLES(y), written, sizeof written, &size));
    same("its length", got ? 0 : file.count, size);
    same("its bytes", got ? 0 : (uint64_t)memcmp(file.bytes, written, file.count), 0);
    while (!got && at < file.count) {
        struct servercape_index loaded;
        struct lent other = lend(64, 8192, 65536, 65536, 65536);
        same("load", servercape_index_load(&loaded, file.bytes, file.count, at, &next), 0);
        same("load", servercape_load(TABLES(other), file.bytes, file.count, at, &size), 0);
        same("behind it", next, size);
        true_state(&loaded);
        same_info(&loaded, other);
        same_blocks(&loaded, other);
        same("just room for its blocks", loaded.blocks.room,
             servercape_length(SERVERCAPE_BLOCKS, loaded.blocks.numbers[2043]));
        same("and its nodes", loaded.nodes.room,
             servercape_length(SERVERCAPE_NODES, loaded.nodes.numbers[5]));
        same("and its entries", loaded.entries.room,
             servercape_length(SERVERCAPE_ENTRIES, loaded.entries.numbers[0]));
        same("write it again", servercape_index_write(&loaded, &again), 0);
        same("the same bytes",
             again.count == next - at && memcmp(again.bytes, file.bytes + at, again.count) == 0, 1);
        servercape_index_free(&loaded);
        give_back(other);
        at = next;
    }
    servercape_bytes_free(&file);
    servercape_bytes_free(&again);
}

/* Boards of several end ticks, with hours and lists of days, read as clones while they go on. */
static void beside_the_calls(void)
{
    static const uint64_t ends[] = {1,
                                    2,
                                    3,
                                    7,
                                    8,
                                    1000,
                                    1023,
                                    1 << 20,
                                    UINT64_C(1) << 40,
                                    (UINT64_C(1) << 63) - 25,
                                    UINT64_C(1) << 63};
    static const uint64_t hours[] = {1, 0, 60}, days[] = {0, 1380, 2, 1500},
                          wrong_days[] = {0, 1440};
    static const uint8_t free_minute[] = {0};
    for (size_t turn = 0; turn < 44; turn++) {
        uint64_t end = ends[turn % 11];
        struct servercape_index x, now;
        struct lent y;
        open_both(&x, &y, end);
        if (turn % 3 == 0) {
            same("hours",
                 servercape_index_install_calendar(&x, hours, 3) +
                     servercape_install_calendar(TABLES(y), hours, 3),
                 0);
            same("days",
                 servercape_index_install_days(&x, days, 4) +
                     servercape_install_days(TABLES(y), days, 4),
                 0);
            same("no list of days", servercape_index_install_days(&x, wrong_days, 2), 28);
            same("no list",
                 servercape_index_install_days(&x, NULL, 0) +
                     servercape_install_days(TABLES(y), days, 0),
                 0);
            same("days again",
                 servercape_index_install_days(&x, days, 4) +
                     servercape_install_days(TABLES(y), days, 4),
                 0);
        }
        if (turn % 4 == 1)
            same("no hours at all",
                 servercape_index_install_calendar(&x, NULL, 0) +
                     servercape_install_calendar(TABLES(y), days, 0),
                 0);
        play_both(&x, y, end, (int)(turn * 5));
        same_reads(&x, y, end); /* each is refused 4 */
        same_files(&x, y);
        same("clone", servercape_index_clone(&now, &x), 0);
        same("finish", servercape_index_finish(&now), servercape_finish(TABLES(y)));
        same("the other one is open", servercape_index_state(&x), SERVERCAPE_OPEN);
        same("it goes on",
             servercape_index_record(&x, SERVERCAPE_MEMORY, end - 1, 5000, free_minute, 1, NULL,
                                     NULL),
             0);
        same_reads(&now, y, end);
        same_files(&now, y);
        same("just room for the entries", now.entries.room,
             servercape_length(SERVERCAPE_ENTRIES, now.entries.numbers[0]));
        same("and not for twice the nodes",
             now.nodes.room <= servercape_length(SERVERCAPE_NODES, 2 * now.nodes.numbers[5]), 1);
        same("finished twice", servercape_index_finish(&now), 3);
        same("a list of days of a finished one",
             servercape_index_install_days(&now, days, 4) +
                 servercape_install_days(TABLES(y), days, 4),
             0);
        same_reads(&now, y, end);
        servercape_index_free(&x);
        servercape_index_free(&now);
        give_back(y);
    }
    same("all memory is given back", (uint64_t)held, 0);
}

/* ── many at once, and every table grows ── */

enum { MANY = 6000 };

static void many_at_once(void)
{
    static struct servercape_operation operations[MANY];
    static struct servercape_recorded answers[MANY];
    static struct servercape_query queries[MANY];
    static struct servercape_found found[MANY];
    static uint8_t bytes[40000];
    struct servercape_index one, all;
    struct servercape_numbers list = {0}, other = {0};
    size_t at = 0;
    for (size_t k = 0; k < MANY; k++) {
        uint64_t far_back = k > 10 && k % 10 == 0 ? 2 : 0;
        operations[k] = (struct servercape_operation){k - far_back, 1000 * below(40) + k % 7,
                                                      bytes + k, 1 + (size_t)below(20)};
        queries[k] = (struct servercape_query){k, 0, k % 50 == 0 ? UINT64_MAX : 20000};
    }
    for (size_t k = 0; k < sizeof bytes; k++)
        bytes[k] = (uint8_t)below(5);
    queries[7].tick = MANY;
    queries[8].start = 30000;
    operations[MANY - 1].bytes = bytes;
    operations[MANY - 1].length = sizeof bytes;
    same("open",
         servercape_index_open(&one, MANY, both_kinds, 2) +
             servercape_index_open(&all, MANY, both_kinds, 2),
         0);
    same("the first refusal",
         servercape_index_record_all(&all, SERVERCAPE_MEMORY, operations, MANY, answers), 8);
    for (size_t k = 0; k < MANY; k++) {
        uint64_t updated = 0, cell = 0;
        same("record",
             servercape_index_record(&one, SERVERCAPE_MEMORY, operations[k].tick,
                                     operations[k].first, operations[k].bytes, operations[k].length,
                                     &updated, &cell),
             answers[k].refused);
        same("updated", updated, answers[k].updated);
        same("its cell", cell, answers[k].cell);
    }
    same("answers may be left out",
         servercape_index_record_all(&one, SERVERCAPE_MEMORY, operations + MANY - 1, 1, NULL), 0);
    true_state(&one);
    true_state(&all);
    same("finish", servercape_index_finish(&one) + servercape_index_finish(&all), 0);
    true_state(&all);
    same("the first refusal",
         servercape_index_find_all(&all, SERVERCAPE_MEMORY, queries, MANY, found, &list), 14);
    for (size_t k = 0; k < MANY; k++) {
        uint64_t visited = 0;
        other.count = 0;
        same("find",
             servercape_index_find(&one, SERVERCAPE_MEMORY, queries[k].tick, queries[k].start,
                                   queries[k].end, &other, &visited),
             found[k].refused);
        same("its count", other.count, found[k].count);
        same("its visits", visited, found[k].visited);
        same("its blocks", (uint64_t)memcmp(other.numbers, list.numbers + at, 8 * other.count), 0);
        at += other.count;
    }
    same("all of them", at, list.count);
    same("a refused find leaves the list",
         servercape_index_find(&one, 9, 0, 0, 1, &list, NULL) == 25 && list.count == at, 1);
    servercape_numbers_free(&list);
    servercape_numbers_free(&other);
    servercape_index_free(&one);
    servercape_index_free(&all);
    same("all memory is given back", (uint64_t)held, 0);
}

/* ── no memory ── */

/* A session, in which a call that finds no memory leaves all as it was and is made again. Returns
   how often one found none. */
static int session(struct servercape_bytes *file)
{
    struct servercape_index board, now, loaded;
    struct servercape_numbers found = {0};
    struct servercape_info before = {0}, after = {0};
    uint64_t got, visited, next;
    int failed = 0;
    while ((got = servercape_index_open(&board, 100000, both_kinds, 2)) != 0)
        same("no memory to open", got, SERVERCAPE_NO_MEMORY),
            same("nothing is left", servercape_index_record(&board, 1, 0, 0, NULL, 0, NULL, NULL),
                 2),
            failed++;
    for (uint64_t k = 0; k < 700; k++) {
        uint8_t bytes[30];
        memset(bytes, (int)(k % 5), sizeof bytes);
        servercape_index_info(&board, &before);
        while ((got = servercape_index_record(&board, k % 2 ? SERVERCAPE_MEMORY : SERVERCAPE_OTHER,
                                              k, 17 * (k % 90), bytes, sizeof bytes, NULL, NULL)) !=
               0) {
            same("no memory to record", got, SERVERCAPE_NO_MEMORY), failed++;
            servercape_index_info(&board, &after);
            same("it is as it was", (uint64_t)memcmp(&before, &after, sizeof before), 0);
            true_state(&board);
        }
    }
    while ((got = servercape_index_clone(&now, &board)) != 0)
        same("no memory to clone", got, SERVERCAPE_NO_MEMORY),
            same("nothing is left", servercape_index_state(&now), 0), failed++;
    while ((got = servercape_index_finish(&now)) != 0)
        same("no memory to finish", got, SERVERCAPE_NO_MEMORY), true_state(&now),
            same("it is open", servercape_index_state(&now), SERVERCAPE_OPEN), failed++;
    true_state(&now);
    while ((got = servercape_index_touching(&now, SERVERCAPE_MEMORY, 699, 0, UINT64_MAX, &found)) !=
           0)
        same("no memory to list", got, SERVERCAPE_NO_MEMORY), failed++;
    while ((got = servercape_index_find(&now, SERVERCAPE_OTHER, 699, 0, UINT64_MAX, &found,
                                        &visited)) != 0)
        same("no memory to find", got, SERVERCAPE_NO_MEMORY), failed++;
    while ((got = servercape_index_write(&now, file)) != 0)
        same("no memory to write", got, SERVERCAPE_NO_MEMORY), failed++;
    while ((got = servercape_index_load(&loaded, file->bytes, file->count, 0, &next)) != 0)
        same("no memory to load", got, SERVERCAPE_NO_MEMORY),
            same("nothing is left", servercape_index_state(&loaded), 0), failed++;
    true_state(&loaded);
    servercape_numbers_free(&found);
    servercape_index_free(&board);
    servercape_index_free(&now);
    servercape_index_free(&loaded);
    return failed;
}

static void without_memory(void)
{
    struct servercape_bytes whole = {0}, file = {0};
    long n, all;
    asked = 0;
    same("with memory", (uint64_t)session(&whole), 0);
    all = asked;
    same("many are asked for", all > 20, 1);
    for (n = 1; n <= all; n++) {
        servercape_bytes_free(&file);
        asked = 0;
        refuse_at = n;
        same("one call found none", (uint64_t)session(&file), 1);
        same("the same file",
             file.count == whole.count && memcmp(file.bytes, whole.bytes, file.count) == 0, 1);
    }
    refuse_at = 0;
    servercape_bytes_free(&file);
    servercape_bytes_free(&whole);
    same("all memory is given back", (uint64_t)held, 0);
}

/* ── what is refused ── */

static void not_opened(void)
{
    struct servercape_index none, copy;
    struct servercape_numbers found = {0};
    struct servercape_bytes file = {0};
    struct servercape_block block;
    struct servercape_info info;
    memset(&none, 0, sizeof none);
    same("state", servercape_index_state(&none), SERVERCAPE_NOT_WELL_FORMED);
    same("record", servercape_index_record(&none, 1, 0, 0, (const uint8_t *)"a", 1, NULL, NULL), 2);
    same("hours", servercape_index_install_calendar(&none, NULL, 0), 2);
    same("days", servercape_index_install_days(&none, NULL, 0), 2);
    same("finish", servercape_index_finish(&none), 2);
    same("info", servercape_index_info(&none, &info), 2);
    same("block", servercape_index_block(&none, 0, &block), 2);
    same("find", servercape_index_find(&none, 1, 0, 0, 1, &found, NULL), 2);
    same("touching", servercape_index_touching(&none, 1, 0, 0, 1, &found), 2);
    same("next", servercape_index_next(&none, 1, 0, 0, NULL, NULL), 2);
    same("last", servercape_index_last(&none, 1, 0, 0, NULL, NULL), 2);
    same("cells", servercape_index_read_cells(&none, 1, 0, 0, 0, NULL, NULL, 0), 2);
    same("occupation", servercape_index_occupation(&none, 1, 0, NULL, 0, NULL, NULL, NULL), 2);
    same("clock", servercape_index_clock(&none, 0, NULL), 2);
    same("write", servercape_index_write(&none, &file), 2);
    same("clone", servercape_index_clone(&copy, &none), 2);
    same("its clone is none", servercape_index_state(&copy), 0);
    same("no kind", servercape_index_open(&none, 8, NULL, 0), 1);
    same("no end tick", servercape_index_open(&none, 0, both_kinds, 2), 1);
    same("no file", servercape_index_load(&none, NULL, 0, 0, NULL), 17);
    same("a position behind the file",
         servercape_index_load(&none, both_kinds, 2, UINT64_MAX, NULL), 17);
    servercape_index_free(&none);
    servercape_index_free(&copy);
    servercape_numbers_free(&found);
    servercape_bytes_free(&file);
    same("all memory is given back", (uint64_t)held, 0);
}

/* Files that are cut or damaged at each byte are refused with the number that large tables have. */
static void damaged_files(void)
{
    struct servercape_index x, loaded;
    struct servercape_bytes file = {0};
    struct lent y;
    open_both(&x, &y, 8);
    record_both(&x, y, SERVERCAPE_MEMORY, 1, 100, (const uint8_t *)"777", 3);
    record_both(&x, y, SERVERCAPE_MEMORY, 3, 102, (const uint8_t *)"999", 3);
    same("finish", servercape_index_finish(&x), 0);
    same("write", servercape_index_write(&x, &file), 0);
    for (size_t k = 0; k < file.count; k++)
        for (int bit = 0; bit < 9; bit++) {
            uint64_t next = 77, other = 77, got;
            size_t length = bit == 8 ? k : file.count;
            file.bytes[k] ^= (uint8_t)(bit == 8 ? 0 : 1 << bit);
            got = servercape_index_load(&loaded, file.bytes, length, 0, &next);
            same("load", got, servercape_load(TABLES(y), file.bytes, length, 0, &other));
            same("behind it", next, other);
            if (!got)
                true_state(&loaded);
            servercape_index_free(&loaded);
            file.bytes[k] ^= (uint8_t)(bit == 8 ? 0 : 1 << bit);
        }
    servercape_bytes_free(&file);
    servercape_index_free(&x);
    give_back(y);
    same("all memory is given back", (uint64_t)held, 0);
}

int main(void)
{
    /* a call that does not end is a failure */
    alarm(240);
    beside_the_calls();
    many_at_once();
    without_memory();
    not_opened();
    damaged_files();
    printf("C, an index with its own tables: %d checks, %d wrong\n", checks, wrong);
    return wrong != 0;
}
