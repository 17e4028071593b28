/* Calls each function of servercape_tested.h: with the state of a test, where it must give what the public call gives, and with states that are false, on
   tables that no call has left: then it must end and touch nothing outside its slices. Prints how many checks it made, and every one that failed. */
#include "../servercape_tested.h"
#include "lent.h"

#include <unistd.h>

/* ── what the calls are lent besides the tables ── */

enum { ANSWER = 8, CELLS = 16, FILE_BYTES = 1024 };

struct answers {
    uint64_t *numbers, *values;
    uint8_t *bytes, *held, *file;
};

static struct answers make_answers(void)
{
    struct answers a;
    a.numbers = filled(8 * ANSWER);
    a.values = filled(8 * 6);
    a.bytes = filled(CELLS);
    a.held = filled(CELLS);
    a.file = filled(FILE_BYTES);
    return a;
}

static void drop_answers(struct answers a)
{
    let_go(a.numbers, 8 * ANSWER);
    let_go(a.values, 8 * 6);
    let_go(a.bytes, CELLS);
    let_go(a.held, CELLS);
    let_go(a.file, FILE_BYTES);
}

/* They hold the same. */
static void same_answers(const char *what, struct answers a, struct answers b)
{
    same(what, memcmp(a.numbers, b.numbers, 8 * ANSWER) || memcmp(a.values, b.values, 8 * 6) || memcmp(a.bytes, b.bytes, CELLS) || memcmp(a.held, b.held, CELLS) || memcmp(a.file, b.file, FILE_BYTES), 0);
}

#define BLOCKS(x) (x).blocks, (x).blocks_length
#define STORE(x) (x).store, (x).store_length
#define TREE(x) (x).nodes, (x).nodes_length, (x).entries, (x).entries_length

/* ── with the state that the test found ── */

/* A window at a tick, a cell, how long the slices are, and the kind. */
struct asked {
    uint64_t tick, start, end;
    size_t room;
    uint8_t kind;
};

static void same_reads(struct lent x, uint64_t state, struct asked q)
{
    struct answers a = make_answers(), b = make_answers();
    uint64_t *v = a.values, *w = b.values;
    size_t cells = 2 * q.room, bytes = q.room < ANSWER ? q.room : FILE_BYTES;
    same("find", servercape_find_tested(state, BLOCKS(x), TREE(x), q.kind, q.tick, q.start, q.end, a.numbers, q.room, &v[0], &v[1]),
        servercape_find(TABLES(x), q.kind, q.tick, q.start, q.end, b.numbers, q.room, &w[0], &w[1]));
    same_answers("find", a, b);
    same("touching", servercape_touching_tested(state, BLOCKS(x), TREE(x), q.kind, q.tick, q.start, q.end, a.numbers, q.room, &v[0]),
        servercape_touching(TABLES(x), q.kind, q.tick, q.start, q.end, b.numbers, q.room, &w[0]));
    same_answers("touching", a, b);
    same("next", servercape_next_tested(state, BLOCKS(x), TREE(x), q.kind, q.tick, q.start, &v[2], &v[3]), servercape_next(TABLES(x), q.kind, q.tick, q.start, &w[2], &w[3]));
    same_answers("next", a, b);
    same("last", servercape_last_tested(state, BLOCKS(x), TREE(x), q.kind, q.tick, q.start, &v[2], &v[3]), servercape_last(TABLES(x), q.kind, q.tick, q.start, &w[2], &w[3]));
    same_answers("last", a, b);
    same("cells", servercape_read_cells_tested(state, BLOCKS(x), STORE(x), TREE(x), q.kind, q.tick, q.start, q.end, a.bytes, cells, a.held, cells),
        servercape_read_cells(TABLES(x), q.kind, q.tick, q.start, q.end, b.bytes, cells, b.held, cells));
    same_answers("cells", a, b);
    const uint64_t windows[] = {q.start, q.end, 100, 104, 101};
    same("occupation", servercape_occupation_tested(state, BLOCKS(x), STORE(x), TREE(x), q.kind, q.tick, windows, q.room / 2 + 1, &v[3], &v[4], &v[5]),
        servercape_occupation(TABLES(x), q.kind, q.tick, windows, q.room / 2 + 1, &w[3], &w[4], &w[5]));
    same_answers("occupation", a, b);
    same("block", servercape_block_tested(state, BLOCKS(x), STORE(x), q.tick, &v[0], &v[1], &v[2], &v[3], &v[4], &v[5]),
        servercape_block(TABLES(x), q.tick, &w[0], &w[1], &w[2], &w[3], &w[4], &w[5]));
    same_answers("block", a, b);
    same("write", servercape_write_tested(state, BLOCKS(x), STORE(x), TREE(x), a.file, bytes, &v[0]), servercape_write(TABLES(x), b.file, bytes, &w[0]));
    same_answers("write", a, b);
    same("clock", servercape_clock_tested(state, BLOCKS(x), q.start, &v[1]), servercape_clock(TABLES(x), q.start, &w[1]));
    same_answers("clock", a, b);
    drop_answers(a);
    drop_answers(b);
}

static void same_all_reads(struct lent x, uint64_t state)
{
    same("the state", servercape_state(TABLES(x)), state);
    static const uint64_t ticks[] = {0, 1, 3, 6, 7, 8, UINT64_MAX}, cells[] = {0, 100, 101, 103, 105, UINT64_MAX};
    static const uint8_t kinds[] = {1, 3, 4, 255};
    for (int t = 0; t < 7; t++)
        for (int i = 0; i < 6; i++)
            for (int j = 0; j < 6; j++)
                for (size_t room = 0; room <= ANSWER; room += 4)
                    for (int k = 0; k < 4; k++)
                        same_reads(x, state, (struct asked){ticks[t], cells[i], cells[j], room, kinds[k]});
}

/* Both have the same tables. */
static void same_tables(struct lent x, struct lent y)
{
    same("the same tables", memcmp(x.pieces, y.pieces, 8 * x.pieces_length) || memcmp(x.blocks, y.blocks, 8 * x.blocks_length)
        || memcmp(x.store, y.store, x.store_length) || memcmp(x.nodes, y.nodes, 8 * x.nodes_length) || memcmp(x.entries, y.entries, 8 * x.entries_length), 0);
}

/* Kinds 1 and 3 are opened; most operations are of the first. */
#define KINDS (const uint8_t[]){3, 1}, 2

/* An operation of a kind by both calls, each on its own tables. */
static void same_record_of(uint8_t kind, struct lent x, struct lent y, uint64_t state, uint64_t tick, uint64_t first, const char *bytes, size_t scratch)
{
    uint64_t v[2] = {77, 77}, w[2] = {77, 77};
    const uint8_t *b = (const uint8_t *)bytes;
    same("record", servercape_record_tested(state, x.pieces, x.pieces_length, BLOCKS(x), STORE(x), x.scratch, scratch, kind, tick, first, b, strlen(bytes), &v[0], &v[1]),
        servercape_record(TABLES(y), y.scratch, scratch, kind, tick, first, b, strlen(bytes), &w[0], &w[1]));
    same("its values", memcmp(v, w, sizeof v), 0);
    same_tables(x, y);
}

static void same_record(struct lent x, struct lent y, uint64_t state, uint64_t tick, uint64_t first, const char *bytes, size_t scratch)
{
    same_record_of(1, x, y, state, tick, first, bytes, scratch);
}

static void same_records(struct lent x, struct lent y, uint64_t state)
{
    same_record(x, y, state, 1, 100, "777", 8);
    same_record(x, y, state, 3, 102, "999", 8);
    same_record(x, y, state, 5, 100, "77", 8);
    same_record(x, y, state, 5, 100, "78", 7);
    same_record_of(3, x, y, state, 5, 101, "77", 8);
    same_record_of(3, x, y, state, 5, 101, "7", 8);
    same_record_of(4, x, y, state, 5, 101, "7", 8);
    same_record_of(255, x, y, state, 5, 101, "", 8);
    same_record(x, y, state, 6, 103, "4", 8);
    same_record(x, y, state, 6, 103, "", 8);
    same_record(x, y, state, 6, UINT64_MAX, "4", 8);
    same_record(x, y, state, 8, 103, "4", 8);
    same_record(x, y, state, 5, 103, "4", 8);
    same_record(x, y, state, 6, 0, "1234567890123456789012345678901234567890123456789012345678901234567890", 8);
    same("the state stays", servercape_state(TABLES(x)), state);
}

static void with_true_states(void)
{
    struct lent x = lend(8, 16, 64, 32, 32), y = lend(8, 16, 64, 32, 32), z = lend(0, 7, 9, 16, 16);
    uint64_t written, next;
    uint8_t file[FILE_BYTES];
    memset(x.blocks, 0, 8 * x.blocks_length);
    memset(y.blocks, 0, 8 * y.blocks_length);
    same_all_reads(x, SERVERCAPE_NOT_WELL_FORMED);
    same_records(x, y, SERVERCAPE_NOT_WELL_FORMED);
    same("open", servercape_open(TABLES(x), 8, KINDS) + servercape_open(TABLES(y), 8, KINDS), 0);
    same_all_reads(x, SERVERCAPE_OPEN);
    same_records(x, y, SERVERCAPE_OPEN);
    same_all_reads(x, SERVERCAPE_OPEN);
    same("finish", servercape_finish(TABLES(x)) + servercape_finish(TABLES(y)), 0);
    same_all_reads(x, SERVERCAPE_CLOSED);
    same_records(x, y, SERVERCAPE_CLOSED);
    same("finish again", servercape_finish(TABLES(x)), 3);
    same_all_reads(x, SERVERCAPE_CLOSED);
    same("write", servercape_write_tested(SERVERCAPE_CLOSED, BLOCKS(x), STORE(x), TREE(x), file, sizeof file, &written), 0);
    same("load", servercape_load(TABLES(z), file, written, 0, &next), 0);
    same_all_reads(z, SERVERCAPE_CLOSED);
    same("load the other kind", servercape_load(TABLES(z), file, written, next, &next), 0);
    same("behind it", next, written);
    same_all_reads(z, SERVERCAPE_CLOSED);
    file[9 + 17] = 8;
    same("load of a block without a life", servercape_load(TABLES(z), file, written, 0, &next), 22);
    same_all_reads(z, SERVERCAPE_NOT_WELL_FORMED);
    give_back(x);
    give_back(y);
    give_back(z);
}

/* Mondays from minute 100 to 103. */
static void with_hours(void)
{
    static const uint64_t hours[] = {1, 100, 103};
    struct lent x = lend(8, 16, 64, 32, 32), y = lend(8, 16, 64, 32, 32);
    same("open", servercape_open(TABLES(x), 8, KINDS) + servercape_open(TABLES(y), 8, KINDS), 0);
    same("install", servercape_install_calendar(TABLES(x), hours, 3) + servercape_install_calendar(TABLES(y), hours, 3), 0);
    same_records(x, y, SERVERCAPE_OPEN);
    same_record(x, y, SERVERCAPE_OPEN, 6, 99, "1", 8);
    same_record(x, y, SERVERCAPE_OPEN, 6, 102, "1", 8);
    same_record(x, y, SERVERCAPE_OPEN, 6, 1440, "1", 8);
    same_record(x, y, SERVERCAPE_OPEN, 6, 7 * 1440 + 100, "123", 8);
    same_record(x, y, SERVERCAPE_OPEN, 6, (UINT64_C(9) << 32) + 100, "1234", 8);
    same("finish", servercape_finish(TABLES(x)) + servercape_finish(TABLES(y)), 0);
    same_records(x, y, SERVERCAPE_CLOSED);
    same_all_reads(x, SERVERCAPE_CLOSED);
    give_back(x);
    give_back(y);
}

/* The label of each minute of some days by both calls. */
static void same_labels(struct lent x, uint64_t state)
{
    same("the state", servercape_state(TABLES(x)), state);
    for (uint64_t cell = 0; cell < 5 * 1440; cell++) {
        uint64_t v = 77, w = 77;
        same("clock", servercape_clock_tested(state, BLOCKS(x), cell, &v), servercape_clock(TABLES(x), cell, &w));
        same("its label", v, w);
    }
}

/* A short day, then a long one, with all days open but for the hour from 02:00 on. */
static void with_days(void)
{
    static const uint64_t days[] = {0, 1380, 2, 1500}, fewer[] = {1, 1500}, hours[] = {2, 0, 120, 180, 1440};
    struct lent x = lend(8, 32, 64, 64, 64), y = lend(8, 32, 64, 64, 64);
    same("open", servercape_open(TABLES(x), 8, KINDS) + servercape_open(TABLES(y), 8, KINDS), 0);
    same("hours", servercape_install_calendar(TABLES(x), hours, 5) + servercape_install_calendar(TABLES(y), hours, 5), 0);
    same("days", servercape_install_days(TABLES(x), days, 4) + servercape_install_days(TABLES(y), days, 4), 0);
    same_labels(x, SERVERCAPE_OPEN);
    same_record(x, y, SERVERCAPE_OPEN, 6, 118, "1234", 8);
    same_record(x, y, SERVERCAPE_OPEN, 6, 1378, "12", 8);
    same_record(x, y, SERVERCAPE_OPEN, 6, 1379, "12", 8);
    same("other days", servercape_install_days(TABLES(x), fewer, 2) + servercape_install_days(TABLES(y), fewer, 2), 0);
    same_record(x, y, SERVERCAPE_OPEN, 6, 118, "1234", 8);
    same_record(x, y, SERVERCAPE_OPEN, 6, 1378, "12", 8);
    same_labels(x, SERVERCAPE_OPEN);
    same("finish", servercape_finish(TABLES(x)) + servercape_finish(TABLES(y)), 0);
    same_labels(x, SERVERCAPE_CLOSED);
    same("days of a finished index", servercape_install_days(TABLES(x), days, 4), 0);
    same_labels(x, SERVERCAPE_CLOSED);
    same_all_reads(x, SERVERCAPE_CLOSED);
    give_back(x);
    give_back(y);
}

/* ── with states that are false ── */

/* The head of the block table: its last eight numbers. */
static uint64_t *head(struct lent x)
{
    return x.blocks + servercape_length(SERVERCAPE_BLOCKS, 0) - 8;
}

enum { PIECES = 8, ROWS = 16, BYTES = 64, NODES = 32, ENTRIES = 32, HUGE_BIT = 60 };

#define HUGE_COUNT (UINT64_C(1) << HUGE_BIT)

/* A finished index, its pieces put back as they were before: every table has something to read. */
static struct lent full_tables(void)
{
    struct lent x = lend(PIECES, ROWS, BYTES, NODES, ENTRIES), y = lend(PIECES, ROWS, BYTES, NODES, ENTRIES);
    same("open", servercape_open(TABLES(x), 8, KINDS) + servercape_open(TABLES(y), 8, KINDS), 0);
    same_records(x, y, SERVERCAPE_OPEN);
    same("finish", servercape_finish(TABLES(x)), 0);
    memcpy(x.pieces, y.pieces, 8 * x.pieces_length);
    give_back(y);
    return x;
}

/* Every way to spoil them: none; links that lead back or to one row; counts and offsets that no table has; garbage; a calendar and a list of days of more than
   there is room for; days that fall, or have no minutes; rows of kinds that were not opened or cannot be, and trees exchanged. */
enum { WAYS = 20, CALENDAR = 32, SPECIAL = CALENDAR + 120, DAYS = 1305 };

static void spoil(struct lent x, int way)
{
    uint64_t *h = head(x);
    for (uint64_t k = 1; way == 1 && k <= PIECES; k++)
        x.pieces[8 * k + 4] = x.pieces[8 * k + 5] = k;
    for (uint64_t k = 1; way == 2 && k <= PIECES; k++)
        x.pieces[8 * k + 4] = x.pieces[8 * k + 5] = 1 + k % PIECES, x.pieces[8 * k + 6] = 92;
    for (uint64_t k = 1; way == 3 && k <= NODES; k++)
        x.nodes[8 * k + 2] = x.nodes[8 * k + 3] = k;
    for (uint64_t k = 1; way == 4 && k <= NODES; k++)
        x.nodes[8 * k + 2] = x.nodes[8 * k + 3] = 1 + k % NODES, x.nodes[8 * k] = 0, x.nodes[8 * k + 1] = UINT64_MAX;
    for (uint64_t k = 1; way == 5 && k <= NODES; k++)
        x.nodes[8 * k + 4] = 0, x.nodes[8 * k + 5] = HUGE_COUNT;
    for (uint64_t k = 0; way == 6 && k < ENTRIES; k++)
        x.entries[8 + 2 * k] = HUGE_COUNT;
    for (uint64_t k = 0; way == 7 && k < ROWS; k++)
        h[8 + 8 * k + 1] = h[8 + 8 * k + 4] = HUGE_COUNT;
    if (way == 8)
        h[3] = HUGE_COUNT;
    if (way == 9)
        x.pieces[1] = HUGE_COUNT;
    if (way == 10)
        h[4] = HUGE_COUNT;
    if (way == 11)
        h[1] = UINT64_MAX, h[5] = HUGE_COUNT, x.nodes[5] = x.entries[0] = HUGE_COUNT;
    if (way == 12)
        memset(x.pieces, GARBAGE, 8 * x.pieces_length), memset(x.blocks, GARBAGE, 8 * x.blocks_length), memset(x.nodes, GARBAGE, 8 * x.nodes_length);
    if (way == 13)
        x.blocks[CALENDAR] = 1, x.blocks[CALENDAR + 1] = x.blocks[SPECIAL] = x.blocks[SPECIAL + 2] = HUGE_COUNT;
    if (way == 14)
        x.blocks[DAYS] = HUGE_COUNT;
    for (uint64_t k = 0; way == 15 && k < 64; k++)
        x.blocks[CALENDAR] = 1, x.blocks[DAYS] = 64, x.blocks[DAYS + 1 + 2 * k] = UINT64_MAX - k, x.blocks[DAYS + 2 + 2 * k] = HUGE_COUNT;
    for (uint64_t k = 0; way == 16 && k < 64; k++)
        x.blocks[CALENDAR] = 1, x.blocks[DAYS] = 64, x.blocks[DAYS + 1 + 2 * k] = 64 - k, x.blocks[DAYS + 2 + 2 * k] = 0;
    if (way == 17)
        h[2] = 31, x.nodes[1] = x.nodes[3], x.nodes[0] = x.nodes[4] = 1;
    if (way == 18)
        h[2] = UINT64_MAX;
    for (uint64_t k = 0; way == 19 && k < PIECES; k++)
        x.pieces[8 * k + 15] = HUGE_COUNT + k, h[8 + 8 * k + 5] = k % 2 ? 7 : UINT64_MAX, x.nodes[8 * k + 14] = 9;
}

/* Every call with a state, whatever it answers; no read changes a table. */
static void every_call(struct lent x, uint64_t state, struct asked q)
{
    struct answers a = make_answers();
    uint64_t *v = a.values;
    struct lent before = lend(PIECES, ROWS, BYTES, NODES, ENTRIES);
    memcpy(before.pieces, x.pieces, 8 * x.pieces_length);
    memcpy(before.blocks, x.blocks, 8 * x.blocks_length);
    memcpy(before.store, x.store, x.store_length);
    memcpy(before.nodes, x.nodes, 8 * x.nodes_length);
    memcpy(before.entries, x.entries, 8 * x.entries_length);
    servercape_find_tested(state, BLOCKS(x), TREE(x), q.kind, q.tick, q.start, q.end, a.numbers, ANSWER, &v[0], &v[1]);
    servercape_touching_tested(state, BLOCKS(x), TREE(x), q.kind, q.tick, q.start, q.end, a.numbers, ANSWER, &v[0]);
    servercape_next_tested(state, BLOCKS(x), TREE(x), q.kind, q.tick, q.start, &v[0], &v[1]);
    servercape_last_tested(state, BLOCKS(x), TREE(x), q.kind, q.tick, q.end, &v[0], &v[1]);
    servercape_read_cells_tested(state, BLOCKS(x), STORE(x), TREE(x), q.kind, q.tick, q.start, q.end, a.bytes, CELLS, a.held, CELLS);
    const uint64_t windows[] = {q.start, q.end, 0, UINT32_MAX, 100, 104, UINT64_MAX - 9, UINT64_MAX};
    for (size_t k = 0; k <= 8; k++)
        servercape_occupation_tested(state, BLOCKS(x), STORE(x), TREE(x), q.kind, q.tick, windows, k, &v[0], &v[1], &v[2]);
    servercape_occupation_tested(state, BLOCKS(x), STORE(x), TREE(x), q.kind, q.tick, windows + 4, 4, &v[0], &v[1], &v[2]);
    for (uint64_t k = 0; k < 8; k++)
        if (servercape_block_tested(state, BLOCKS(x), STORE(x), k, &v[0], &v[1], &v[2], &v[3], &v[4], &v[5]) == 0)
            same("its bytes lie in the store", v[2] <= x.store_length && v[5] <= x.store_length - v[2], 1);
    servercape_write_tested(state, BLOCKS(x), STORE(x), TREE(x), a.file, FILE_BYTES, &v[0]);
    servercape_clock_tested(state, BLOCKS(x), q.start, &v[0]);
    servercape_clock_tested(state, BLOCKS(x), 7 * 1440 + q.end, &v[0]);
    same_tables(x, before);
    servercape_record_tested(state, x.pieces, x.pieces_length, BLOCKS(x), STORE(x), x.scratch, 8, q.kind, q.tick, q.start, (const uint8_t *)"12345", 5, &v[0], &v[1]);
    servercape_record_tested(state, x.pieces, x.pieces_length, BLOCKS(x), STORE(x), x.scratch, 8, 1, q.tick, 100, (const uint8_t *)"777", 3, &v[0], &v[1]);
    give_back(before);
    drop_answers(a);
}

static void with_false_states(void)
{
    static const uint64_t states[] = {0, 1, 2, 3, UINT64_MAX};
    static const struct asked queries[] = {{6, 99, 106, 0, 1}, {0, 0, UINT64_MAX, 0, 3}, {7, 101, 101, 0, 4}, {UINT64_MAX, UINT64_MAX, 0, 0, 255}, {6, 0, UINT64_MAX, 0, 0}};
    for (int way = 0; way <= WAYS; way++)
        for (int s = 0; s < 5; s++)
            for (int q = 0; q < 5; q++) {
                struct lent x = full_tables(), y = x;
                if (way < WAYS)
                    spoil(x, way);
                else
                    y.pieces_length = y.blocks_length = y.store_length = y.nodes_length = y.entries_length = 0;
                every_call(y, states[s], queries[q]);
                give_back(x);
            }
}

int main(void)
{
    /* a call that does not end is a failure */
    alarm(240);
    with_true_states();
    with_hours();
    with_days();
    with_false_states();
    printf("C, calls after one test: %d checks, %d wrong\n", checks, wrong);
    return wrong != 0;
}
