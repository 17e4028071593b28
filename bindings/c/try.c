/* Calls each function of servercape.h: the listing's board, lengths, refusals, and values that stay on a refusal.
   Prints how many checks it made, and every one that failed. */
#include "lent.h"

/* What record must give: its number and the two values, which stand at 77 before the call. */
struct told {
    uint64_t number, updated, cell;
};

static const struct told a_read = {0, 0, 0};

static struct told update(uint64_t cell)
{
    return (struct told){0, 1, cell};
}

static struct told refusal(uint64_t number)
{
    return (struct told){number, 77, 77};
}

static void record_of(uint8_t kind, const char *what, struct lent x, uint64_t tick, uint64_t first, const uint8_t *bytes, size_t length, struct told want)
{
    uint64_t updated = 77, cell = 77;
    same(what, servercape_record(TABLES(x), x.scratch, x.scratch_length, kind, tick, first, bytes, length, &updated, &cell), want.number);
    same("updated", updated, want.updated);
    same("its cell", cell, want.cell);
}

/* The kind of all boards but those of several. */
enum { MEMORY = SERVERCAPE_MEMORY };

static void record(const char *what, struct lent x, uint64_t tick, uint64_t first, const uint8_t *bytes, size_t length, struct told want)
{
    record_of(MEMORY, what, x, tick, first, bytes, length, want);
}

/* ── the listing ── */

struct block {
    uint64_t first, length, created, destroyed;
    uint8_t bytes[2];
};

static const struct block listing[] = {
    {102, 1, 1, 3, {7}}, {103, 1, 3, 6, {9}}, {100, 2, 1, 8, {7, 7}}, {102, 1, 3, 8, {9}}, {103, 1, 6, 8, {4}}, {104, 1, 3, 8, {9}},
};

static void play(struct lent x)
{
    same("open", servercape_open(TABLES(x), 8, ONLY(1)), 0);
    record("op 1", x, 1, 100, (const uint8_t[]){7, 7, 7}, 3, update(100));
    record("op 2", x, 3, 102, (const uint8_t[]){9, 9, 9}, 3, update(102));
    record("op 3", x, 5, 100, (const uint8_t[]){7, 7}, 2, a_read);
    record("op 4", x, 6, 103, (const uint8_t[]){4}, 1, update(103));
    record("no cells", x, 6, 103, (const uint8_t[]){4}, 0, refusal(5));
    record("tick at the end", x, 8, 103, (const uint8_t[]){4}, 1, refusal(7));
    record("tick goes back", x, 5, 103, (const uint8_t[]){4}, 1, refusal(8));
    record("last cell", x, 6, UINT64_MAX, (const uint8_t[]){4}, 1, refusal(6));
}

static void read_blocks(struct lent x)
{
    uint64_t kind = 77, first = 77, length = 77, created = 77, destroyed = 77, offset = 77;
    same("no such block", servercape_block(TABLES(x), 6, &kind, &first, &length, &created, &destroyed, &offset), 15);
    same("kept values", kind + first + length + created + destroyed + offset, 6 * 77);
    for (uint64_t k = 0; k < 6; k++) {
        same("block", servercape_block(TABLES(x), k, &kind, &first, &length, &created, &destroyed, &offset), 0);
        same("kind", kind, 1);
        same("first", first, listing[k].first);
        same("length", length, listing[k].length);
        same("created", created, listing[k].created);
        same("destroyed", destroyed, listing[k].destroyed);
        same("bytes", memcmp(x.store + offset, listing[k].bytes, listing[k].length) == 0, 1);
    }
}

static void read_finds(struct lent x)
{
    uint64_t answer[4] = {77, 77, 77, 77}, count = 77, visited = 77;
    same("too small", servercape_find(TABLES(x), MEMORY, 6, 100, 104, answer, 2, &count, &visited), 16);
    same("past the end", servercape_find(TABLES(x), MEMORY, 8, 100, 104, answer, 4, &count, &visited), 14);
    same("turned round", servercape_find(TABLES(x), MEMORY, 6, 104, 100, answer, 4, &count, &visited), 15);
    same("kept counts", count + visited, 2 * 77);
    same("kept answer", answer[0] + answer[1], 2 * 77);
    same("find", servercape_find(TABLES(x), MEMORY, 6, 100, 104, answer, 4, &count, &visited), 0);
    same("count", count, 3);
    same("visited", visited, 3);
    uint64_t cells = 0;
    for (uint64_t i = 0; i < count && i < 3; i++)
        cells += listing[answer[i]].first;
    same("their first cells", cells, 100 + 102 + 103);
    same("past the count", answer[3], 77);
    same("an empty window", servercape_find(TABLES(x), MEMORY, 6, 104, 104, answer, 0, &count, &visited), 0);
    same("nothing", count, 0);
}

/* The listing at tick 6: block 2 holds 100 and 101, blocks 3 to 5 hold 102 to 104. */
static void read_touching(struct lent x)
{
    uint64_t answer[3] = {77, 77, 77}, count = 77;
    same("touching too small", servercape_touching(TABLES(x), MEMORY, 6, 101, 103, answer, 1, &count), 16);
    same("touching past the end", servercape_touching(TABLES(x), MEMORY, 8, 104, 100, answer, 0, &count), 14);
    same("touching turned round", servercape_touching(TABLES(x), MEMORY, 6, 104, 100, answer, 0, &count), 15);
    same("kept count", count, 77);
    same("kept answer", answer[0] + answer[1], 2 * 77);
    same("touching", servercape_touching(TABLES(x), MEMORY, 6, 101, 103, answer, 2, &count), 0);
    same("two touch", count, 2);
    same("the one that came in before", answer[0], 2);
    same("then the next cell's", answer[1], 3);
    same("touching up to a block", servercape_touching(TABLES(x), MEMORY, 6, 0, 100, answer, 0, &count), 0);
    same("none before it", count, 0);
    same("touching nothing", servercape_touching(TABLES(x), MEMORY, 6, 101, 101, answer, 0, &count), 0);
    same("none in an empty window", count, 0);
    same("touching at tick 2", servercape_touching(TABLES(x), MEMORY, 2, 0, UINT64_MAX, answer, 3, &count), 0);
    same("two then", count, 2);
    same("by cell and not by number", answer[0] == 2 && answer[1] == 0, 1);
    same("past the count", answer[2], 77);
}

/* What next and last must give at a tick: found, then the number. */
static void neighbours(struct lent x, uint64_t tick, uint64_t cell, const uint64_t next[2], const uint64_t last[2])
{
    uint64_t found = 77, number = 77;
    same("next", servercape_next(TABLES(x), MEMORY, tick, cell, &found, &number), 0);
    same("next found", found, next[0]);
    same("next number", number, next[1]);
    found = number = 77;
    same("last", servercape_last(TABLES(x), MEMORY, tick, cell, &found, &number), 0);
    same("last found", found, last[0]);
    same("last number", number, last[1]);
}

static const uint64_t missing[2] = {0, 0};

static void read_neighbours(struct lent x)
{
    uint64_t found = 77, number = 77;
    same("next past the end", servercape_next(TABLES(x), MEMORY, 8, 0, &found, &number), 14);
    same("last past the end", servercape_last(TABLES(x), MEMORY, 8, 0, &found, &number), 14);
    same("kept neighbours", found + number, 2 * 77);
    neighbours(x, 6, 100, (const uint64_t[]){1, 2}, missing);
    neighbours(x, 6, 101, (const uint64_t[]){1, 3}, missing);
    neighbours(x, 6, 102, (const uint64_t[]){1, 3}, (const uint64_t[]){1, 2});
    neighbours(x, 6, UINT64_MAX, missing, (const uint64_t[]){1, 5});
    neighbours(x, 0, 102, missing, missing);
}

static void read_all_cells(struct lent x)
{
    uint8_t bytes[8], held[8];
    memset(bytes, 77, 8);
    memset(held, 77, 8);
    same("cells", servercape_read_cells(TABLES(x), MEMORY, 6, 99, 106, bytes, 8, held, 8), 0);
    same("bytes", memcmp(bytes, (const uint8_t[]){0, 7, 7, 9, 4, 9, 0, 77}, 8) == 0, 1);
    same("held", memcmp(held, (const uint8_t[]){0, 1, 1, 1, 1, 1, 0, 77}, 8) == 0, 1);
    same("held too short", servercape_read_cells(TABLES(x), MEMORY, 6, 99, 106, bytes, 8, held, 6), 16);
}

/* ── reports ── */

/* What the report of some windows at tick 6 must be: a number and the three values, which stand at 77 before the call. */
static void occupation_of(const char *what, struct lent x, const uint64_t *windows, size_t length, uint64_t number, uint64_t occupied, uint64_t cells, uint64_t tenths)
{
    uint64_t told[3] = {77, 77, 77};
    same(what, servercape_occupation(TABLES(x), MEMORY, 6, windows, length, &told[0], &told[1], &told[2]), number);
    same("occupied cells", told[0], occupied);
    same("of all cells", told[1], cells);
    same("tenths of a percent", told[2], tenths);
}

static void no_occupation(const char *what, struct lent x, const uint64_t *windows, size_t length, uint64_t number)
{
    occupation_of(what, x, windows, length, number, 77, 77, 77);
}

/* The listing at tick 6: the cells 100 to 104 are occupied. */
static void read_occupation(struct lent x)
{
    uint64_t many[514], told[3] = {77, 77, 77};
    for (size_t k = 0; k < 257; k++)
        many[2 * k] = 100, many[2 * k + 1] = 101;
    occupation_of("five of eight", x, (const uint64_t[]){99, 107}, 2, 0, 5, 8, 625);
    occupation_of("half a tenth goes down to the even one", x, (const uint64_t[]){98, 114}, 2, 0, 5, 16, 312);
    occupation_of("or up", x, (const uint64_t[]){102, 118}, 2, 0, 3, 16, 188);
    occupation_of("repeats count, and an empty window is none", x, (const uint64_t[]){100, 104, 7, 7, 103, 107}, 6, 0, 3, 4, 750);
    occupation_of("none", x, (const uint64_t[]){0, 9}, 2, 0, 0, 1, 0);
    occupation_of("all", x, (const uint64_t[]){100, 105}, 2, 0, 1, 1, 1000);
    occupation_of("256 windows", x, many, 512, 0, 1, 1, 1000);
    occupation_of("2^32 cells", x, (const uint64_t[]){0, UINT64_C(1) << 32}, 2, 0, 5, UINT64_C(1) << 32, 0);
    no_occupation("no window", x, many, 0, 37);
    no_occupation("no cell", x, (const uint64_t[]){5, 5, 9, 9}, 4, 37);
    no_occupation("257 windows", x, many, 514, 37);
    no_occupation("2^32 cells and one", x, (const uint64_t[]){0, UINT64_C(1) << 32, 0, 1}, 4, 37);
    no_occupation("more than 2^64 cells", x, (const uint64_t[]){0, UINT64_MAX, 0, UINT64_MAX}, 4, 37);
    no_occupation("a start without its end", x, many, 511, 15);
    many[513] = 99;
    no_occupation("the 257th is turned round", x, many, 514, 15);
    same("past the end", servercape_occupation(TABLES(x), MEMORY, 8, many, 514, &told[0], &told[1], &told[2]), 14);
    same("kept values", told[0] + told[1] + told[2], 3 * 77);
}

/* ── the file ── */

/* How many bytes of a slice are not 0. */
static uint64_t not_zero(const uint8_t *bytes, size_t length)
{
    uint64_t count = 0;
    for (size_t i = 0; i < length; i++)
        count += bytes[i] != 0;
    return count;
}

static void write_and_load(struct lent x)
{
    uint8_t file[1024], again[1024];
    uint64_t written = 77, next = 77;
    same("too short", servercape_write(TABLES(x), file, 100, &written), 16);
    same("kept length", written, 77);
    same("write", servercape_write(TABLES(x), file + 3, sizeof file - 3, &written), 0);
    same("its length", written, 651);

    struct lent y = lend(0, 6, 7, 10, 12);
    same("bytes end", servercape_load(TABLES(y), file, written + 2, 3, &next), 17);
    same("past the end", servercape_load(TABLES(y), file, sizeof file, sizeof file, &next), 17);
    same("kept position", next, 77);
    same("as they were", y.blocks[0], UINT64_C(0xA5A5A5A5A5A5A5A5));
    same("load", servercape_load(TABLES(y), file, sizeof file, 3, &next), 0);
    same("next", next, 3 + written);
    read_blocks(y);
    read_finds(y);
    read_touching(y);
    read_neighbours(y);
    read_all_cells(y);
    read_occupation(y);
    same("write again", servercape_write(TABLES(y), again, sizeof again, &written), 0);
    same("the same bytes", memcmp(file + 3, again, written) == 0, 1);

    y.entries_length -= 2;
    same("an entry too few", servercape_load(TABLES(y), file, sizeof file, 3, &next), 20);
    y.entries_length += 2;
    file[3 + 9 + 17] = 8;
    same("a block that ends as it starts", servercape_load(TABLES(y), file, sizeof file, 3, &next), 22);
    same("zeros", not_zero((uint8_t *)y.blocks, 8 * y.blocks_length) + not_zero(y.store, y.store_length), 0);
    give_back(y);
}

/* ── boards of their own ── */

/* A train from 23:52 to 00:06: find misses it after midnight. */
static void midnight(struct lent x)
{
    const uint8_t train[14] = {9, 9, 9, 9, 9, 9, 9, 9, 9, 9, 9, 9, 9, 9};
    uint64_t answer[1] = {77}, count = 77, visited = 77;
    same("open", servercape_open(TABLES(x), 8, ONLY(1)), 0);
    record("a train", x, 0, 1432, train, sizeof train, update(1432));
    same("finish", servercape_finish(TABLES(x)), 0);
    same("find after midnight", servercape_find(TABLES(x), MEMORY, 5, 1440, 1450, answer, 1, &count, &visited), 0);
    same("not found", count, 0);
    same("touching after midnight", servercape_touching(TABLES(x), MEMORY, 5, 1440, 1450, answer, 1, &count), 0);
    same("it touches", count, 1);
    same("its number", answer[0], 0);
    same("touching after the train", servercape_touching(TABLES(x), MEMORY, 5, 1446, 1450, answer, 0, &count), 0);
    same("it has left", count, 0);
    neighbours(x, 5, 1440, missing, missing);
    neighbours(x, 5, 1446, missing, (const uint64_t[]){1, 0});
}

/* A held 0 is not occupied. */
static void held_zero(struct lent x)
{
    same("open", servercape_open(TABLES(x), 8, ONLY(1)), 0);
    record("a train, and a minute set free in it", x, 0, 100, (const uint8_t[]){7, 0, 7}, 3, update(100));
    same("finish", servercape_finish(TABLES(x)), 0);
    occupation_of("two of three", x, (const uint64_t[]){100, 103}, 2, 0, 2, 3, 667);
}

/* Two writes of one cell at one tick: the first is live never. */
static void same_tick(struct lent x)
{
    uint64_t answer[2] = {77, 77}, count = 77;
    same("open", servercape_open(TABLES(x), 8, ONLY(1)), 0);
    record("first write", x, 3, 50, (const uint8_t[]){1}, 1, update(50));
    record("second write", x, 3, 50, (const uint8_t[]){2}, 1, update(50));
    same("finish", servercape_finish(TABLES(x)), 0);
    same("touching both", servercape_touching(TABLES(x), MEMORY, 3, 0, 100, answer, 2, &count), 0);
    same("one is live", count, 1);
    same("the second", answer[0], 1);
    neighbours(x, 3, 50, (const uint64_t[]){1, 1}, missing);
    neighbours(x, 3, 51, missing, (const uint64_t[]){1, 1});
}

/* The first cell that an operation changes: unknown, or with another byte. */
static void changes(struct lent x)
{
    same("open", servercape_open(TABLES(x), 8, ONLY(1)), 0);
    record("two cells", x, 0, 10, (const uint8_t[]){5, 5}, 2, update(10));
    record("a third", x, 1, 10, (const uint8_t[]){5, 5, 5}, 3, update(12));
    record("two again", x, 2, 10, (const uint8_t[]){5, 5}, 2, a_read);
    record("behind a gap", x, 2, 14, (const uint8_t[]){5}, 1, update(14));
    record("a gap before a difference", x, 3, 10, (const uint8_t[]){5, 5, 5, 5, 6}, 5, update(13));
    record("the last cell alone", x, 3, 10, (const uint8_t[]){5, 5, 5, 5, 7}, 5, update(14));
    record("beside it", x, 4, 15, (const uint8_t[]){8, 8}, 2, update(15));
    record("in the second piece", x, 4, 13, (const uint8_t[]){5, 7, 8, 9}, 4, update(16));
    record("a zero", x, 5, 20, (const uint8_t[]){0}, 1, update(20));
    record("a held zero", x, 5, 20, (const uint8_t[]){0}, 1, a_read);
    record("an unknown cell", x, 5, 20, (const uint8_t[]){0, 0}, 2, update(21));
    record("cell 0", x, 6, 0, (const uint8_t[]){0}, 1, update(0));
    record("the last cell", x, 6, UINT64_MAX - 1, (const uint8_t[]){0}, 1, update(UINT64_MAX - 1));
    record("no room for the bytes", x, 6, 30, x.store, 64, refusal(11));
}

/* A sum in which each place counts, over all that an index is lent. */
static uint64_t sum_of(struct lent x)
{
    const void *slices[] = {x.pieces, x.blocks, x.store, x.nodes, x.entries, x.scratch};
    const size_t lengths[] = {8 * x.pieces_length, 8 * x.blocks_length, x.store_length, 8 * x.nodes_length, 8 * x.entries_length, 8 * x.scratch_length};
    uint64_t sum = 1;
    for (int k = 0; k < 6; k++)
        for (size_t i = 0; i < lengths[k]; i++)
            sum = 9 * sum + ((const uint8_t *)slices[k])[i];
    return sum;
}

/* Refused 2, and nothing changes, the values handed out neither. */
static void too_short(const char *what, struct lent x, uint64_t tick, uint64_t first, size_t length)
{
    uint64_t before = sum_of(x);
    for (size_t numbers = 0; numbers < 8; numbers++) {
        struct lent y = x;
        y.scratch_length = numbers;
        record(what, y, tick, first, (const uint8_t[]){9, 9}, length, refusal(2));
    }
    same("kept tables", sum_of(x), before);
}

/* Eight numbers are enough for any number of pieces; with fewer record is refused 2, before all else, on an open and on a finished index. */
static void scratch(void)
{
    struct lent x = lend(10, 32, 64, 64, 64);
    uint64_t found = 77, number = 77;
    same("a scratch of one row", x.scratch_length, 8);
    same("open", servercape_open(TABLES(x), 8, ONLY(1)), 0);
    too_short("short, no piece", x, 1, 0, 1);
    for (uint64_t k = 0; k < 10; k++)
        record("ten pieces", x, 1, 2 * k, (const uint8_t[]){9}, 1, update(2 * k));
    record("the table is full", x, 1, 20, (const uint8_t[]){9}, 1, refusal(9));
    too_short("short, an update", x, 7, 1, 1);
    too_short("short, a read", x, 1, 2, 1);
    too_short("short, no cells", x, 1, 2, 0);
    too_short("short, last cell", x, 1, UINT64_MAX, 2);
    too_short("short, tick at the end", x, 8, 2, 1);
    too_short("short, tick goes back", x, 0, 2, 1);
    too_short("short, the table is full", x, 1, 20, 1);
    record("the tick is as it was", x, 1, 2, (const uint8_t[]){9}, 1, a_read);
    same("finish", servercape_finish(TABLES(x)), 0);
    too_short("short, finished", x, 2, 1, 1);
    record("finished", x, 2, 1, (const uint8_t[]){9}, 1, refusal(3));
    same("next", servercape_next(TABLES(x), MEMORY, 7, 18, &found, &number), 0);
    same("the tenth piece", number, 9);
    give_back(x);
}

/* ── many records ── */

/* An operation behind others in a list: where the next one begins. */
static size_t put_operation(uint8_t *list, size_t at, uint64_t tick, uint64_t first, const uint8_t *bytes, size_t length)
{
    const uint64_t head[3] = {tick, first, length};
    for (int k = 0; k < 3; k++)
        for (int i = 0; i < 8; i++)
            list[at++] = (uint8_t)(head[k] >> 8 * i);
    memcpy(list + at, bytes, length);
    return at + length;
}

/* The listing by one call, with two refused operations in it and a last one that is cut short. */
static void record_all(void)
{
    struct lent x = lend(8, 16, 64, 16, 32), y = lend(8, 16, 64, 16, 32);
    uint8_t list[256];
    uint64_t answers[20], next = 77;
    size_t end = put_operation(list, 0, 1, 100, (const uint8_t[]){7, 7, 7}, 3);
    size_t second = end;
    end = put_operation(list, end, 3, 102, (const uint8_t[]){9, 9, 9}, 3);
    end = put_operation(list, end, 5, 100, (const uint8_t[]){7, 7}, 2);
    end = put_operation(list, end, 8, 103, (const uint8_t[]){4}, 1);
    end = put_operation(list, end, 5, 103, (const uint8_t[]){4}, 0);
    end = put_operation(list, end, 6, 103, (const uint8_t[]){4}, 1);
    size_t cut = put_operation(list, end, 7, 200, (const uint8_t[]){1, 1}, 2) - 1;
    memset(answers, 77, sizeof answers);

    same("open", servercape_open(TABLES(x), 8, ONLY(1)), 0);
    same("record all", servercape_record_all(TABLES(x), x.scratch, 8, MEMORY, list, cut, answers, 20, &next), 6);
    same("behind the last whole one", next, end);
    const uint64_t want[18] = {0, 1, 100, 0, 1, 102, 0, 0, 0, 7, 0, 0, 5, 0, 0, 0, 1, 103};
    same("its answers", memcmp(answers, want, sizeof want) == 0, 1);
    same("no more", answers[18] == answers[19] && answers[18] == UINT64_C(0x4D4D4D4D4D4D4D4D), 1);
    same("finish", servercape_finish(TABLES(x)), 0);
    read_blocks(x);

    same("open", servercape_open(TABLES(y), 8, ONLY(1)), 0);
    same("one place", servercape_record_all(TABLES(y), y.scratch, 8, MEMORY, list, cut, answers, 5, &next), 1);
    same("behind the first", next, second);
    same("no place", servercape_record_all(TABLES(y), y.scratch, 8, MEMORY, list + next, cut - next, answers, 2, &next), 0);
    same("still there", next, 0);
    same("no list", servercape_record_all(TABLES(y), y.scratch, 8, MEMORY, list, 23, answers, 20, &next), 0);
    same("a short scratch", servercape_record_all(TABLES(y), y.scratch, 7, MEMORY, list, second, answers, 20, &next), 1);
    same("each is refused 2", answers[0], 2);
    same("the rest", servercape_record_all(TABLES(y), y.scratch, 8, MEMORY, list + second, cut - second, answers, 20, &next), 5);
    same("finish", servercape_finish(TABLES(y)), 0);
    read_blocks(y);
    same("finished", servercape_record_all(TABLES(y), y.scratch, 8, MEMORY, list, end, answers, 20, &next), 6);
    same("each is refused 3", answers[0] + answers[3] + answers[15], 9);
    give_back(x);
    give_back(y);
}

/* The finds of the listing by one call: accepted, refused 14, 15 and 16, and one that is cut short. */
static void find_all(struct lent x)
{
    static const uint64_t queries[] = {6, 100, 104, 8, 0, 1, 6, 104, 100, 6, 0, UINT64_MAX, 1, 100, 101, 6, 0};
    uint64_t answers[17], numbers[6], answer[4] = {77, 77, 77, 77}, count = 77, visited = 77;
    memset(answers, 77, sizeof answers);
    memset(numbers, 77, sizeof numbers);
    same("find all", servercape_find_all(TABLES(x), MEMORY, queries, 17, answers, 17, numbers, 6), 5);
    same("find", servercape_find(TABLES(x), MEMORY, 6, 100, 104, answer, 4, &count, &visited), 0);
    same("the first", answers[0] == 0 && answers[1] == count && answers[2] == visited && memcmp(numbers, answer, 8 * count) == 0, 1);
    const uint64_t refused[9] = {14, 0, 0, 15, 0, 0, 16, 0, 0};
    same("refused ones", memcmp(answers + 3, refused, sizeof refused) == 0, 1);
    same("find", servercape_find(TABLES(x), MEMORY, 1, 100, 101, answer, 4, &count, &visited), 0);
    same("the last", answers[12] == 0 && answers[13] == count && answers[14] == visited && count == 1 && numbers[3] == answer[0], 1);
    same("no more", numbers[4] == UINT64_C(0x4D4D4D4D4D4D4D4D) && answers[15] == UINT64_C(0x4D4D4D4D4D4D4D4D), 1);
    same("two places", servercape_find_all(TABLES(x), MEMORY, queries, 17, answers, 8, numbers, 6), 2);
    same("no query", servercape_find_all(TABLES(x), MEMORY, queries, 2, answers, 17, numbers, 6), 0);
}

/* A calendar is refused, and nothing changes. */
static void not_installed(const char *what, struct lent x, const uint64_t *calendar, size_t length, uint64_t number)
{
    uint64_t before = sum_of(x);
    same(what, servercape_install_calendar(TABLES(x), calendar, length), number);
    same("kept tables", sum_of(x), before);
}

/* Mondays 480 to 1200, then nothing, then day 1 alone, then all days but day 1; each fault of 27; a finished index takes none. */
static void station_hours(struct lent x)
{
    uint64_t numbers[1272] = {1, 480, 1200};
    same("open", servercape_open(TABLES(x), 8, ONLY(1)), 0);
    record("before the first calendar", x, 0, 479, (const uint8_t[]){7}, 1, update(479));
    same("install", servercape_install_calendar(TABLES(x), numbers, 1272), 0);
    record("closed, though known", x, 1, 479, (const uint8_t[]){7}, 1, refusal(26));
    record("from", x, 1, 480, (const uint8_t[]){7}, 1, update(480));
    record("to", x, 1, 1199, (const uint8_t[]){7, 7}, 2, refusal(26));
    record("a zero byte at to", x, 1, 1199, (const uint8_t[]){7, 0}, 2, update(1199));
    record("8 before 26", x, 0, 0, (const uint8_t[]){7}, 1, refusal(8));
    record("another platform's Monday", x, 1, (UINT64_C(3) << 32) + 480, (const uint8_t[]){7}, 1, update((UINT64_C(3) << 32) + 480));
    same("a shorter slice", servercape_install_calendar(TABLES(x), numbers, 0), 0);
    record("an empty calendar closes all", x, 1, 480, (const uint8_t[]){8}, 1, refusal(26));
    numbers[0] = 0;
    numbers[119] = 1;
    numbers[120] = 1;
    numbers[121] = 1;
    numbers[123] = 1440;
    same("a special day", servercape_install_calendar(TABLES(x), numbers, 138), 0);
    record("its first minute", x, 1, 1440, (const uint8_t[]){7}, 1, update(1440));
    record("the week after", x, 1, 8 * 1440, (const uint8_t[]){7}, 1, refusal(26));
    uint64_t closed[138] = {0};
    for (size_t weekday = 0; weekday < 7; weekday++)
        closed[17 * weekday] = 1, closed[17 * weekday + 2] = 1440;
    closed[119] = closed[120] = 1;
    same("all open but day 1", servercape_install_calendar(TABLES(x), closed, 138), 0);
    record("a special day without windows", x, 1, 1440, (const uint8_t[]){7}, 1, refusal(26));
    record("its weekday", x, 1, 8 * 1440, (const uint8_t[]){7}, 1, update(8 * 1440));
    same("the special day again", servercape_install_calendar(TABLES(x), numbers, 138), 0);
    numbers[123] = 1441;
    not_installed("to above 1440", x, numbers, 138, 27);
    not_installed("from = to", x, (const uint64_t[]){1, 5, 5}, 3, 27);
    not_installed("nine windows", x, (const uint64_t[]){9}, 1, 27);
    numbers[119] = 2;
    not_installed("day 1, then day 0", x, numbers, 122, 27);
    numbers[119] = 65;
    not_installed("65 days", x, numbers, 120, 27);
    record("the special day still stands", x, 1, 1440, (const uint8_t[]){7}, 1, a_read);
    same("finish", servercape_finish(TABLES(x)), 0);
    not_installed("finished", x, numbers, 120, 3);
    x.blocks[servercape_length(SERVERCAPE_BLOCKS, 0) - 8] = 9;
    not_installed("not well formed", x, numbers, 120, 2);
}

/* The clock label of a cell. */
static void label(const char *what, struct lent x, uint64_t cell, uint64_t want)
{
    uint64_t told = 77;
    same(what, servercape_clock(TABLES(x), cell, &told), 0);
    same("its label", told, want);
}

/* A list of days is refused, and nothing changes. */
static void no_days(const char *what, struct lent x, const uint64_t *days, size_t length, uint64_t number)
{
    uint64_t before = sum_of(x);
    same(what, servercape_install_days(TABLES(x), days, length), number);
    same("kept tables", sum_of(x), before);
}

/* Each fault of 28; 64 days are taken, and an empty list takes them back. */
static void days_refused(struct lent x)
{
    uint64_t many[130];
    for (uint64_t k = 0; k < 65; k++)
        many[2 * k] = k, many[2 * k + 1] = 1380;
    no_days("a day of 1440 minutes", x, (const uint64_t[]){0, 1440}, 2, 28);
    no_days("a day of 1379 minutes", x, (const uint64_t[]){0, 1500, 1, 1379}, 4, 28);
    no_days("a day twice", x, (const uint64_t[]){3, 1380, 3, 1500}, 4, 28);
    no_days("days that fall", x, (const uint64_t[]){4, 1380, 3, 1500}, 4, 28);
    no_days("a day without its minutes", x, (const uint64_t[]){3, 1380, 4}, 3, 28);
    no_days("65 days", x, many, 130, 28);
    label("the list before still stands", x, 180, 200);
    same("64 days", servercape_install_days(TABLES(x), many, 128), 0);
    label("the last of them", x, 63 * 1380 + 120, 300);
    label("the day after", x, 64 * 1380, 0);
    same("an empty list", servercape_install_days(TABLES(x), many, 0), 0);
    label("every day has 1440 minutes again", x, 180, 300);
}

/* A short and a long day at each edge, hours by the list, on an open, a finished and a loaded index. */
static void listed_days(struct lent x)
{
    static const uint64_t short_day[] = {0, 1380}, long_day[] = {0, 1500}, hours[] = {1, 120, 180};
    struct lent y = lend(8, 16, 64, 16, 32);
    uint8_t file[1024];
    uint64_t written = 0, next = 0, told = 77;
    same("open", servercape_open(TABLES(x), 8, ONLY(1)), 0);
    label("without a list", x, (UINT64_C(7) << 32) + 3 * 1440 + 605, 1005);
    same("a short day", servercape_install_days(TABLES(x), short_day, 2), 0);
    label("up to 01:59", x, 119, 159);
    label("then 03:00", x, 120, 300);
    label("its last minute", x, 1379, 2359);
    label("day 1", x, 1380, 0);
    label("a platform's last minute", x, UINT32_MAX, 515);
    label("another platform", x, (UINT64_C(9) << 32) + 120, 300);
    same("hours from 02:00 to 03:00", servercape_install_calendar(TABLES(x), hours, 3), 0);
    record("no minute of the short day", x, 1, 119, (const uint8_t[]){0, 7}, 2, refusal(26));
    same("a long day", servercape_install_days(TABLES(x), long_day, 2), 0);
    record("both passes", x, 1, 178, (const uint8_t[]){7, 7, 7, 7}, 4, update(178));
    record("the minute after", x, 1, 239, (const uint8_t[]){7, 7}, 2, refusal(26));
    label("the end of the first pass", x, 179, 259);
    label("the second", x, 180, 200);
    label("its end", x, 239, 259);
    label("after it", x, 240, 300);
    label("its last minute", x, 1499, 2359);
    label("day 1", x, 1500, 0);
    same("finish", servercape_finish(TABLES(x)), 0);
    label("finish keeps the list", x, 180, 200);
    same("a finished index takes another", servercape_install_days(TABLES(x), short_day, 2), 0);
    label("by that", x, 120, 300);
    same("and another", servercape_install_days(TABLES(x), long_day, 2), 0);
    days_refused(x);
    same("write", servercape_write(TABLES(x), file, sizeof file, &written), 0);
    same("load", servercape_load(TABLES(y), file, written, 0, &next), 0);
    label("a loaded index has none", y, 180, 300);
    same("and takes one", servercape_install_days(TABLES(y), long_day, 2), 0);
    label("by that", y, 180, 200);
    x.blocks[servercape_length(SERVERCAPE_BLOCKS, 0) - 8] = 9;
    no_days("not well formed", x, (const uint64_t[]){0, 1440}, 2, 2);
    same("clock, not well formed", servercape_clock(TABLES(x), 0, &told), 2);
    same("kept label", told, 77);
    give_back(y);
}

/* ── several kinds ── */

/* Kinds 0, 3 and 4: cell 5 of two of them, and cell 9 of one. */
static const uint8_t several[] = {4, 0, 3, 0};

static void play_kinds(struct lent x)
{
    const uint8_t train[] = {8};
    same("open kinds 0, 3, 4", servercape_open(TABLES(x), 8, several, 4), 0);
    record_of(1, "a kind that was not opened, before 5", x, 0, 5, train, 0, refusal(25));
    record_of(5, "no such kind", x, 0, 5, train, 1, refusal(25));
    record_of(255, "nor that", x, 8, UINT64_MAX, train, 1, refusal(25));
    record_of(3, "kind 3", x, 1, 5, train, 1, update(5));
    record_of(0, "the last tick is common", x, 0, 5, train, 1, refusal(8));
    record_of(0, "kind 0", x, 3, 9, train, 1, update(9));
    record_of(0, "the same cell and byte in another kind", x, 4, 5, train, 1, update(5));
    record_of(3, "known", x, 4, 5, train, 1, a_read);
}

/* What find, touching and read cells must give of kind 0, 3 or 4 at tick 5 over [0, 10), and of any other. */
static void read_kind(struct lent x, uint8_t kind, uint64_t count, const uint64_t *numbers, const uint8_t held[10])
{
    uint64_t answer[3] = {77, 77, 77}, listed = 77, visited = 77;
    uint8_t bytes[10], shown[10];
    same("find", servercape_find(TABLES(x), kind, 5, 0, 10, answer, 3, &listed, &visited), 0);
    same("its count", listed, count);
    same("its nodes", visited, count ? 2 : 0);
    same("its numbers", memcmp(answer, numbers, 8 * count) == 0 && answer[2] == 77, 1);
    same("touching", servercape_touching(TABLES(x), kind, 5, 0, 10, answer, 3, &listed), 0);
    same("its list", listed == count && memcmp(answer, numbers, 8 * count) == 0, 1);
    same("cells", servercape_read_cells(TABLES(x), kind, 5, 0, 10, bytes, 10, shown, 10), 0);
    same("held", memcmp(shown, held, 10) == 0, 1);
    same("occupation", servercape_occupation(TABLES(x), kind, 5, (const uint64_t[]){0, 10}, 2, &listed, &visited, &answer[2]), 0);
    same("its tenths, one hundred a cell", answer[2], 100 * count);
    same("find all", servercape_find_all(TABLES(x), kind, (const uint64_t[]){5, 0, 10}, 3, answer, 3, &visited, 1), 1);
    same("as find, or no room", answer[0] == (count > 1 ? 16 : 0) && answer[1] == (count > 1 ? 0 : count), 1);
}

/* Every read of a kind that was not opened is refused 25, before 14 to 16; or with another number. */
static void no_kind(struct lent x, uint8_t kind, uint64_t number)
{
    uint64_t a = 77, b = 77, c = 77, answers[3] = {77, 77, 77};
    uint8_t byte = 77;
    same("find", servercape_find(TABLES(x), kind, 8, 1, 0, &a, 0, &a, &b), number);
    same("touching", servercape_touching(TABLES(x), kind, 8, 1, 0, &a, 0, &a), number);
    same("next", servercape_next(TABLES(x), kind, 8, 0, &a, &b), number);
    same("last", servercape_last(TABLES(x), kind, 8, 0, &a, &b), number);
    same("cells", servercape_read_cells(TABLES(x), kind, 8, 1, 0, &byte, 0, &byte, 0), number);
    same("occupation", servercape_occupation(TABLES(x), kind, 8, (const uint64_t[]){1, 0}, 2, &a, &b, &c), number);
    same("find all", servercape_find_all(TABLES(x), kind, (const uint64_t[]){8, 1, 0}, 3, answers, 3, &a, 1), 1);
    same("its answer", answers[0] == number && answers[1] + answers[2] == 0, 1);
    same("kept", a + b + c + byte, 4 * 77);
}

/* Opening takes a set; every other kind is refused 25; trees, block numbers and parts of the file go by kind code. */
static void kinds(void)
{
    struct lent x = lend(3, 3, 3, 11, 6), y = lend(0, 2, 2, 6, 3);
    static const uint64_t zero[] = {0, 1}, three[] = {2}, alone[] = {0};
    static const uint8_t held_zero[10] = {0, 0, 0, 0, 0, 1, 0, 0, 0, 1}, held_three[10] = {0, 0, 0, 0, 0, 1}, held_none[10] = {0};
    uint8_t file[600];
    uint64_t kind = 77, first = 77, length = 77, created = 77, destroyed = 77, offset = 77, written = 77, next = 77;
    same("no kind", servercape_open(TABLES(x), 8, several, 0), 1);
    same("kind 5 among others", servercape_open(TABLES(x), 8, (const uint8_t[]){1, 5}, 2), 1);
    play_kinds(x);
    no_kind(x, 1, 4);
    x.nodes_length -= 8;
    same("nodes of all trees", servercape_finish(TABLES(x)), 12);
    x.nodes_length += 8;
    x.entries_length -= 2;
    same("entries of all trees", servercape_finish(TABLES(x)), 13);
    x.entries_length += 2;
    same("finish", servercape_finish(TABLES(x)), 0);
    record_of(1, "3 before 25", x, 4, 5, held_zero, 1, refusal(3));
    read_kind(x, 0, 2, zero, held_zero);
    read_kind(x, 3, 1, three, held_three);
    read_kind(x, 4, 0, zero, held_none);
    no_kind(x, 1, 25);
    no_kind(x, 5, 25);
    no_kind(x, 255, 25);
    no_kind(x, 3, 14);
    for (uint64_t k = 0; k < 3; k++) {
        same("block", servercape_block(TABLES(x), k, &kind, &first, &length, &created, &destroyed, &offset), 0);
        same("by kind, then by cell", kind == (k == 2 ? 3 : 0) && first == (k == 1 ? 9 : 5), 1);
    }
    same("write", servercape_write(TABLES(x), file, sizeof file, &written), 0);
    same("both parts", written, 544);
    same("load", servercape_load(TABLES(y), file, written, 0, &next), 0);
    same("up to the second", next, 272);
    read_kind(y, 0, 2, zero, held_zero);
    no_kind(y, 3, 25);
    same("load the second", servercape_load(TABLES(y), file, written, next, &next), 0);
    same("up to the end", next, 544);
    read_kind(y, 3, 1, alone, held_three);
    no_kind(y, 0, 25);
    same("write it again", servercape_write(TABLES(y), file, 272, &written), 0);
    same("its kind stands in front", file[0], 3);
    give_back(x);
    give_back(y);
}

/* A list of operations of one kind. */
static void record_all_kinds(void)
{
    struct lent x = lend(8, 16, 64, 16, 32);
    uint8_t list[64];
    uint64_t answers[6] = {77, 77, 77, 77, 77, 77}, next = 77;
    size_t end = put_operation(list, 0, 1, 5, (const uint8_t[]){8}, 1);
    end = put_operation(list, end, 1, 5, (const uint8_t[]){8}, 1);
    same("open", servercape_open(TABLES(x), 8, several, 4), 0);
    for (uint8_t kind = 3; kind < 5; kind++) {
        same("record all", servercape_record_all(TABLES(x), x.scratch, 8, kind, list, end, answers, 6, &next), 2);
        same("an update, then a read", answers[0] == 0 && answers[1] == 1 && answers[2] == 5 && answers[3] + answers[4] + answers[5] == 0, 1);
    }
    same("not opened", servercape_record_all(TABLES(x), x.scratch, 8, 2, list, end, answers, 6, &next), 2);
    same("each is refused 25", answers[0] == 25 && answers[3] == 25 && answers[1] + answers[2] + answers[4] + answers[5] == 0, 1);
    give_back(x);
}

static void without_blocks(struct lent x)
{
    uint64_t count = 77;
    same("open", servercape_open(TABLES(x), 8, ONLY(1)), 0);
    same("finish", servercape_finish(TABLES(x)), 0);
    same("touching nothing", servercape_touching(TABLES(x), MEMORY, 7, 0, UINT64_MAX, x.scratch, 0, &count), 0);
    same("no block", count, 0);
    neighbours(x, 7, 0, missing, missing);
    neighbours(x, 7, UINT64_MAX, missing, missing);
}

/* ── the rest ── */

static void lengths(void)
{
    same("pieces", servercape_length(SERVERCAPE_PIECES, 512), 8 + 8 * 512);
    same("blocks", servercape_length(SERVERCAPE_BLOCKS, 512) - servercape_length(SERVERCAPE_BLOCKS, 0), 8 * 512);
    same("entries", servercape_length(SERVERCAPE_ENTRIES, 4096), 8 + 2 * 4096);
    same("store", servercape_length(SERVERCAPE_STORE, UINT64_MAX), UINT64_MAX);
    same("scratch", servercape_length(SERVERCAPE_SCRATCH, 3), 24);
    same("the last that fits", servercape_length(SERVERCAPE_NODES, UINT64_MAX / 8 - 1), UINT64_MAX - 7);
    same("does not fit", servercape_length(SERVERCAPE_NODES, UINT64_MAX / 8), 0);
    same("no such table", servercape_length(6, 1), 0);
}

static void refused(struct lent x)
{
    same("end tick 0", servercape_open(TABLES(x), 0, ONLY(1)), 1);
    same("largest end tick", servercape_open(TABLES(x), SERVERCAPE_MAX_END_TICK, ONLY(4)), 0);
    same("above it", servercape_open(TABLES(x), SERVERCAPE_MAX_END_TICK + 1, ONLY(4)), 1);
    same("kind 5", servercape_open(TABLES(x), 8, ONLY(5)), 1);
    uint64_t count = 77, visited = 77, tenths = 77;
    same("not finished", servercape_find(TABLES(x), MEMORY, 0, 0, 1, x.scratch, x.scratch_length, &count, &visited), 4);
    same("touching, not finished", servercape_touching(TABLES(x), MEMORY, UINT64_MAX, 1, 0, x.scratch, 0, &count), 4);
    same("next, not finished", servercape_next(TABLES(x), MEMORY, UINT64_MAX, 0, &count, &visited), 4);
    same("last, not finished", servercape_last(TABLES(x), MEMORY, UINT64_MAX, 0, &count, &visited), 4);
    same("occupation, not finished", servercape_occupation(TABLES(x), MEMORY, UINT64_MAX, x.scratch, 0, &count, &visited, &tenths), 4);
    /* the state stands in the head's last row */
    x.blocks[servercape_length(SERVERCAPE_BLOCKS, 0) - 8] = 9;
    same("not well formed", servercape_finish(TABLES(x)), 2);
    record("record, not well formed", x, 0, 0, (const uint8_t[]){1}, 1, refusal(2));
    same("touching, not well formed", servercape_touching(TABLES(x), MEMORY, UINT64_MAX, 1, 0, x.scratch, 0, &count), 2);
    same("next, not well formed", servercape_next(TABLES(x), MEMORY, UINT64_MAX, 0, &count, &visited), 2);
    same("last, not well formed", servercape_last(TABLES(x), MEMORY, UINT64_MAX, 0, &count, &visited), 2);
    same("occupation, not well formed", servercape_occupation(TABLES(x), MEMORY, UINT64_MAX, x.scratch, 0, &count, &visited, &tenths), 2);
    same("kept values", count + visited + tenths, 3 * 77);
}

int main(void)
{
    struct lent x = lend(8, 16, 64, 16, 32);
    lengths();
    refused(x);
    play(x);
    same("finish", servercape_finish(TABLES(x)), 0);
    same("finished", servercape_finish(TABLES(x)), 3);
    record("record, finished", x, 7, 0, (const uint8_t[]){1}, 1, refusal(3));
    read_blocks(x);
    read_finds(x);
    find_all(x);
    read_touching(x);
    read_neighbours(x);
    read_all_cells(x);
    read_occupation(x);
    write_and_load(x);
    midnight(x);
    held_zero(x);
    same_tick(x);
    changes(x);
    scratch();
    record_all();
    station_hours(x);
    listed_days(x);
    kinds();
    record_all_kinds();
    without_blocks(x);
    give_back(x);
    printf("C: %d checks, %d wrong\n", checks, wrong);
    return wrong != 0;
}
