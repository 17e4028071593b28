/* What stands in an index, the version, and the words of the refusals. Prints how many checks it made, and every one that failed. */
#include "../servercape_tested.h"
#include "lent.h"

enum { FIELDS = sizeof(struct servercape_info) / sizeof(uint64_t), KEPT = 77 };

static struct servercape_info of(uint64_t state, uint64_t end_tick, uint64_t last_tick, uint64_t kinds, uint64_t pieces, uint64_t blocks, uint64_t store,
                                 uint64_t nodes, uint64_t entries)
{
    return (struct servercape_info){state, end_tick, last_tick, kinds, pieces, blocks, store, nodes, entries};
}

static const struct servercape_info kept = {KEPT, KEPT, KEPT, KEPT, KEPT, KEPT, KEPT, KEPT, KEPT};

static void alike(const char *what, struct servercape_info got, struct servercape_info want)
{
    static const char *const names[] = {"state", "end tick", "last tick", "kinds", "pieces", "blocks", "store", "nodes", "entries"};
    uint64_t one[FIELDS], other[FIELDS];
    memcpy(one, &got, sizeof one);
    memcpy(other, &want, sizeof other);
    for (size_t k = 0; k < FIELDS; k++) {
        char name[64];
        snprintf(name, sizeof name, "%s: %s", what, names[k]);
        same(name, one[k], other[k]);
    }
}

/* Both calls say the same, and change no table. */
static void expect(const char *what, struct lent x, struct servercape_info want)
{
    struct servercape_info info = kept, tested = kept;
    uint64_t state = servercape_state(TABLES(x));
    same(what, servercape_info(TABLES(x), &info), 0);
    alike(what, info, want);
    same("after one test", servercape_info_tested(state, x.pieces, x.pieces_length, x.blocks, x.blocks_length, x.nodes, x.nodes_length, x.entries,
                                                  x.entries_length, &tested), 0);
    alike("after one test", tested, want);
    same("the state", servercape_state(TABLES(x)), state);
}

static void expect_refused(const char *what, struct lent x)
{
    struct servercape_info info = kept;
    same(what, servercape_info(TABLES(x), &info), SERVERCAPE_REFUSED_NOT_WELL_FORMED);
    alike(what, info, kept);
    same("of no state", servercape_info_tested(SERVERCAPE_NOT_WELL_FORMED, x.pieces, x.pieces_length, x.blocks, x.blocks_length, x.nodes, x.nodes_length,
                                               x.entries, x.entries_length, &info), SERVERCAPE_REFUSED_NOT_WELL_FORMED);
    alike("of no state", info, kept);
}

static void record(struct lent x, uint8_t kind, uint64_t tick, uint64_t first, size_t length)
{
    static const uint8_t trains[3] = {7, 7, 7};
    uint64_t updated, cell;
    same("record", servercape_record(TABLES(x), x.scratch, x.scratch_length, kind, tick, first, trains, length, &updated, &cell), 0);
}

static void with_info(void)
{
    struct lent x = lend(8, 16, 64, 32, 32), y = lend(8, 16, 64, 32, 32);
    uint8_t file[4096];
    uint64_t written = 0, next = 0;
    expect_refused("garbage", x);
    same("open", servercape_open(TABLES(x), 8, (const uint8_t[]){SERVERCAPE_OTHER, SERVERCAPE_MEMORY}, 2), 0);
    expect("opened", x, of(1, 8, 0, 1 << SERVERCAPE_OTHER | 1 << SERVERCAPE_MEMORY, 0, 0, 0, 0, 0));
    record(x, SERVERCAPE_MEMORY, 1, 100, 3);
    record(x, SERVERCAPE_OTHER, 2, 100, 1);
    expect("recorded", x, of(1, 8, 2, 18, 2, 0, 4, 0, 0));
    record(x, SERVERCAPE_MEMORY, 5, 101, 1);
    expect("a read", x, of(1, 8, 5, 18, 2, 0, 4, 0, 0));
    same("finish", servercape_finish(TABLES(x)), 0);
    expect("finished", x, of(2, 8, 5, 18, 0, 2, 4, 10, 5));
    same("write", servercape_write(TABLES(x), file, sizeof file, &written), 0);
    same("load", servercape_load(TABLES(y), file, sizeof file, 0, &next), 0);
    expect("loaded", y, of(2, 8, 0, 1 << SERVERCAPE_MEMORY, 0, 1, 3, 6, 3));
    x.blocks_length = 9;
    expect_refused("a table that cannot hold its head", x);
    x.blocks_length = servercape_length(SERVERCAPE_BLOCKS, 16);
    give_back(x);
    give_back(y);
}

static void with_words(void)
{
    uint64_t number;
    same("accepted", strcmp(servercape_refusal_text(0), "the call was not refused") == 0, 1);
    same("a booking without cells", strcmp(servercape_refusal_text(5), "the booking has no cells") == 0, 1);
    same("and what to do", strcmp(servercape_refusal_advice(SERVERCAPE_REFUSED_NO_CELLS), "leave it out") == 0, 1);
    same("two conditions", strstr(servercape_refusal_text(15), ", or there is no block of that number") != NULL, 1);
    for (number = 0; strcmp(servercape_refusal_text(number), servercape_refusal_text(UINT64_MAX)) != 0; number++)
        same("each has an advice", servercape_refusal_advice(number)[0] != '\0', 1);
    same("all are known", number > SERVERCAPE_REFUSED_WRONG_DAYS, 1);
}

int main(void)
{
    same("the library is that of the header", servercape_version(), SERVERCAPE_VERSION_NUMBER);
    with_info();
    with_words();
    printf("C, info and words: %d checks, %d wrong\n", checks, wrong);
    return wrong != 0;
}
