// servercape.h in C++: tables in vectors, every call once, and the listing's blocks. Prints how many checks it made, and every one that failed.
#include "../servercape.h"

#include <cstdint>
#include <cstdio>
#include <vector>

namespace {

int checks, wrong;

void same(const char *what, std::uint64_t got, std::uint64_t want)
{
    checks++;
    if (got != want) {
        wrong++;
        std::printf("%s: %llu, and not %llu\n", what, static_cast<unsigned long long>(got), static_cast<unsigned long long>(want));
    }
}

using Numbers = std::vector<std::uint64_t>;
using Bytes = std::vector<std::uint8_t>;

constexpr std::uint8_t memory = SERVERCAPE_MEMORY;

Numbers table(std::uint64_t which, std::uint64_t rows)
{
    return Numbers(servercape_length(which, rows));
}

struct Tables {
    Numbers pieces = table(SERVERCAPE_PIECES, 8), blocks = table(SERVERCAPE_BLOCKS, 16);
    Bytes store = Bytes(64);
    Numbers nodes = table(SERVERCAPE_NODES, 16), entries = table(SERVERCAPE_ENTRIES, 32);
};

/* The five slices, in the order that every call has. */
template <typename Call, typename... Rest> std::uint64_t call(Call *function, Tables &x, Rest... rest)
{
    return function(x.pieces.data(), x.pieces.size(), x.blocks.data(), x.blocks.size(), x.store.data(), x.store.size(), x.nodes.data(), x.nodes.size(),
                    x.entries.data(), x.entries.size(), rest...);
}

void record(Tables &x, std::uint64_t tick, std::uint64_t first, const Bytes &bytes, std::uint64_t want, std::uint64_t changed)
{
    const Numbers scratch(8);
    std::uint64_t updated = 77, cell = 77;
    same("record", call(servercape_record, x, scratch.data(), scratch.size(), memory, tick, first, bytes.data(), bytes.size(), &updated, &cell), 0);
    same("updated", updated, want);
    same("its cell", cell, changed);
}

void play(Tables &x)
{
    const Numbers hours = {1, 90, 120}, reversed = {1, 120, 90};
    const Bytes kinds = {SERVERCAPE_OTHER, memory}, none;
    same("no kind", call(servercape_open, x, std::uint64_t{8}, kinds.data(), none.size()), 1);
    same("open", call(servercape_open, x, std::uint64_t{8}, kinds.data(), kinds.size()), 0);
    same("hours, Mondays from 01:30 to 02:00", call(servercape_install_calendar, x, hours.data(), hours.size()), 0);
    same("no hours", call(servercape_install_calendar, x, reversed.data(), reversed.size()), 27);
    const Numbers short_day = {0, 1380}, whole_day = {0, 1440};
    same("a short day", call(servercape_install_days, x, short_day.data(), short_day.size()), 0);
    same("no list of days", call(servercape_install_days, x, whole_day.data(), whole_day.size()), 28);
    record(x, 1, 100, {7, 7, 7}, 1, 100);
    record(x, 3, 102, {9, 9, 9}, 1, 102);
    record(x, 5, 100, {7, 7}, 0, 0);
    record(x, 6, 103, {4}, 1, 103);
    same("finish", call(servercape_finish, x), 0);
    same("finish twice", call(servercape_finish, x), 3);
}

void read(Tables &x)
{
    const std::uint64_t tick = 6, firsts[] = {102, 103, 100, 102, 103, 104}, bytes[] = {7, 9, 7, 9, 4, 9};
    for (std::uint64_t number = 0; number < 6; number++) {
        std::uint64_t kind, first, length, created, destroyed, offset;
        same("block", call(servercape_block, x, number, &kind, &first, &length, &created, &destroyed, &offset), 0);
        same("its first cell", first, firsts[number]);
        same("its byte", x.store[offset], bytes[number]);
    }
    Numbers answer(16);
    std::uint64_t count = 77, visited = 77, found = 77, number = 77;
    same("find", call(servercape_find, x, memory, tick, std::uint64_t{100}, std::uint64_t{104}, answer.data(), answer.size(), &count, &visited), 0);
    same("its count", count, 3);
    same("a kind that was not opened", call(servercape_find, x, std::uint8_t{0}, tick, std::uint64_t{100}, std::uint64_t{104}, answer.data(), answer.size(), &count, &visited), 25);
    same("touching", call(servercape_touching, x, memory, tick, std::uint64_t{101}, std::uint64_t{103}, answer.data(), answer.size(), &count), 0);
    same("its first", count == 2 ? answer[0] : 77, 2);
    same("next", call(servercape_next, x, memory, tick, std::uint64_t{103}, &found, &number), 0);
    same("its number", number, 4);
    same("last", call(servercape_last, x, memory, tick, std::uint64_t{103}, &found, &number), 0);
    same("its number", number, 3);
    Bytes shown(4), held(4);
    same("cells", call(servercape_read_cells, x, memory, tick, std::uint64_t{102}, std::uint64_t{106}, shown.data(), shown.size(), held.data(), held.size()), 0);
    same("the last one is free", held == Bytes{1, 1, 1, 0}, 1);
    same("the trains", shown == Bytes{9, 4, 9, 0}, 1);
    const Numbers windows = {102, 106}, no_cell = {5, 5};
    std::uint64_t occupied = 77, cells = 77, tenths = 77;
    same("occupation", call(servercape_occupation, x, memory, tick, windows.data(), windows.size(), &occupied, &cells, &tenths), 0);
    same("three of four", occupied == 3 && cells == 4 && tenths == 750, 1);
    same("no cell", call(servercape_occupation, x, memory, tick, no_cell.data(), no_cell.size(), &occupied, &cells, &tenths), 37);
}

} // namespace

int main()
{
    Tables x, y;
    play(x);
    read(x);
    Bytes file(1024);
    std::uint64_t written = 0, next = 0;
    same("write", call(servercape_write, x, file.data(), file.size(), &written), 0);
    file.resize(written);
    same("load", call(servercape_load, y, static_cast<const std::uint8_t *>(file.data()), file.size(), std::uint64_t{0}, &next), 0);
    same("behind it", next, file.size());
    read(y);
    std::uint64_t label = 77;
    same("clock", call(servercape_clock, x, std::uint64_t{1379}, &label), 0);
    same("the last minute of the short day", label, 2359);
    same("clock of the loaded index", call(servercape_clock, y, std::uint64_t{1432}, &label), 0);
    same("without a list", label, 2352);
    std::printf("%d checks, %d wrong\n", checks, wrong);
    return wrong != 0;
}
