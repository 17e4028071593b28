// servercape_index.hpp: the listing's board, copies, moves, files and refusals. Prints how many
// checks it made, and every one that failed.
#include "../servercape_index.hpp"

#include <cstdio>

namespace
{

using servercape::Bytes;
using servercape::Index;
using servercape::Kind;
using servercape::Numbers;

int checks, wrong;

void check(const char *what, bool holds)
{
    checks++;
    if (!holds) {
        wrong++;
        std::printf("%s\n", what);
    }
}

// The number of the refusal that a call throws, 0 where it throws none.
template <typename Call> std::uint64_t refused(Call call)
{
    try {
        call();
    } catch (const servercape::Refused &refusal) {
        return refusal.number();
    }
    return 0;
}

Index board()
{
    Index index(8);
    check("record", index.record(Kind::memory, 1, 100, {7, 7, 7}) == 100);
    check("record", index.record(Kind::memory, 3, 102, {9, 9, 9}) == 102);
    check("a read", !index.record(Kind::memory, 5, 100, {7, 7}));
    check("record", index.record(Kind::memory, 6, 103, {4}) == 103);
    return index;
}

void read(const Index &index)
{
    check("its state", index.state() == SERVERCAPE_CLOSED && index.info().blocks == 6 &&
                           index.info().end_tick == 8);
    check("find", index.find(Kind::memory, 6, 100, 104) == Numbers{2, 3, 4});
    check("touching", index.touching(Kind::memory, 6, 101, 103) == Numbers{2, 3});
    check("next", index.next(Kind::memory, 6, 103) == 4 && !index.next(Kind::memory, 6, 105));
    check("last", index.last(Kind::memory, 6, 103) == 3 && !index.last(Kind::memory, 6, 100));
    const auto cells = index.cells(Kind::memory, 6, 102, 106);
    check("cells",
          cells.size() == 4 && cells[0] == 9 && cells[1] == 4 && cells[2] == 9 && !cells[3]);
    check("no cells", index.cells(Kind::memory, 6, 5, 5).empty());
    const auto half = index.occupation(Kind::memory, 6, {{99, 103}, {103, 109}});
    check("occupation", half.occupied == 1 && half.cells == 2 && half.tenths == 500);
    check("a block", index.block(3).first == 102 && index.block(3).length == 1 &&
                         index.block(3).bytes[0] == 9);
    check("a label", index.clock(102) == 142);
}

void copies()
{
    Index index = board();
    Index now = index.finished(), other(now);
    read(now);
    check("the board goes on", index.record(Kind::memory, 7, 100, {1}) == 100);
    other = std::move(now);
    read(other);
    check("moved from",
          now.state() == SERVERCAPE_NOT_WELL_FORMED && refused([&] { now.finish(); }) == 2);
    now = other;
    read(now);
    now = Index(5, {Kind::other, Kind::unique});
    check("its kinds", now.info().kinds == 24);
    const Bytes file = other.write();
    const auto [loaded, next] = Index::load(file);
    read(loaded);
    check("behind it", next == file.size());
}

void refusals()
{
    Index index = board();
    check("no kind", refused([] { Index none(8, {}); }) == 1);
    check("no cells", refused([&] { index.record(Kind::memory, 7, 0, {}); }) == 5);
    check("a tick that goes back", refused([&] { index.record(Kind::memory, 2, 0, {1}); }) == 8);
    check("a kind that was not opened",
          refused([&] { index.record(Kind::other, 7, 0, {1}); }) == 25);
    check("it is open", refused([&] { index.touching(Kind::memory, 0, 0, 1); }) == 4 &&
                            refused([&] { index.write(); }) == 4);
    check("no hours", refused([&] { index.install_calendar({1, 9, 9}); }) == 27);
    check("no list of days", refused([&] { index.install_days({0, 1440}); }) == 28);
    index.install_days({0, 1380});
    check("a short day", index.clock(120) == 300);
    index.install_calendar({});
    check("all is closed", refused([&] { index.record(Kind::memory, 7, 0, {1}); }) == 26);
    index.finish();
    check("finished twice", refused([&] { index.finish(); }) == 3);
    check("a window turned round", refused([&] { index.cells(Kind::memory, 0, 2, 1); }) == 15);
    check("a report on no window",
          refused([&] { index.occupation(Kind::memory, 0, {}); }) == 37 &&
              refused([&] { index.occupation(Kind::memory, 0, {{2, 1}}); }) == 15);
    check("a cut file", refused([] { Index::load(Bytes(3)); }) == 17);
    check("the file's end", refused([] { Index::load({}); }) == 17);
}

} // namespace

int main()
{
    read(board().finished());
    copies();
    refusals();
    std::printf("C++, an index that frees itself: %d checks, %d wrong\n", checks, wrong);
    return wrong != 0;
}
