// A board's history for C++17: an index that frees itself, over servercape_index.h. A call that is
// refused throws servercape::Refused, and one that finds no memory std::bad_alloc; then the index
// is as it was.
#ifndef SERVERCAPE_INDEX_HPP
#define SERVERCAPE_INDEX_HPP

#include "servercape_index.h"

#include <cstddef>
#include <cstdint>
#include <new>
#include <optional>
#include <stdexcept>
#include <string>
#include <utility>
#include <vector>

namespace servercape
{

using Numbers = std::vector<std::uint64_t>;
using Bytes = std::vector<std::uint8_t>;

// The cells from the first up to, and not including, the second.
using Window = std::pair<std::uint64_t, std::uint64_t>;

// How much of some windows is occupied: a fraction that is reduced fully, and tenths of a percent.
struct Occupation {
    std::uint64_t occupied, cells, tenths;
};

// A kind of space. An index is opened with one or more, and a cell of one kind is none of another.
enum class Kind : std::uint8_t {
    constant = SERVERCAPE_CONSTANT,
    memory = SERVERCAPE_MEMORY,
    index_register = SERVERCAPE_REGISTER,
    unique = SERVERCAPE_UNIQUE,
    other = SERVERCAPE_OTHER
};

// A call was refused, and nothing has changed.
class Refused : public std::runtime_error
{
public:
    explicit Refused(std::uint64_t number)
        : std::runtime_error("refused " + std::to_string(number)), number_(number)
    {
    }

    std::uint64_t number() const noexcept { return number_; }

private:
    std::uint64_t number_;
};

// Throws what a call returned, where that is not 0.
inline void accepted(std::uint64_t refused)
{
    if (refused == SERVERCAPE_NO_MEMORY)
        throw std::bad_alloc();
    if (refused != 0)
        throw Refused(refused);
}

// The history of a board. A copy is an index of its own: to read a board that goes on, finish a
// copy of it. One that was moved from is not opened, and refuses all calls 2.
class Index
{
public:
    explicit Index(std::uint64_t end_tick, const std::vector<Kind> &kinds = {Kind::memory})
    {
        Bytes codes;
        for (Kind kind : kinds)
            codes.push_back(static_cast<std::uint8_t>(kind));
        accepted(servercape_index_open(&index_, end_tick, codes.data(), codes.size()));
    }

    // A finished index from a file, with the position after it, where the next kind of the same
    // board begins.
    static std::pair<Index, std::size_t> load(const Bytes &file, std::size_t at = 0)
    {
        Index loaded;
        std::uint64_t next = 0;
        accepted(servercape_index_load(&loaded.index_, file.data(), file.size(), at, &next));
        return {std::move(loaded), static_cast<std::size_t>(next)};
    }

    Index(const Index &other)
    {
        if (other.index_.state != SERVERCAPE_NOT_WELL_FORMED)
            accepted(servercape_index_clone(&index_, &other.index_));
    }

    Index(Index &&other) noexcept { std::swap(index_, other.index_); }

    Index &operator=(Index other) noexcept
    {
        std::swap(index_, other.index_);
        return *this;
    }

    ~Index() { servercape_index_free(&index_); }

    // The lowest cell that was unknown or had another byte; none where nothing changed.
    std::optional<std::uint64_t> record(Kind kind, std::uint64_t tick, std::uint64_t first,
                                        const Bytes &bytes)
    {
        std::uint64_t updated = 0, cell = 0;
        accepted(servercape_index_record(&index_, code(kind), tick, first, bytes.data(),
                                         bytes.size(), &updated, &cell));
        return updated ? std::optional<std::uint64_t>(cell) : std::nullopt;
    }

    void install_calendar(const Numbers &calendar)
    {
        accepted(servercape_index_install_calendar(&index_, calendar.data(), calendar.size()));
    }

    void install_days(const Numbers &days)
    {
        accepted(servercape_index_install_days(&index_, days.data(), days.size()));
    }

    void finish() { accepted(servercape_index_finish(&index_)); }

    // The board as it stands now, to be read. This one goes on.
    Index finished() const
    {
        Index copy(*this);
        copy.finish();
        return copy;
    }

    std::uint64_t state() const noexcept { return index_.state; }

    struct servercape_info info() const
    {
        struct servercape_info info {
        };
        accepted(servercape_index_info(&index_, &info));
        return info;
    }

    std::uint64_t clock(std::uint64_t cell) const
    {
        std::uint64_t label = 0;
        accepted(servercape_index_clock(&index_, cell, &label));
        return label;
    }

    struct servercape_block block(std::uint64_t number) const
    {
        struct servercape_block block {
        };
        accepted(servercape_index_block(&index_, number, &block));
        return block;
    }

    Numbers find(Kind kind, std::uint64_t tick, std::uint64_t start, std::uint64_t end) const
    {
        List list;
        accepted(
            servercape_index_find(&index_, code(kind), tick, start, end, &list.found, nullptr));
        return list.numbers();
    }

    Numbers touching(Kind kind, std::uint64_t tick, std::uint64_t start, std::uint64_t end) const
    {
        List list;
        accepted(servercape_index_touching(&index_, code(kind), tick, start, end, &list.found));
        return list.numbers();
    }

    std::optional<std::uint64_t> next(Kind kind, std::uint64_t tick, std::uint64_t cell) const
    {
        std::uint64_t found = 0, number = 0;
        accepted(servercape_index_next(&index_, code(kind), tick, cell, &found, &number));
        return found ? std::optional<std::uint64_t>(number) : std::nullopt;
    }

    std::optional<std::uint64_t> last(Kind kind, std::uint64_t tick, std::uint64_t cell) const
    {
        std::uint64_t found = 0, number = 0;
        accepted(servercape_index_last(&index_, code(kind), tick, cell, &found, &number));
        return found ? std::optional<std::uint64_t>(number) : std::nullopt;
    }

    // For each cell of the window its byte, if a block holds it.
    std::vector<std::optional<std::uint8_t>> cells(Kind kind, std::uint64_t tick,
                                                   std::uint64_t start, std::uint64_t end) const
    {
        // into no cells first: a window that is refused takes no memory
        const std::uint64_t refused =
            servercape_index_read_cells(&index_, code(kind), tick, start, end, nullptr, nullptr, 0);
        if (refused != SERVERCAPE_INDEX_NO_ANSWER) {
            accepted(refused);
            return {};
        }
        Bytes bytes(static_cast<std::size_t>(end - start)), held(bytes.size());
        accepted(servercape_index_read_cells(&index_, code(kind), tick, start, end, bytes.data(),
                                             held.data(), bytes.size()));
        std::vector<std::optional<std::uint8_t>> cells(bytes.size());
        for (std::size_t k = 0; k < bytes.size(); k++)
            if (held[k])
                cells[k] = bytes[k];
        return cells;
    }

    // All windows together: a cell that several of them have counts for each.
    Occupation occupation(Kind kind, std::uint64_t tick, const std::vector<Window> &windows) const
    {
        Numbers numbers;
        for (const Window &window : windows)
            numbers.insert(numbers.end(), {window.first, window.second});
        Occupation told{};
        accepted(servercape_index_occupation(&index_, code(kind), tick, numbers.data(),
                                             numbers.size(), &told.occupied, &told.cells,
                                             &told.tenths));
        return told;
    }

    Bytes write() const
    {
        File file;
        accepted(servercape_index_write(&index_, &file.written));
        return Bytes(file.written.bytes, file.written.bytes + file.written.count);
    }

    // For the functions of servercape_index.h.
    servercape_index *get() noexcept { return &index_; }
    const servercape_index *get() const noexcept { return &index_; }

private:
    Index() = default;

    static std::uint8_t code(Kind kind) noexcept { return static_cast<std::uint8_t>(kind); }

    struct List {
        servercape_numbers found{};

        List() = default;
        List(const List &) = delete;
        List &operator=(const List &) = delete;
        ~List() { servercape_numbers_free(&found); }
        Numbers numbers() const { return Numbers(found.numbers, found.numbers + found.count); }
    };

    struct File {
        servercape_bytes written{};

        File() = default;
        File(const File &) = delete;
        File &operator=(const File &) = delete;
        ~File() { servercape_bytes_free(&written); }
    };

    servercape_index index_{};
};

} // namespace servercape

#endif
