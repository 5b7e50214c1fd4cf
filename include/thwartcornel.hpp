// Tables with several indices in a C++20 program: thwartcornel.h with a handle that closes itself. thwartcornel.h says what each call does.
//
//     using thwartcornel::tables;
//     if (auto book = tables::open(schema))
//         if (auto answer = book->ask(R"({"op":"size","t":"t"})"))
//             std::cout << *answer;
//
// `tables` takes lines of JSON, and `rows` has the records of one table as cells:
//
//     using thwartcornel::rows;
//     if (auto people = rows::open(schema)) {
//         auto ann = people->insert({1, "Ann", 30});
//         for (auto at : people->along(by_age, people->lower(by_age, {18})))
//             if (auto record = people->get(at))
//                 std::cout << *(*record)[1].text() << '\n';
//     }
//
// Nothing here throws, and it builds with -fno-exceptions too: each call tells its status, or is an optional without a value.
#ifndef THWARTCORNEL_HPP
#define THWARTCORNEL_HPP

#if __cplusplus < 202002L
#error "thwartcornel.hpp needs C++20: compile with -std=c++20"
#endif

#include "thwartcornel.h"

#include <array>
#include <concepts>
#include <cstddef>
#include <cstdint>
#include <cstring>
#include <initializer_list>
#include <iterator>
#include <memory>
#include <new>
#include <optional>
#include <span>
#include <string_view>
#include <utility>

namespace thwartcornel {

// What a call answers: thwartcornel.h says when.
enum class status : std::uint8_t {
    ok = TC_OK,
    memory = TC_MEMORY,
    toml = TC_TOML,
    shape = TC_SHAPE,
    limit = TC_LIMIT,
    name = TC_NAME,
    key = TC_KEY,
    handle = TC_HANDLE,
    room = TC_ROOM,
    none = TC_NONE,
    row = TC_ROW,
    search = TC_SEARCH,
    kind = TC_KIND,
    stale = TC_STALE,
    banned = TC_BANNED,
    lost = TC_LOST,
    full = TC_FULL,
    spent = TC_SPENT,
    table = TC_TABLE,
    place = TC_PLACE,
    device = TC_DEVICE,
    taken = TC_TAKEN,
    other = TC_OTHER,
    hurt = TC_HURT,
    log = TC_LOG
};

// A status, and a number of bytes: those taken, those written, or those that wait.
struct told {
    status how;
    std::size_t length;
};

// What `tables` and `rows` stand on.
namespace parts {

// (no pointer that a call is given may be null)
inline const char *at(std::string_view bytes) noexcept { return bytes.empty() ? "" : bytes.data(); }

// A handle of the library, which closes where this ends.
template <class Handle, void (*close)(Handle *)> class owner {
  public:
    owner() noexcept = default;
    owner(owner &&other) noexcept { std::swap(handle, other.handle); }

    owner &operator=(owner &&other) noexcept
    {
        owner taken(std::move(other));
        std::swap(handle, taken.handle);
        return *this;
    }

    ~owner() { close(&handle); }

    operator Handle *() noexcept { return &handle; }

  private:
    Handle handle = TC_CLOSED;
};

// Room for bytes, which grows.
class bytes {
  public:
    bytes() noexcept = default;
    bytes(bytes &&other) noexcept { swap(other); }

    bytes &operator=(bytes &&other) noexcept
    {
        bytes taken(std::move(other));
        swap(taken);
        return *this;
    }

    char *data() noexcept { return size ? text.get() : &none; }
    std::size_t length() const noexcept { return size; }

    // Whether there is room for so many bytes. What was there is gone where it grew.
    bool reserve(std::size_t least) noexcept
    {
        if (least <= size)
            return true;
        std::size_t wanted = least < 2 * size ? 2 * size : least;
        text.reset(new (std::nothrow) char[wanted]);
        size = text ? wanted : 0;
        return size != 0;
    }

  private:
    std::unique_ptr<char[]> text;
    std::size_t size = 0;
    char none = 0;

    void swap(bytes &other) noexcept
    {
        std::swap(text, other.text);
        std::swap(size, other.size);
    }
};

} // namespace parts

// The tables of a schema, with one stream of lines. They end where this ends, and may be moved but not copied. What was moved from is
// closed, so each call tells status::handle or no value. One call at a time, as thwartcornel.h says.
class tables {
  public:
    // The empty tables of a schema file, of which this is the text. Without a value where that is refused: *why then says why.
    [[nodiscard]] static std::optional<tables> open(std::string_view schema, status *why = nullptr) noexcept
    {
        tables made;
        status how{tc_open(made.handle, parts::at(schema), schema.size())};
        if (why)
            *why = how;
        if (how != status::ok)
            return std::nullopt;
        return made;
    }

    // tc_open_folder: the tables of a schema file that the folder at a path keeps. Where is_synced, answers are told once the logs are synced.
    [[nodiscard]] static std::optional<tables> open_folder(std::string_view schema, std::string_view folder, bool is_synced = true, status *why = nullptr) noexcept
    {
        tables made;
        status how{tc_open_folder(made.handle, parts::at(schema), schema.size(), parts::at(folder), folder.size(), is_synced)};
        if (why)
            *why = how;
        if (how != status::ok)
            return std::nullopt;
        return made;
    }

    // tc_sync: syncs the logs of the tables that a folder keeps.
    [[nodiscard]] status sync() noexcept { return status{tc_sync(handle)}; }

    // tc_call: hands in the next bytes of the stream, cut anywhere. Of status::memory hand in again what stands behind `length`.
    [[nodiscard]] told call(std::string_view lines) noexcept
    {
        std::size_t taken = 0;
        status how{tc_call(handle, parts::at(lines), lines.size(), &taken)};
        return {how, taken};
    }

    // tc_end: ends the stream.
    [[nodiscard]] status end() noexcept { return status{tc_end(handle)}; }

    // tc_take: moves the answers that wait into the room, and tells their length. Of status::room they wait on.
    [[nodiscard]] told take(std::span<char> room) noexcept
    {
        char none;
        std::size_t length = 0;
        status how{tc_take(handle, room.empty() ? &none : room.data(), room.size(), &length)};
        return {how, length};
    }

    // All answers that wait, each with its newline. The text is good until the next `answers` or `ask`, and ends with the tables.
    // Without a value where the tables are closed, or memory for the text is refused: then they wait on.
    [[nodiscard]] std::optional<std::string_view> answers() noexcept
    {
        for (;;) {
            auto [how, length] = take({text.data(), text.length()});
            if (how == status::ok)
                return std::string_view{text.data(), length};
            if (how != status::room || !text.reserve(length))
                return std::nullopt;
        }
    }

    // Hands in one line, with its newline or without, and takes its answer, which is as long good as that of `answers`. An empty text
    // where the line has no answer. No answer may wait and no line be begun before it. Without a value: `answers` takes the answer later,
    // where memory for its text is refused; where the tables are closed, or a log can't be written (`end` or `sync` tells which), there is none.
    [[nodiscard]] std::optional<std::string_view> ask(std::string_view line) noexcept
    {
        if (!insist(line) || (!line.ends_with('\n') && !insist("\n")))
            return std::nullopt;
        return answers();
    }

  private:
    parts::owner<tc_tables, tc_close> handle;
    parts::bytes text;

    tables() noexcept = default;

    // Where no answer waits there is room for one, so each call takes a byte or more.
    bool insist(std::string_view bytes) noexcept
    {
        for (;;) {
            auto [how, taken] = call(bytes);
            bytes.remove_prefix(taken);
            if (how != status::memory)
                return how == status::ok;
            if (!taken)
                return false;
        }
    }
};

// A record's handle. It names its record until that is taken out, and no record afterwards.
struct handle : tc_handle {
    friend bool operator==(const handle &one, const handle &other) noexcept { return one.stamp == other.stamp && one.slot == other.slot; }
};

// A value of a record or a key: null, a whole number, a text or a truth value, or an optional one. A text is not copied: its bytes are the
// program's, or those of `rows::get`. What has more numbers than std::int64_t has to be cast to that.
class cell {
  public:
    cell() noexcept = default;
    cell(std::nullptr_t) noexcept {}
    cell(bool truth) noexcept : value{truth, TC_BOOLEAN} {}

    template <std::convertible_to<std::string_view> Text> cell(const Text &text) noexcept : cell(std::string_view(text), true) {}

    template <std::integral Number>
        requires(!std::same_as<Number, bool> && (std::signed_integral<Number> || sizeof(Number) < sizeof(std::int64_t)))
    cell(Number number) noexcept : value{number, TC_INTEGER}
    {
    }

    template <class Value> cell(const std::optional<Value> &value) noexcept : cell(value ? cell(*value) : cell()) {}

    bool is_null() const noexcept { return value.kind == TC_NULL; }

    // The value, where it is of the type.
    std::optional<std::int64_t> number() const noexcept { return value.kind == TC_INTEGER ? std::optional(value.number) : std::nullopt; }
    std::optional<bool> truth() const noexcept { return value.kind == TC_BOOLEAN ? std::optional(value.number != 0) : std::nullopt; }
    std::optional<std::string_view> text() const noexcept
    {
        return value.kind == TC_TEXT ? std::optional(std::string_view(bytes, static_cast<std::size_t>(value.number))) : std::nullopt;
    }

    friend bool operator==(const cell &one, const cell &other) noexcept
    {
        return one.value.kind == other.value.kind && one.value.number == other.value.number && one.text() == other.text();
    }

  private:
    friend class rows;

    tc_cell value{0, TC_NULL};
    const char *bytes = "";

    cell(std::string_view text, bool) noexcept : value{static_cast<std::int64_t>(text.size()), TC_TEXT}, bytes(parts::at(text)) {}
    cell(tc_cell said, const char *text) noexcept : value(said), bytes(text) {}
};

// A column of an order, by its number: {2} from its least cell up, or {2, true} from its greatest down.
struct part : tc_part {
    part(std::size_t column, bool falls = false) noexcept : tc_part{column, falls} {}
};

// What a change tells: the handle of the record that was put in; or of status::banned and status::lost the record that has the key at the
// unique index of this number.
struct [[nodiscard]] change {
    status how;
    thwartcornel::handle record;
    std::size_t index;

    explicit operator bool() const noexcept { return how == status::ok; }
};

// The records of one table of a schema, as cells. They end where this ends, and may be moved but not copied. What was moved from is closed.
// Columns and indices have the numbers of their places in the schema. A call that finds nothing has no value, and where it was refused
// *why says why. One call at a time, as thwartcornel.h says.
class rows {
  public:
    using cells = std::span<const cell>;
    using list = std::initializer_list<cell>;
    using found = std::optional<thwartcornel::handle>;

    // The empty container of the table of that number in a schema file, of which this is the text.
    [[nodiscard]] static std::optional<rows> open(std::string_view schema, std::size_t table = 0, status *why = nullptr) noexcept
    {
        rows made;
        if (!is_ok(tc_rows_open(made.held, parts::at(schema), schema.size(), table), why))
            return std::nullopt;
        return made;
    }

    // tc_rows_insert: puts a record in, a cell for each column.
    change insert(cells record) noexcept
    {
        change told{status::memory, {}, 0};
        if (packed said; pack(record, said))
            told.how = status{tc_rows_insert(held, said.cells, said.count, said.texts, said.length, &told.record, &told.index)};
        return told;
    }

    // tc_rows_modify: gives a record other cells, all of them. Where another has their key, it is as it was (status::banned), or without
    // rollback it is taken out (status::lost).
    change modify(thwartcornel::handle record, cells other, bool rollback = true) noexcept
    {
        change told{status::memory, record, 0};
        if (packed said; pack(other, said))
            told.how = status{tc_rows_modify(held, &told.record, said.cells, said.count, said.texts, said.length, rollback, &told.index)};
        return told;
    }

    change insert(list record) noexcept { return insert(cells(record.begin(), record.size())); }
    change modify(thwartcornel::handle record, list other, bool rollback = true) noexcept { return modify(record, cells(other.begin(), other.size()), rollback); }

    status erase(thwartcornel::handle record) noexcept { return status{tc_rows_erase(held, &record)}; }
    status clear() noexcept { return status{tc_rows_clear(held)}; }

    // tc_rows_erase_key: takes all records of a key out, and tells how many they were.
    std::optional<std::uint64_t> erase_key(std::size_t index, cells key, status *why = nullptr) noexcept { return numbered(tc_rows_erase_key, index, key, why); }
    std::optional<std::uint64_t> erase_key(std::size_t index, list key, status *why = nullptr) noexcept { return erase_key(index, cells(key.begin(), key.size()), why); }

    // The order of a sequenced or a random index: a record is put before the one at a place, or all are sorted by columns.
    status move(std::size_t index, thwartcornel::handle record, std::uint64_t place) noexcept { return status{tc_rows_move(held, index, &record, place)}; }
    status sort(std::size_t index, std::span<const part> by) noexcept
    {
        // (no pointer may be null)
        static constexpr tc_part none{};
        return status{tc_rows_sort(held, index, by.empty() ? &none : by.data(), by.size())};
    }
    status sort(std::size_t index, std::initializer_list<part> by) noexcept { return sort(index, std::span(by.begin(), by.size())); }

    // How many records there are; 0 where this is closed.
    std::uint64_t size() noexcept
    {
        std::uint64_t count = 0;
        tc_rows_size(held, &count);
        return count;
    }

    // A record's cells, which are good until the next `get`, and end with the container.
    [[nodiscard]] std::optional<cells> get(thwartcornel::handle record, status *why = nullptr) noexcept
    {
        tc_cell said[MOST];
        std::size_t count, length;
        std::uint8_t how;
        do
            how = tc_rows_get(held, &record, said, MOST, got.data(), got.length(), &count, &length);
        while (how == TC_ROOM && got.reserve(length));
        if (!is_ok(how == TC_ROOM ? std::uint8_t{TC_MEMORY} : how, why))
            return std::nullopt;
        const char *text = got.data();
        for (std::size_t k = 0; k < count; k++) {
            read[k] = cell(said[k], text);
            text += said[k].kind == TC_TEXT ? said[k].number : 0;
        }
        return cells(read.data(), count);
    }

    // The first record of a key, the first that does not come before it, and the first that comes after it.
    found find(std::size_t index, cells key, status *why = nullptr) noexcept { return searched(tc_rows_find, index, key, why); }
    found lower(std::size_t index, cells key, status *why = nullptr) noexcept { return searched(tc_rows_lower, index, key, why); }
    found upper(std::size_t index, cells key, status *why = nullptr) noexcept { return searched(tc_rows_upper, index, key, why); }
    found find(std::size_t index, list key, status *why = nullptr) noexcept { return find(index, cells(key.begin(), key.size()), why); }
    found lower(std::size_t index, list key, status *why = nullptr) noexcept { return lower(index, cells(key.begin(), key.size()), why); }
    found upper(std::size_t index, list key, status *why = nullptr) noexcept { return upper(index, cells(key.begin(), key.size()), why); }

    // How many records have a key.
    std::optional<std::uint64_t> count(std::size_t index, cells key, status *why = nullptr) noexcept { return numbered(tc_rows_count, index, key, why); }
    std::optional<std::uint64_t> count(std::size_t index, list key, status *why = nullptr) noexcept { return count(index, cells(key.begin(), key.size()), why); }

    // Records along an index that is not hashed.
    found first(std::size_t index, status *why = nullptr) noexcept { return walked(tc_rows_first, index, {}, why); }
    found last(std::size_t index, status *why = nullptr) noexcept { return walked(tc_rows_last, index, {}, why); }
    found next(std::size_t index, thwartcornel::handle at, status *why = nullptr) noexcept { return walked(tc_rows_next, index, at, why); }
    found previous(std::size_t index, thwartcornel::handle at, status *why = nullptr) noexcept { return walked(tc_rows_previous, index, at, why); }

    // The record at a place of a ranked or a random index, the rank of a record in a ranked one, and its place in a random one, all counted
    // from 0.
    found nth(std::size_t index, std::uint64_t place, status *why = nullptr) noexcept
    {
        thwartcornel::handle at{};
        return is_ok(tc_rows_nth(held, index, place, &at), why) ? found(at) : std::nullopt;
    }

    std::optional<std::uint64_t> rank(std::size_t index, thwartcornel::handle at, status *why = nullptr) noexcept { return placed(tc_rows_rank, index, at, why); }
    std::optional<std::uint64_t> place(std::size_t index, thwartcornel::handle at, status *why = nullptr) noexcept { return placed(tc_rows_place, index, at, why); }

    // The handles along an index, from a record on and up to another, or to the end: for (auto at : people.along(by_age)). There are none
    // where the index is hashed. The records are neither changed nor taken out, and the container is not moved, until the walk is done.
    class walk {
      public:
        class step {
          public:
            using value_type = thwartcornel::handle;
            using difference_type = std::ptrdiff_t;

            step() noexcept = default;
            step(walk &over, found begin) noexcept : over(&over), at(begin) {}
            thwartcornel::handle operator*() const noexcept { return *at; }
            bool operator==(std::default_sentinel_t) const noexcept { return !at || at == over->end_at; }
            void operator++(int) noexcept { ++*this; }
            step &operator++() noexcept
            {
                at = over->of->next(over->index, *at);
                return *this;
            }

          private:
            walk *over = nullptr;
            found at;
        };

        step begin() noexcept { return {*this, from}; }
        std::default_sentinel_t end() const noexcept { return {}; }

      private:
        friend class rows;

        rows *of;
        std::size_t index;
        found from, end_at;

        walk(rows &of, std::size_t index, found from, found to) noexcept : of(&of), index(index), from(from), end_at(to) {}
    };

    walk along(std::size_t index) noexcept { return {*this, index, first(index), std::nullopt}; }
    walk along(std::size_t index, found from, found to = std::nullopt) noexcept { return {*this, index, from, to}; }

  private:
    // No table has more columns. (A record of one cell more is refused as it is.)
    static constexpr std::size_t MOST = 16;

    // Cells as the library takes them.
    struct packed {
        tc_cell cells[MOST + 1];
        std::size_t count;
        const char *texts;
        std::size_t length;
    };

    parts::owner<tc_rows, tc_rows_close> held;
    parts::bytes put, got;
    std::array<cell, MOST> read;

    rows() noexcept = default;

    static bool is_ok(std::uint8_t how, status *why) noexcept
    {
        if (why)
            *why = status{how};
        return how == TC_OK;
    }

    // Whether there was memory for the texts, where there are several.
    bool pack(cells from, packed &to) noexcept
    {
        const cell *text = nullptr;
        std::size_t texts = 0;
        to.count = from.size() < MOST + 1 ? from.size() : MOST + 1;
        to.length = 0;
        for (std::size_t k = 0; k < to.count; k++) {
            to.cells[k] = from[k].value;
            if (from[k].value.kind == TC_TEXT) {
                text = &from[k];
                texts++;
                to.length += text->text()->size();
            }
        }
        to.texts = text ? text->bytes : "";
        return texts < 2 || join(from.first(to.count), to);
    }

    bool join(cells from, packed &to) noexcept
    {
        if (!put.reserve(to.length))
            return to.length == 0;
        char *end = put.data();
        for (const cell &it : from)
            if (auto text = it.text()) {
                std::memcpy(end, text->data(), text->size());
                end += text->size();
            }
        to.texts = put.data();
        return true;
    }

    template <class Call> found searched(Call call, std::size_t index, cells key, status *why) noexcept
    {
        thwartcornel::handle at{};
        packed said;
        std::uint8_t how = TC_MEMORY;
        if (pack(key, said))
            how = call(held, index, said.cells, said.count, said.texts, said.length, &at);
        return is_ok(how, why) ? found(at) : std::nullopt;
    }

    template <class Call> std::optional<std::uint64_t> numbered(Call call, std::size_t index, cells key, status *why) noexcept
    {
        std::uint64_t number = 0;
        packed said;
        std::uint8_t how = TC_MEMORY;
        if (pack(key, said))
            how = call(held, index, said.cells, said.count, said.texts, said.length, &number);
        return is_ok(how, why) ? std::optional(number) : std::nullopt;
    }

    template <class Call> std::optional<std::uint64_t> placed(Call call, std::size_t index, thwartcornel::handle at, status *why) noexcept
    {
        std::uint64_t place = 0;
        return is_ok(call(held, index, &at, &place), why) ? std::optional(place) : std::nullopt;
    }

    template <class Call> found walked(Call call, std::size_t index, thwartcornel::handle at, status *why) noexcept
    {
        return is_ok(call(held, index, &at), why) ? found(at) : std::nullopt;
    }
};

} // namespace thwartcornel

#endif
