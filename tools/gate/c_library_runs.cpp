// Calls the library through its C++ header, for tools/gate/run_c_library.
//
// statuses SCHEMA [BAD STATUS]..     what each call tells where it refuses, what moved tables tell, and a line that is asked while answers wait
// pieces SEED SCHEMA LINES..         tables for each file of lines, which are handed in by turns, in pieces of drawn lengths, and moved in between;
//                                    what each is answered goes to LINES.answers
// asks SCHEMA LINES                  each line asked, with its newline or without; the answers go to LINES.answers
// refused SCHEMA LINES               the same with each allocation refused in turn, of the library and of the answers' texts
// folder SCHEMA FOLDER LINES         each line asked of tables that a folder keeps, one half before they are closed and opened again; the same
// rows SCHEMA TABLE CALLS            the typed calls of tools/gate/typed_lines.py on the container of a table; what each is told goes to CALLS.answers
// rows_refused SCHEMA TABLE CALLS    the same with each allocation refused in turn
#include "thwartcornel.hpp"

#include <cstdio>
#include <cstdlib>
#include <fstream>
#include <iterator>
#include <new>
#include <random>
#include <sstream>
#include <string>
#include <utility>
#include <vector>

using thwartcornel::cell;
using thwartcornel::handle;
using thwartcornel::part;
using thwartcornel::rows;
using thwartcornel::status;
using thwartcornel::tables;

static constexpr std::string_view MEMORY_LINE = "{\"err\":\"memory\"}\n", COMMAND_LINE = "{\"err\":\"command\"}\n";

[[noreturn]] static void stop(const std::string &why)
{
    std::fprintf(stderr, "%s\n", why.c_str());
    std::exit(1);
}

static void is(const std::string &what, bool holds)
{
    if (!holds)
        stop(what + " is not so");
}

// ---- memory: the linker hands to these the calls of the library, and the header's own of `new (std::nothrow) char[]`

extern "C" {
void *__real_malloc(std::size_t);
void *__real_realloc(void *, std::size_t);
void __real_free(void *);
void *__real__ZnamRKSt9nothrow_t(std::size_t, const std::nothrow_t &) noexcept;
}

static long count, live, refuse_at, refuse_many = 1;

static bool refused()
{
    count++;
    return refuse_at && count >= refuse_at && count < refuse_at + refuse_many;
}

extern "C" {
void *__wrap_malloc(std::size_t size)
{
    void *made = refused() ? nullptr : __real_malloc(size);
    live += made != nullptr;
    return made;
}

void *__wrap_realloc(void *old, std::size_t size)
{
    void *made = refused() ? nullptr : __real_realloc(old, size);
    live += made && !old;
    return made;
}

void __wrap_free(void *old)
{
    live -= old != nullptr;
    __real_free(old);
}

void *__wrap__ZnamRKSt9nothrow_t(std::size_t size, const std::nothrow_t &how) noexcept
{
    return refused() ? nullptr : __real__ZnamRKSt9nothrow_t(size, how);
}

void *__wrap__Znam(std::size_t)
{
    stop("the header asks for memory by a call that throws");
}
}

// ---- files

static std::string read_file(const std::string &path)
{
    std::ifstream file(path, std::ios::binary);
    is(path, file.good());
    return {std::istreambuf_iterator<char>(file), {}};
}

static void write_file(const std::string &path, std::string_view text)
{
    std::ofstream(path, std::ios::binary) << text;
}

static tables opened(std::string_view schema)
{
    auto found = tables::open(schema);
    is("an open", found.has_value());
    return std::move(*found);
}

// ---- what the first word asks for

static void try_statuses(const std::vector<std::string> &words)
{
    std::string schema = read_file(words[0]);
    for (std::size_t k = 1; k + 1 < words.size(); k += 2) {
        status why{};
        is("a refused open", !tables::open(read_file(words[k]), &why) && why == status(std::stoi(words[k + 1])));
    }
    is("an open of nothing", !tables::open({}));
    status why = status::room;
    auto from = tables::open(schema, &why);
    is("an open", from && why == status::ok);
    is("answers of nothing", from->answers() == "");
    auto [how, taken] = from->call("{\"op\":");
    is("a call", how == status::ok && taken == 6);
    tables to = std::move(*from);
    is("a call of closed tables", from->call("\n").how == status::handle && from->end() == status::handle && from->take({}).how == status::handle);
    is("answers of closed tables", !from->answers() && !from->ask("{}"));
    is("an end", to.end() == status::ok);
    char room[15];
    auto [again, length] = to.take({room, 14});
    is("a take with too little room", again == status::room && length == 15);
    is("a take without room", to.take({}).length == 15);
    is("the answer", to.take(room).how == status::ok && std::string_view(room, 15) == "{\"err\":\"json\"}\n");
    is("an answer once", to.answers() == "");
    *from = std::move(to);
    is("an ask of moved tables", from->ask("{}") == from->ask("{}\n"));
    tables &same = *from;
    *from = std::move(same);
    auto answer = from->ask("{}");
    is("an ask of tables moved to themselves", answer.has_value());
    {
        tables last = opened(schema);
        last = std::move(*from);
        from.reset();
        is("an answer after its tables moved", answer == COMMAND_LINE);
    }
    is("all blocks given back", !live);
}

// Lines whose answers wait, and then one that is asked while some allocations are refused: so it is handed in again where it stopped.
static void ask_behind(std::string_view schema)
{
    for (int waiting = 0; waiting < 100; waiting++)
        for (refuse_many = 1; refuse_many < 4; refuse_many++) {
            tables held = opened(schema);
            std::string before;
            for (int k = 0; k < waiting; k++) {
                is("a line that is taken", held.call("{}\n").how == status::ok);
                before += COMMAND_LINE;
            }
            count = 0;
            refuse_at = 1;
            auto found = held.ask("{}\n");
            refuse_at = 0;
            if (!found)
                found = held.answers();
            is("all answers", found == before + std::string(COMMAND_LINE) || found == before + std::string(MEMORY_LINE));
        }
    refuse_many = 1;
    is("all blocks given back", !live);
}

static void hand_in_pieces(const std::vector<std::string> &words)
{
    std::minstd_rand drawn(static_cast<unsigned>(std::stoi(words[0])));
    std::vector<std::string> lines, answers(words.size() - 2);
    std::vector<tables> all;
    for (std::size_t k = 2; k < words.size(); k++) {
        lines.push_back(read_file(words[k]));
        all.push_back(opened(read_file(words[1])));
    }
    std::vector<std::size_t> at(all.size());
    for (std::size_t left = all.size(); left;) {
        std::size_t k = drawn() % all.size();
        if (at[k] > lines[k].size())
            continue;
        tables held = std::move(all[k]);
        auto piece = std::string_view(lines[k]).substr(at[k], drawn() % 4 ? drawn() % 40 : drawn() % 4000);
        auto [how, taken] = held.call(piece);
        is("a piece that is taken", how == status::ok && taken == piece.size());
        at[k] += taken;
        if (at[k] == lines[k].size()) {
            is("an end", held.end() == status::ok);
            at[k]++;
            left--;
        }
        if (drawn() % 2 || at[k] > lines[k].size())
            answers[k] += held.answers().value();
        all[k] = std::move(held);
    }
    for (std::size_t k = 0; k < all.size(); k++)
        write_file(words[2 + k] + ".answers", answers[k]);
    all.clear();
    is("all blocks given back", !live);
}

// Asks a line until it is not refused memory, and tells its answer.
static std::string insist(tables &held, std::string_view line)
{
    for (int tries = 0; tries < 3; tries++) {
        auto found = held.ask(line);
        if (!found)
            found = held.answers();
        is("an answer later", found.has_value());
        if (*found != MEMORY_LINE)
            return std::string(*found);
    }
    stop("a line is refused memory again and again");
}

// All lines once, with an allocation refused. Returns how many allocations there were.
static long ask_all(std::string_view schema, std::string_view lines, long at, std::string &answers)
{
    count = 0;
    refuse_at = at;
    answers.clear();
    {
        status why{};
        auto held = tables::open(schema, &why);
        if (!held) {
            is("an open refused memory", at && why == status::memory && !live);
            held = tables::open(schema);
        }
        is("an open", held.has_value());
        for (bool whole = false; !lines.empty(); whole = !whole) {
            std::size_t length = lines.find('\n');
            answers += insist(*held, lines.substr(0, length + whole));
            lines.remove_prefix(length + 1);
        }
    }
    is("all blocks given back", !live);
    return count;
}

static void ask(const std::vector<std::string> &words, bool refuses)
{
    std::string schema = read_file(words[0]), lines = read_file(words[1]), wanted, found;
    long all = ask_all(schema, lines, 0, wanted);
    for (long at = 1; refuses && at <= all; at++) {
        ask_all(schema, lines, at, found);
        is("allocation " + std::to_string(at) + ": the same answers", found == wanted);
    }
    write_file(words[1] + ".answers", wanted);
    std::printf("%ld\n", all);
}

// ---- tables that a folder keeps

static tables opened_at(std::string_view schema, std::string_view folder, bool is_synced)
{
    status why = status::room;
    auto found = tables::open_folder(schema, folder, is_synced, &why);
    is("an open of a folder", found && why == status::ok);
    return std::move(*found);
}

static std::string asked_of(tables held, std::string_view lines)
{
    std::string answers;
    for (std::size_t length; !lines.empty(); lines.remove_prefix(length)) {
        length = lines.find('\n') + 1;
        answers += held.ask(lines.substr(0, length)).value();
    }
    is("a sync", held.sync() == status::ok);
    return answers;
}

static void keep(const std::vector<std::string> &words)
{
    std::string schema = read_file(words[0]), lines = read_file(words[2]), answers;
    std::string_view folder = words[1];
    std::size_t half = lines.find('\n', lines.size() / 2) + 1;
    {
        status why{};
        tables first = opened_at(schema, folder, true);
        is("a second one", !tables::open_folder(schema, folder, true, &why) && why == status::taken);
        is("another schema", !tables::open_folder("x", folder) && !tables::open_folder(schema, words[0], true, &why) && why == status::device);
        tables moved = std::move(first);
        is("a sync of closed tables", first.sync() == status::handle);
        answers = asked_of(std::move(moved), std::string_view(lines).substr(0, half));
    }
    answers += asked_of(opened_at(schema, folder, false), std::string_view(lines).substr(half));
    auto in_memory = tables::open(schema);
    is("a sync of tables in memory", in_memory && in_memory->sync() == status::ok);
    in_memory.reset();
    is("all blocks given back", !live);
    write_file(words[2] + ".answers", answers);
}

// ---- typed calls

static std::string spelled(const handle &it)
{
    return ' ' + std::to_string(it.slot) + ':' + std::to_string(it.stamp);
}

static std::string spelled(rows::cells record)
{
    std::ostringstream out;
    for (const cell &it : record) {
        out << ' ';
        if (it.is_null())
            out << 'n';
        if (auto number = it.number())
            out << 'i' << *number;
        if (auto truth = it.truth())
            out << 'b' << *truth;
        if (auto text = it.text()) {
            out << 't';
            for (unsigned char byte : *text)
                out << "0123456789abcdef"[byte >> 4] << "0123456789abcdef"[byte & 15];
        }
    }
    return out.str();
}

// A call that is read word by word. The bytes of its texts are kept as long as it is.
struct typed_call {
    std::istringstream words;
    std::vector<std::string> texts;
    std::vector<cell> cells;
    std::string name;

    explicit typed_call(const std::string &line) : words(line) { words >> name; }

    std::uint64_t number()
    {
        std::uint64_t found = 0;
        words >> found;
        return found;
    }

    handle record()
    {
        handle found{};
        char colon;
        words >> found.slot >> colon >> found.stamp;
        return found;
    }

    std::vector<part> parts()
    {
        std::vector<part> all;
        for (std::string word; words >> word;)
            all.emplace_back(std::stoul(word.substr(word[0] == '-')), word[0] == '-');
        return all;
    }

    rows::cells rest()
    {
        std::vector<std::string> all{std::istream_iterator<std::string>(words), {}};
        texts.resize(all.size());
        for (std::size_t k = 0; k < all.size(); k++)
            cells.push_back(value(all[k], texts[k]));
        return cells;
    }

    static cell value(const std::string &word, std::string &text)
    {
        if (word[0] == 'n')
            return nullptr;
        if (word[0] == 'b')
            return word[1] == '1';
        if (word[0] == 'i')
            return std::strtoll(word.c_str() + 1, nullptr, 10);
        for (std::size_t at = 1; at < word.size(); at += 2)
            text += static_cast<char>(std::stoi(word.substr(at, 2), nullptr, 16));
        return text;
    }
};

static std::string number_of(status how)
{
    return std::to_string(static_cast<int>(how));
}

static std::string told_of(const thwartcornel::change &change, bool is_new)
{
    std::string told = number_of(change.how);
    if (change.how == status::banned || change.how == status::lost)
        return told + ' ' + std::to_string(change.index) + spelled(change.record);
    return is_new ? told + spelled(change.record) : told;
}

static std::string listed(rows &held, std::size_t index)
{
    status why{};
    auto first = held.first(index, &why);
    if (!first)
        return number_of(why == status::none ? status::ok : why);
    std::string told = "0";
    for (auto at : held.along(index, first)) {
        auto record = held.get(at, &why);
        if (!record)
            return number_of(why);
        told += spelled(at) + spelled(*record);
    }
    is("a walk over all", held.along(index).begin() != held.along(index).end());
    return told;
}

static std::string told_of(rows::found found, const status &why)
{
    return found ? "0" + spelled(*found) : number_of(why);
}

static std::string told_of(std::optional<std::uint64_t> number, const status &why)
{
    return number ? "0 " + std::to_string(*number) : number_of(why);
}

// Makes a call, and tells what it was told.
static std::string told_by(rows &held, const std::string &line)
{
    typed_call call(line);
    status why{};
    const std::string &name = call.name;
    if (name == "insert") {
        auto change = held.insert(call.rest());
        return told_of(change, bool(change));
    }
    if (name == "modify") {
        bool rollback = call.number();
        auto record = call.record();
        return told_of(held.modify(record, call.rest(), rollback), false);
    }
    if (name == "erase")
        return number_of(held.erase(call.record()));
    if (name == "clear")
        return number_of(held.clear());
    if (name == "size")
        return "0 " + std::to_string(held.size());
    if (name == "get") {
        auto record = held.get(call.record(), &why);
        return record ? "0" + spelled(*record) : number_of(why);
    }
    std::size_t index = call.number();
    if (name == "list")
        return listed(held, index);
    if (name == "nth")
        return told_of(held.nth(index, call.number(), &why), why);
    if (name == "last")
        return told_of(held.last(index, &why), why);
    if (name == "next")
        return told_of(held.next(index, call.record(), &why), why);
    if (name == "previous")
        return told_of(held.previous(index, call.record(), &why), why);
    if (name == "rank")
        return told_of(held.rank(index, call.record(), &why), why);
    if (name == "place")
        return told_of(held.place(index, call.record(), &why), why);
    if (name == "sort")
        return number_of(held.sort(index, call.parts()));
    if (name == "move") {
        auto record = call.record();
        return number_of(held.move(index, record, call.number()));
    }
    auto key = call.rest();
    if (name == "count")
        return told_of(held.count(index, key, &why), why);
    if (name == "erase_key")
        return told_of(held.erase_key(index, key, &why), why);
    if (name == "find")
        return told_of(held.find(index, key, &why), why);
    if (name == "lower")
        return told_of(held.lower(index, key, &why), why);
    is(name, name == "upper");
    return told_of(held.upper(index, key, &why), why);
}

// All calls once, with an allocation refused: a call that is refused memory is made again. Returns how many allocations there were.
static long call_all(std::string_view schema, std::size_t table, const std::string &calls, long at, std::string &answers)
{
    answers.clear();
    count = 0;
    refuse_at = at;
    {
        status why{};
        auto held = rows::open(schema, table, &why);
        if (!held) {
            is("an open refused memory", at && why == status::memory && !live);
            held = rows::open(schema, table);
        }
        is("an open", held.has_value());
        std::istringstream lines(calls);
        for (std::string line; std::getline(lines, line);) {
            rows moved = std::move(*held);
            is("a call of closed rows", !held->size() && held->clear() == status::handle && held->insert({}).how == status::handle);
            std::string told = told_by(moved, line);
            if (told == "1")
                told = told_by(moved, line);
            answers += told + '\n';
            *held = std::move(moved);
        }
    }
    is("all blocks given back", !live);
    return count;
}

static void call_rows(const std::vector<std::string> &words, bool refuses)
{
    std::string schema = read_file(words[0]), calls = read_file(words[2]), wanted, found;
    std::size_t table = std::stoul(words[1]);
    status why{};
    is("no table of the number", !rows::open(schema, 16, &why) && why == status::table);
    is("no schema", !rows::open("x", 0, &why) && why == status::toml);
    long all = call_all(schema, table, calls, 0, wanted);
    for (long at = 1; refuses && at <= all; at++) {
        call_all(schema, table, calls, at, found);
        is("allocation " + std::to_string(at) + ": the same answers", found == wanted);
    }
    write_file(words[2] + ".answers", wanted);
    std::printf("%ld\n", all);
}

int main(int many, char **all)
{
    std::vector<std::string> words(all + 2, all + (many > 2 ? many : 2));
    std::string what = many > 2 ? all[1] : "";
    if (what == "statuses") {
        try_statuses(words);
        ask_behind(read_file(words[0]));
    } else if (what == "pieces" && words.size() > 2)
        hand_in_pieces(words);
    else if ((what == "asks" || what == "refused") && words.size() == 2)
        ask(words, what == "refused");
    else if (what == "folder" && words.size() == 3)
        keep(words);
    else if ((what == "rows" || what == "rows_refused") && words.size() == 3)
        call_rows(words, what == "rows_refused");
    else
        stop("other words");
}
