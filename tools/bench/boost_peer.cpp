// The calls of `container_bench` on a container of Boost.MultiIndex, by the names that they have there; tools/bench/bench_peer builds it.
//
// boost_peer answers [KEY ..]    what the calls of each row answer at 100 records, in sums
// boost_peer times [KEY ..]      the bytes of a record, and the nanoseconds of processor time that each call takes at each size
//
// With five KEYs (price id owner id owner-price) each index has an extractor that reads at run time which key it takes, as the keys of
// container_bench do. Without them the indices have members of the record as keys, fixed at compile time, as Boost.MultiIndex is mostly used.
#include <algorithm>
#include <boost/multi_index/composite_key.hpp>
#include <boost/multi_index/hashed_index.hpp>
#include <boost/multi_index/member.hpp>
#include <boost/multi_index/ordered_index.hpp>
#include <boost/multi_index/random_access_index.hpp>
#include <boost/multi_index/ranked_index.hpp>
#include <boost/multi_index/sequenced_index.hpp>
#include <boost/multi_index_container.hpp>
#include <cstdint>
#include <cstdio>
#include <cstdlib>
#include <ctime>
#include <map>
#include <string>
#include <unistd.h>
#include <utility>
#include <vector>

namespace mi = boost::multi_index;
using Pair = std::pair<uint64_t, uint64_t>;

// The number is that of the write, which finds answer.
struct Record {
    uint64_t id, price, owner, number;
};

static uint64_t scattered(uint64_t number)
{
    uint64_t odd = number * 0x9e3779b97f4a7c15;
    uint64_t once = (odd ^ (odd >> 30)) * 0xbf58476d1ce4e5b9;
    uint64_t twice = (once ^ (once >> 27)) * 0x94d049bb133111eb;
    return twice ^ (twice >> 31);
}

static Record nth_record(uint64_t number, uint64_t count)
{
    uint64_t owners = std::max<uint64_t>(count / 4, 1);
    return {scattered(number), scattered(number ^ (uint64_t(1) << 40)) >> 40, scattered(number % owners), number + 1};
}

static Record looked_for(uint64_t step, uint64_t count)
{
    return nth_record(step * 7919 % std::max<uint64_t>(count, 1), count);
}

// Keys that are read at run time.

enum class Key { Id, Price, Owner, OwnerAndPrice };

static std::vector<Key> keys_read;

static Pair numbers(Key key, const Record& record)
{
    switch (key) {
    case Key::Id:
        return {record.id, 0};
    case Key::Price:
        return {record.price, 0};
    case Key::Owner:
        return {record.owner, 0};
    default:
        return {record.owner, UINT64_MAX - record.price};
    }
}

// The key of one index, as the command line says it.
template <int at>
struct ReadKey {
    using result_type = Pair;
    Key key = keys_read.at(at);
    Pair operator()(const Record& record) const { return numbers(key, record); }
};

struct FirstNumber {
    size_t operator()(const Pair& pair) const { return pair.first; }
};

struct AtRunTime {
    using Price = ReadKey<0>;
    using Id = ReadKey<1>;
    using Owner = ReadKey<2>;
    using HashedId = ReadKey<3>;
    using OwnerAndPrice = ReadKey<4>;
    using Order = std::less<Pair>;
    using Hash = FirstNumber;
    template <int at>
    static Pair probe(const Record& record) { return numbers(keys_read[at], record); }
};

// Keys that are members of the record.

struct Number {
    size_t operator()(uint64_t number) const { return number; }
};

struct AtCompileTime {
    using Price = mi::member<Record, uint64_t, &Record::price>;
    using Id = mi::member<Record, uint64_t, &Record::id>;
    using Owner = mi::member<Record, uint64_t, &Record::owner>;
    using HashedId = Id;
    using OwnerAndPrice = mi::composite_key<Record, Owner, Price>;
    using Order = mi::composite_key_compare<std::less<uint64_t>, std::greater<uint64_t>>;
    using Hash = Number;
    template <int at>
    static auto probe(const Record& record)
    {
        if constexpr (at == 0)
            return record.price;
        else if constexpr (at == 2)
            return record.owner;
        else if constexpr (at == 4)
            return boost::make_tuple(record.owner, record.price);
        else
            return record.id;
    }
};

// Containers of one, three and seven indices, and a row whose records have owners.

template <class Keys>
using One = mi::multi_index_container<Record, mi::indexed_by<mi::ordered_unique<typename Keys::Id>>>;

template <class Keys>
using Three = mi::multi_index_container<
    Record, mi::indexed_by<mi::ranked_non_unique<typename Keys::Price>, mi::ordered_unique<typename Keys::Id>,
                           mi::hashed_non_unique<typename Keys::Owner, typename Keys::Hash>>>;

template <class Keys>
using Seven = mi::multi_index_container<
    Record, mi::indexed_by<mi::sequenced<>, mi::random_access<>, mi::ranked_non_unique<typename Keys::Price>,
                           mi::ordered_unique<typename Keys::Id>, mi::hashed_non_unique<typename Keys::Owner, typename Keys::Hash>,
                           mi::hashed_unique<typename Keys::HashedId, typename Keys::Hash>,
                           mi::ordered_non_unique<typename Keys::OwnerAndPrice, typename Keys::Order>>>;

template <class Keys>
using Owned = mi::multi_index_container<
    Record, mi::indexed_by<mi::random_access<>, mi::hashed_non_unique<typename Keys::Owner, typename Keys::Hash>>>;

// Calls. Each answers the sum of its answers, so that none is left out.

static bool put(One<AtRunTime>& kept, const Record& record) { return kept.insert(record).second; }
static bool put(One<AtCompileTime>& kept, const Record& record) { return kept.insert(record).second; }
template <class Kept>
static bool put(Kept& kept, const Record& record) { return kept.template get<1>().insert(record).second; }
static bool put(Seven<AtRunTime>& kept, const Record& record) { return kept.push_back(record).second; }
static bool put(Seven<AtCompileTime>& kept, const Record& record) { return kept.push_back(record).second; }

template <class Kept>
static uint64_t insert_each(Kept& kept, uint64_t count)
{
    uint64_t met = 0;
    for (uint64_t number = 0; number < count; number++) {
        Record record = nth_record(number, count);
        met += put(kept, record) ? record.number : 0;
    }
    return met;
}

template <class Keys, int index, int key>
static uint64_t find_each(const Seven<Keys>& kept, uint64_t count)
{
    const auto& its = kept.template get<index>();
    uint64_t met = 0;
    for (uint64_t step = 0; step < count; step++) {
        auto found = its.find(Keys::template probe<key>(looked_for(step, count)));
        met += found == its.end() ? 0 : found->number;
    }
    return met;
}

// What a list has of each record: where it lies, and its number.
struct Handle {
    const Record* record;
    uint64_t number;
};

template <class Index>
static uint64_t list(const Index& index)
{
    std::vector<Handle> handles;
    for (const Record& record : index)
        handles.push_back({&record, record.number});
    // A use of what was copied that the compiler cannot leave out.
    __asm__ volatile("" : : "r"(handles.data()) : "memory");
    return handles.size();
}

// Times.

static uint64_t nanoseconds()
{
    timespec now;
    clock_gettime(CLOCK_PROCESS_CPUTIME_ID, &now);
    return uint64_t(now.tv_sec) * 1000000000 + now.tv_nsec;
}

// The least time of each call at one size, in the order of the first calls.
class Report {
public:
    template <class Call>
    void time(const char* name, uint64_t calls, Call call)
    {
        uint64_t begun = nanoseconds();
        uint64_t met = call();
        uint64_t each = (nanoseconds() - begun) / calls;
        answers[name] = met;
        auto [place, is_new] = least.try_emplace(name, each);
        place->second = std::min(place->second, each);
        if (is_new)
            names.push_back(name);
    }

    void print(uint64_t count)
    {
        for (const std::string& name : names)
            std::printf("%-44s%9lu%12lu ns\n", name.c_str(), (unsigned long)count, (unsigned long)least[name]);
        names.clear();
        least.clear();
    }

    void print_answers()
    {
        for (const std::string& name : names)
            std::printf("%-44s%21lu\n", name.c_str(), (unsigned long)answers[name]);
    }

private:
    std::vector<std::string> names;
    std::map<std::string, uint64_t> least, answers;
};

template <class Keys>
static void time_seven(Report& report, uint64_t count)
{
    Seven<Keys> kept;
    report.time("insert, 7 indices", count, [&] { return insert_each(kept, count); });
    report.time("find, ordered and unique", count, [&] { return find_each<Keys, 3, 1>(kept, count); });
    report.time("find, ordered by two parts", count, [&] { return find_each<Keys, 6, 4>(kept, count); });
    report.time("find, ranked", count, [&] { return find_each<Keys, 2, 0>(kept, count); });
    report.time("find, hashed and unique", count, [&] { return find_each<Keys, 5, 3>(kept, count); });
    report.time("find, hashed, four records a key", count, [&] { return find_each<Keys, 4, 2>(kept, count); });
    report.time("list, a record, sequenced", count, [&] { return list(kept.template get<0>()); });
    report.time("list, a record, random access", count, [&] { return list(kept.template get<1>()); });
    report.time("list, a record, ordered and unique", count, [&] { return list(kept.template get<3>()); });
    report.time("list, a record, ordered by two parts", count, [&] { return list(kept.template get<6>()); });
    report.time("list, a record, ranked", count, [&] { return list(kept.template get<2>()); });
    report.time("list, a record, hashed and unique", count, [&] { return list(kept.template get<5>()); });
    report.time("list, a record, hashed", count, [&] { return list(kept.template get<4>()); });
}

template <class Keys>
static void time_counted(Report& report, uint64_t count)
{
    {
        One<Keys> kept;
        report.time("insert, 1 index", count, [&] { return insert_each(kept, count); });
    }
    {
        Three<Keys> kept;
        report.time("insert, 3 indices", count, [&] { return insert_each(kept, count); });
    }
    time_seven<Keys>(report, count);
}

// A container of one index, by its kind.

template <class Index>
using Alone = mi::multi_index_container<Record, mi::indexed_by<Index>>;

template <class Kept>
static bool put_alone(Kept& kept, const Record& record) { return kept.insert(record).second; }
static bool put_alone(Alone<mi::sequenced<>>& kept, const Record& record) { return kept.push_back(record).second; }
static bool put_alone(Alone<mi::random_access<>>& kept, const Record& record) { return kept.push_back(record).second; }

template <class Index>
static void time_alone(Report& report, const char* name, uint64_t count)
{
    Alone<Index> kept;
    report.time(name, count, [&] {
        uint64_t met = 0;
        for (uint64_t number = 0; number < count; number++) {
            Record record = nth_record(number, count);
            met += put_alone(kept, record) ? record.number : 0;
        }
        return met;
    });
}

template <class Keys>
static void time_indices(Report& report, uint64_t count)
{
    time_alone<mi::sequenced<>>(report, "insert alone, sequenced", count);
    time_alone<mi::random_access<>>(report, "insert alone, random access", count);
    time_alone<mi::ordered_unique<typename Keys::Id>>(report, "insert alone, ordered and unique", count);
    time_alone<mi::ordered_non_unique<typename Keys::OwnerAndPrice, typename Keys::Order>>(report, "insert alone, ordered by two parts", count);
    time_alone<mi::ranked_non_unique<typename Keys::Price>>(report, "insert alone, ranked", count);
    time_alone<mi::hashed_unique<typename Keys::HashedId, typename Keys::Hash>>(report, "insert alone, hashed and unique", count);
    time_alone<mi::hashed_non_unique<typename Keys::Owner, typename Keys::Hash>>(report, "insert alone, hashed", count);
}

// Short calls. An iterator of the first index stands for a handle.

// The number of the record after this one in an index, or 0.
template <int index, class Kept>
static uint64_t next_of(Kept& kept, typename Kept::iterator handle)
{
    auto at = kept.template project<index>(handle);
    return ++at == kept.template get<index>().end() ? 0 : at->number;
}

// Moves the record at a place of a row one place on, and answers its number, or 0 where it stays.
template <class Row>
static uint64_t move_on(Row& row, uint64_t place)
{
    if (place + 2 > row.size())
        return 0;
    auto moved = row.begin() + place;
    row.relocate(moved + 2, moved);
    return moved->number;
}

template <class Kept>
static uint64_t replace(Kept& kept, typename Kept::iterator handle, const Record& record)
{
    uint64_t price = handle->price;
    return kept.replace(handle, record) ? price : 0;
}

template <class Kept>
static uint64_t erase(Kept& kept, typename Kept::iterator handle)
{
    uint64_t price = handle->price;
    kept.erase(handle);
    return price;
}

template <class Keys>
static void time_marked(Report& report, uint64_t count)
{
    Seven<Keys> kept;
    insert_each(kept, count);
    auto& row = kept.template get<1>();
    auto& ranked = kept.template get<2>();
    auto& by_id = kept.template get<3>();
    auto& by_owner = kept.template get<4>();
    using At = typename Seven<Keys>::iterator;
    std::vector<At> handles;
    for (auto at = by_id.begin(); at != by_id.end(); ++at)
        handles.push_back(kept.template project<0>(at));
    auto time = [&](const char* name, uint64_t calls, auto call) {
        report.time(name, calls, [&] {
            uint64_t met = 0;
            for (uint64_t place = 0; place < calls; place++)
                met += call(handles[place], place);
            return met;
        });
    };
    time("get", count, [&](At handle, uint64_t) { return handle->price; });
    time("nth, random access", count, [&](At, uint64_t place) { return row[place].number; });
    time("place_of, random access", count, [&](At handle, uint64_t) { return kept.template project<1>(handle) - row.begin(); });
    time("nth, ranked", count, [&](At, uint64_t place) { return ranked.nth(place)->number; });
    time("rank, ranked", count, [&](At handle, uint64_t) { return ranked.rank(kept.template project<2>(handle)); });
    time("next, sequenced", count, [&](At handle, uint64_t) { return next_of<0>(kept, handle); });
    time("next, random access", count, [&](At handle, uint64_t) { return next_of<1>(kept, handle); });
    time("next, ordered and unique", count, [&](At handle, uint64_t) { return next_of<3>(kept, handle); });
    time("next, ranked", count, [&](At handle, uint64_t) { return next_of<2>(kept, handle); });
    time("count, hashed, four records a key", count,
         [&](At, uint64_t place) { return by_owner.count(Keys::template probe<2>(looked_for(place, count))); });
    time("lower, ordered and unique", count,
         [&](At, uint64_t place) { return by_id.lower_bound(Keys::template probe<1>(looked_for(place, count)))->number; });
    time("upper, ordered and unique", count, [&](At, uint64_t place) {
        auto above = by_id.upper_bound(Keys::template probe<1>(looked_for(place, count)));
        return above == by_id.end() ? 0 : above->number;
    });
    time("nth and a move one place on, random access", count, [&](At, uint64_t place) { return move_on(row, place); });
    time("replace by an equal record, 7 indices", count, [&](At handle, uint64_t) { return replace(kept, handle, nth_record(handle->number - 1, count)); });
    time("modify of one key, 7 indices", count,
         [&](At handle, uint64_t place) { return kept.modify(handle, [&](Record& record) { record.price = place; }); });
    time("modify of all keys, 7 indices", count, [&](At handle, uint64_t place) {
        return kept.modify(handle, [&](Record& record) {
            uint64_t number = record.number;
            record = nth_record(count + place, count);
            record.number = number;
        });
    });
    time("erase, 7 indices", std::min<uint64_t>(count, 100), [&](At handle, uint64_t) { return erase(kept, handle); });
}

// Records of so many owners.
template <class Keys>
struct Groups {
    Owned<Keys> kept;
    uint64_t owners;

    Groups(uint64_t owners, uint64_t count) : owners(std::max<uint64_t>(owners, 1))
    {
        for (uint64_t number = 0; number < count; number++) {
            Record record = nth_record(number, count);
            record.owner = number % this->owners;
            kept.push_back(record);
        }
    }

    // The sum of what a call answers for the owners of the first numbers.
    template <class Call>
    void time(Report& report, const char* name, uint64_t calls, Call call)
    {
        report.time(name, calls, [&] {
            uint64_t met = 0;
            for (uint64_t number = 0; number < calls; number++)
                met += call(Keys::template probe<2>({0, 0, number % owners, 0}));
            return met;
        });
    }
};

// Of equal records Boost finds the newest. The oldest, which the container finds, is the last of their range.
template <bool oldest, class Index, class Probe>
static uint64_t found_in(const Index& index, const Probe& probe)
{
    if constexpr (!oldest) {
        auto found = index.find(probe);
        return found == index.end() ? 0 : found->number;
    }
    uint64_t number = 0;
    for (auto [at, end] = index.equal_range(probe); at != end; ++at)
        number = at->number;
    return number;
}

template <class Keys, bool oldest>
static void time_groups(Report& report, uint64_t count)
{
    using Probe = decltype(Keys::template probe<2>(Record()));
    {
        Groups<Keys> tens(count / 32, count);
        auto& by_owner = tens.kept.template get<1>();
        tens.time(report, "erase_key of 32 records, beside a row", std::min<uint64_t>(count, 20), [&](Probe owner) { return by_owner.erase(owner); });
    }
    Groups<Keys> all(1, count);
    auto& kept = all.kept;
    auto find = [&](Probe owner) { return found_in<oldest>(kept.template get<1>(), owner); };
    all.time(report, "find, hashed, all of one key", std::min<uint64_t>(count, 100), find);
    all.time(report, "erase of the first record of a row", std::min<uint64_t>(count, 20), [&](Probe) { return erase(kept, kept.begin()); });
    all.time(report, "the same find, the oldest erased", std::min<uint64_t>(count, 100), find);
}

// Walks.

template <class From, class To>
static uint64_t prices(From at, To end)
{
    uint64_t met = 0;
    for (; at != end; ++at)
        met += at->price;
    return met;
}

template <class Index>
static uint64_t walk(const Index& index) { return prices(index.begin(), index.end()); }

// Records of so many owners, in the order of these.
template <class Keys>
using Grouped = mi::multi_index_container<
    Record, mi::indexed_by<mi::hashed_non_unique<typename Keys::Owner, typename Keys::Hash>, mi::ordered_non_unique<typename Keys::Owner>>>;

template <class Keys>
static void time_walks(Report& report, uint64_t count)
{
    {
        Seven<Keys> kept;
        insert_each(kept, count);
        report.time("step, sequenced", count, [&] { return walk(kept.template get<0>()); });
        report.time("step, random access", count, [&] { return walk(kept.template get<1>()); });
        report.time("step, ordered and unique", count, [&] { return walk(kept.template get<3>()); });
        report.time("step, ordered by two parts", count, [&] { return walk(kept.template get<6>()); });
        report.time("step, ranked", count, [&] { return walk(kept.template get<2>()); });
        auto& by_id = kept.template get<3>();
        report.time("step in a range, ordered and unique", count / 2, [&] {
            Record low{uint64_t(1) << 62, 0, 0, 0}, high{uint64_t(3) << 62, 0, 0, 0};
            return prices(by_id.lower_bound(Keys::template probe<1>(low)), by_id.lower_bound(Keys::template probe<1>(high)));
        });
    }
    Grouped<Keys> grouped;
    uint64_t owners = std::max<uint64_t>(count / 1000, 1);
    for (uint64_t number = 0; number < count; number++) {
        Record record = nth_record(number, count);
        record.owner = number % owners;
        grouped.insert(record);
    }
    report.time("step in a group, ordered", count, [&] {
        uint64_t met = 0;
        for (uint64_t owner = 0; owner < owners; owner++) {
            auto [at, end] = grouped.template get<1>().equal_range(Keys::template probe<2>({0, 0, owner, 0}));
            met += prices(at, end);
        }
        return met;
    });
}

static uint64_t resident()
{
    unsigned long all = 0, pages = 0;
    FILE* file = std::fopen("/proc/self/statm", "r");
    if (!file || std::fscanf(file, "%lu %lu", &all, &pages) != 2)
        std::exit(1);
    std::fclose(file);
    return uint64_t(pages) * sysconf(_SC_PAGESIZE);
}

// It is right only where nothing was freed before.
template <class Keys>
static void print_bytes(uint64_t count)
{
    uint64_t before = resident();
    Seven<Keys> kept;
    insert_each(kept, count);
    std::printf("%-44s%9lu%12lu bytes\n", "7 indices", (unsigned long)count, (unsigned long)((resident() - before) / count));
}

template <class Keys, bool oldest = false>
static void time_all(Report& report, uint64_t count)
{
    time_counted<Keys>(report, count);
    time_indices<Keys>(report, count);
    time_marked<Keys>(report, count);
    time_groups<Keys, oldest>(report, count);
    time_walks<Keys>(report, count);
}

template <class Keys>
static void print_times()
{
    Report report;
    const Pair sizes[] = {{1000, 9}, {100000, 3}, {1000000, 1}};
    for (auto [count, rounds] : sizes) {
        for (uint64_t round = 0; round < rounds; round++)
            time_all<Keys>(report, count);
        report.print(count);
    }
}

template <class Keys>
static int run(const std::string& word)
{
    if (word == "times") {
        print_bytes<Keys>(100000);
        print_times<Keys>();
    } else if (word == "answers") {
        Report report;
        time_all<Keys, true>(report, 100);
        report.print_answers();
    } else
        return 2;
    return 0;
}

int main(int count, char** words)
{
    const std::map<std::string, Key> names = {{"id", Key::Id}, {"price", Key::Price}, {"owner", Key::Owner}, {"owner-price", Key::OwnerAndPrice}};
    if (count != 2 && count != 7)
        return 2;
    for (int at = 2; at < count; at++) {
        auto named = names.find(words[at]);
        if (named == names.end())
            return 2;
        keys_read.push_back(named->second);
    }
    return keys_read.empty() ? run<AtCompileTime>(words[1]) : run<AtRunTime>(words[1]);
}
