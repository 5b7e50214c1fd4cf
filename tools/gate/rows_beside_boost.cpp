// The typed calls of thwartcornel.hpp beside a container of Boost.MultiIndex with the same indices, for tools/gate/run_c_library.
//
// rows_beside_boost SEED CALLS     draws so many calls, makes each on both, and compares what they tell, and now and then all records along each index
//
// It needs Boost's headers (Debian: apt-get install libboost-dev). It ends with a sentence and status 1 where the two differ.
#include "thwartcornel.hpp"

#include <algorithm>
#include <boost/multi_index/composite_key.hpp>
#include <boost/multi_index/hashed_index.hpp>
#include <boost/multi_index/member.hpp>
#include <boost/multi_index/ordered_index.hpp>
#include <boost/multi_index/random_access_index.hpp>
#include <boost/multi_index/ranked_index.hpp>
#include <boost/multi_index/sequenced_index.hpp>
#include <boost/multi_index_container.hpp>
#include <cstdio>
#include <cstdlib>
#include <functional>
#include <iterator>
#include <map>
#include <optional>
#include <random>
#include <string>
#include <tuple>
#include <vector>

namespace mi = boost::multi_index;
using thwartcornel::cell;
using thwartcornel::handle;
using thwartcornel::rows;
using thwartcornel::status;

static constexpr std::string_view SCHEMA = R"(
[[table]]
name = "orders"
max = 40
column = [{name = "id", cell = "int"}, {name = "side", cell = "text"}, {name = "price", cell = "int", null = true}, {name = "note", cell = "text"}]
index = [
  {name = "by_id", kind = "hashed", unique = true, key = ["id"]},
  {name = "book", kind = "ordered", key = ["side", "-price"]},
  {name = "by_price", kind = "ranked", key = ["price"]},
  {name = "by_note", kind = "ordered", unique = true, key = ["-note"]},
  {name = "all", kind = "sequenced"},
  {name = "places", kind = "random"}
]
)";
enum { BY_ID, BOOK, BY_PRICE, BY_NOTE, ALL, PLACES, INDICES };
static constexpr std::size_t MOST = 40;

struct order {
    long id;
    std::string side;
    std::optional<long> price;
    std::string note;
    // (the container's own handle, which is no key)
    handle at;

    auto fields() const { return std::tie(id, side, price, note); }
};

using Side = mi::member<order, std::string, &order::side>;
using Price = mi::member<order, std::optional<long>, &order::price>;
using Orders = mi::multi_index_container<
    order, mi::indexed_by<mi::hashed_unique<mi::member<order, long, &order::id>>,
                          mi::ordered_non_unique<mi::composite_key<order, Side, Price>, mi::composite_key_compare<std::less<>, std::greater<>>>,
                          mi::ranked_non_unique<Price>, mi::ordered_unique<mi::member<order, std::string, &order::note>, std::greater<>>, mi::sequenced<>,
                          mi::random_access<>>>;

static long made = 0;

static void is(const char *what, bool holds)
{
    if (!holds) {
        std::fprintf(stderr, "call %ld: %s differs\n", made, what);
        std::exit(1);
    }
}

// Both containers, and what draws the calls.
class both {
  public:
    explicit both(unsigned seed) : draw(seed), ours(std::move(*rows::open(SCHEMA))) {}

    void call()
    {
        switch (draw() % 16) {
        case 0:
        case 1:
        case 2:
            return insert();
        case 3:
            return modify(true);
        case 4:
            return modify(false);
        case 5:
            return erase();
        case 6:
            return find();
        case 7:
            return bounds();
        case 8:
            return places();
        case 9:
            return range();
        case 10:
            return draw() % 60 ? places() : clear();
        case 11:
            return move();
        case 12:
            return sort();
        case 13:
            return count();
        case 14:
            return erase_key();
        default:
            return compare_all();
        }
    }

  private:
    std::minstd_rand draw;
    rows ours;
    Orders theirs;

    std::optional<long> drawn_price() { return draw() % 5 ? std::optional<long>(draw() % 6) : std::nullopt; }
    std::string drawn_side() { return draw() % 2 ? "buy" : "sell"; }

    order drawn_order()
    {
        return {static_cast<long>(draw() % 60), drawn_side(), drawn_price(), std::string(draw() % 40, 'x') + "\xc3\xa9" + std::to_string(draw() % 3), {}};
    }

    // An order that is there, or the end.
    Orders::iterator drawn()
    {
        if (theirs.empty())
            return theirs.end();
        return theirs.project<0>(theirs.get<PLACES>().begin() + static_cast<long>(draw() % theirs.size()));
    }

    std::array<cell, 4> cells(const order &it) { return {cell(it.id), cell(it.side), cell(it.price), cell(it.note)}; }

    order read(handle at)
    {
        auto record = ours.get(at);
        is("a record", record && record->size() == 4);
        auto &it = *record;
        return {static_cast<long>(*it[0].number()), std::string(*it[1].text()), it[2].number() ? std::optional<long>(*it[2].number()) : std::nullopt, std::string(*it[3].text()), at};
    }

    void same(const char *what, rows::found found, const order *its) { is(what, found.has_value() == (its != nullptr) && (!its || *found == its->at)); }

    template <class Index> static const order *or_none(const Index &index, typename Index::const_iterator at) { return at == index.end() ? nullptr : &*at; }

    void insert()
    {
        order it = drawn_order();
        auto told = ours.insert(cells(it));
        auto [at, is_new] = theirs.insert(it);
        if (is_new && theirs.size() > MOST) {
            theirs.erase(at);
            is("a full container", told.how == status::full);
        } else if (is_new) {
            is("an insertion", told.how == status::ok);
            theirs.modify(at, [&](order &placed) { placed.at = told.record; });
        } else
            is("a ban", told.how == status::banned && told.record == at->at && told.index == (at->id == it.id ? BY_ID : BY_NOTE));
    }

    void modify(bool rollback)
    {
        auto at = drawn();
        if (at == theirs.end())
            return;
        handle named = at->at;
        order before = *at, after = drawn_order();
        after.at = named;
        if (draw() % 2)
            after.id = before.id;
        if (draw() % 2)
            after.note = before.note;
        auto told = ours.modify(named, cells(after), rollback);
        auto change = [&](order &it) { it = after; };
        bool kept = rollback ? theirs.modify(at, change, [&](order &it) { it = before; }) : theirs.modify(at, change);
        is("a modification", told.how == (kept ? status::ok : rollback ? status::banned : status::lost));
        is("what is in the way", kept || read(told.record).id == after.id || read(told.record).note == after.note);
        if (!kept && !rollback)
            is("a record that was lost", ours.erase(named) == status::stale && !ours.get(named));
    }

    void erase()
    {
        auto at = drawn();
        if (at == theirs.end())
            return;
        handle named = at->at;
        theirs.erase(at);
        is("an erasure", ours.erase(named) == status::ok && ours.erase(named) == status::stale);
    }

    void clear()
    {
        theirs.clear();
        is("a clear", ours.clear() == status::ok);
    }

    // Puts a record before the one at a place, which is counted while it still stands where it stood.
    void move()
    {
        auto at = drawn();
        if (at == theirs.end())
            return;
        std::size_t place = draw() % (theirs.size() + 1);
        handle named = at->at;
        auto &all = theirs.get<ALL>();
        all.relocate(std::next(all.begin(), static_cast<long>(place)), theirs.project<ALL>(at));
        is("a move in a sequence", ours.move(ALL, named, place) == status::ok);
        auto &places = theirs.get<PLACES>();
        places.relocate(places.begin() + static_cast<long>(theirs.size() - place), theirs.project<PLACES>(at));
        is("a move to a place", ours.move(PLACES, named, theirs.size() - place) == status::ok);
        is("a place that is none", ours.move(ALL, named, theirs.size() + 1) == status::place && ours.move(BOOK, named, 0) == status::kind);
    }

    // Sorts by a column, or by two. Both leave records as they stand that are equal by them.
    void sort()
    {
        bool falls = draw() % 2;
        auto by_price = [=](const order &one, const order &other) { return falls ? other.price < one.price : one.price < other.price; };
        // (its own sort of a sequence puts equal records in another order)
        std::vector<std::reference_wrapper<const order>> sorted(theirs.get<ALL>().begin(), theirs.get<ALL>().end());
        std::stable_sort(sorted.begin(), sorted.end(), by_price);
        theirs.get<ALL>().rearrange(sorted.begin());
        is("a sort of a sequence", ours.sort(ALL, {{2, falls}}) == status::ok);
        auto by_two = [=](const order &one, const order &other) {
            return one.side != other.side ? one.side < other.side : falls ? other.id < one.id : one.id < other.id;
        };
        theirs.get<PLACES>().sort(by_two);
        is("a sort of places", ours.sort(PLACES, {{1}, {0, falls}}) == status::ok);
        is("a sort by nothing", ours.sort(ALL, {}) == status::search && ours.sort(BOOK, {{0}}) == status::kind);
        compare_along<ALL>();
        compare_along<PLACES>();
    }

    void count()
    {
        auto price = drawn_price();
        is("a count", ours.count(BY_PRICE, {price}) == theirs.get<BY_PRICE>().count(price));
        std::string side = drawn_side();
        is("a count of a leading part", ours.count(BOOK, {side}) == theirs.get<BOOK>().count(std::tuple(side)));
        long id = static_cast<long>(draw() % 60);
        is("a count by a hash", ours.count(BY_ID, {id}) == theirs.get<BY_ID>().count(id));
    }

    void erase_key()
    {
        auto price = drawn_price();
        if (draw() % 3)
            return count();
        is("an erasure of a key", ours.erase_key(BY_PRICE, {price}) == theirs.get<BY_PRICE>().erase(price));
    }

    void find()
    {
        long id = static_cast<long>(draw() % 60);
        same("a find by a hash", ours.find(BY_ID, {id}), or_none(theirs.get<BY_ID>(), theirs.get<BY_ID>().find(id)));
        auto price = drawn_price();
        same("a find by rank", ours.find(BY_PRICE, {price}), or_none(theirs.get<BY_PRICE>(), theirs.get<BY_PRICE>().find(price)));
        std::string side = drawn_side();
        auto [from, to] = theirs.get<BOOK>().equal_range(std::tuple(side));
        same("a find by a leading part", ours.find(BOOK, {side}), from == to ? nullptr : &*from);
        status why{};
        is("a key of another type", !ours.find(BY_ID, {side}, &why) && why == status::search);
        is("an index without an order", !ours.lower(BY_ID, {id}, &why) && why == status::kind);
    }

    void bounds()
    {
        std::string side = drawn_side();
        auto price = drawn_price();
        auto &book = theirs.get<BOOK>();
        same("lower", ours.lower(BOOK, {side, price}), or_none(book, book.lower_bound(std::tuple(side, price))));
        same("upper", ours.upper(BOOK, {side, price}), or_none(book, book.upper_bound(std::tuple(side, price))));
        auto &prices = theirs.get<BY_PRICE>();
        auto least = prices.lower_bound(price);
        same("a lower of ranks", ours.lower(BY_PRICE, {price}), or_none(prices, least));
        if (auto at = ours.lower(BY_PRICE, {price}))
            is("a rank", ours.rank(BY_PRICE, *at) == prices.rank(least));
    }

    void places()
    {
        std::size_t place = draw() % (theirs.size() + 1);
        auto &places = theirs.get<PLACES>();
        same("a place", ours.nth(PLACES, place), place < theirs.size() ? &places[place] : nullptr);
        auto &prices = theirs.get<BY_PRICE>();
        same("a place by rank", ours.nth(BY_PRICE, place), or_none(prices, prices.nth(place)));
        is("the size", ours.size() == theirs.size());
        auto &all = theirs.get<ALL>();
        same("the first", ours.first(ALL), theirs.empty() ? nullptr : &all.front());
        same("the last", ours.last(ALL), theirs.empty() ? nullptr : &all.back());
        auto at = drawn();
        if (at == theirs.end())
            return;
        auto here = theirs.project<BOOK>(at);
        auto &book = theirs.get<BOOK>();
        same("the next", ours.next(BOOK, at->at), or_none(book, std::next(here)));
        same("the one before", ours.previous(BOOK, at->at), here == book.begin() ? nullptr : &*std::prev(here));
    }

    void range()
    {
        std::string side = drawn_side();
        auto [from, to] = theirs.get<BOOK>().equal_range(std::tuple(side));
        for (auto at : ours.along(BOOK, ours.lower(BOOK, {side}), ours.upper(BOOK, {side}))) {
            is("a step of a range", from != to && at == from->at);
            ++from;
        }
        is("the end of a range", from == to);
    }

    template <int index> void compare_along()
    {
        auto its = theirs.get<index>().begin();
        for (auto at : ours.along(index)) {
            is("a step along an index", its != theirs.get<index>().end() && at == its->at && read(at).fields() == its->fields());
            ++its;
        }
        is("the end of an index", its == theirs.get<index>().end());
    }

    void compare_all()
    {
        compare_along<BOOK>();
        compare_along<BY_PRICE>();
        compare_along<BY_NOTE>();
        compare_along<ALL>();
        compare_along<PLACES>();
    }
};

int main(int count, char **words)
{
    if (count != 3)
        return 2;
    both pair(static_cast<unsigned>(std::atoi(words[1])));
    for (long calls = std::atol(words[2]); made < calls; made++)
        pair.call();
}
