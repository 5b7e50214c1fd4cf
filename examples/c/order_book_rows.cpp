// The order book of order_book.cpp by typed calls: its orders are cells, and no line of JSON is made or read.
//
// order_book_rows schema.toml   prints each trade, and at the end the orders that wait
#include "thwartcornel.hpp"

#include <algorithm>
#include <cstdint>
#include <fstream>
#include <iostream>
#include <iterator>
#include <optional>
#include <stdexcept>
#include <string>
#include <string_view>

using thwartcornel::handle;
using thwartcornel::rows;

// The columns and the indices by their places in the schema.
enum { ID, SIDE, PRICE, SIZE };
enum { BY_ID, BIDS, ASKS };

class order_book {
  public:
    explicit order_book(std::string_view schema) : book(rows::open(schema))
    {
        if (!book)
            throw std::runtime_error("the schema file is not there, or is none");
    }

    // An order trades with the best orders of the other side while their prices meet, and what is left of it waits.
    void order(std::int64_t id, std::string_view side, std::int64_t price, std::int64_t size)
    {
        bool buys = side == "bid";
        while (size) {
            auto best = buys ? book->find(ASKS, {"ask"}) : book->find(BIDS, {"bid"});
            if (!best)
                break;
            auto waits = book->get(*best).value();
            std::int64_t other = *waits[ID].number(), at = *waits[PRICE].number(), left = *waits[SIZE].number(), traded = std::min(left, size);
            if (buys ? at > price : at < price)
                break;
            std::cout << id << " trades " << traded << " with " << other << " at " << at << '\n';
            if (traded == left)
                book->erase(*best);
            else if (!book->modify(*best, {other, buys ? "ask" : "bid", at, left - traded}))
                throw std::runtime_error("no memory for a change");
            size -= traded;
        }
        if (size && !book->insert({id, side, price, size}))
            throw std::runtime_error("the order has the number of another, or there is no room for it");
    }

    void print()
    {
        for (auto at : book->along(BIDS))
            if (auto order = book->get(at))
                std::cout << *(*order)[SIDE].text() << ' ' << *(*order)[ID].number() << ": " << *(*order)[SIZE].number() << " at " << *(*order)[PRICE].number() << '\n';
    }

  private:
    std::optional<rows> book;
};

int main(int count, char **words)
{
    std::ifstream file(count == 2 ? words[1] : "");
    order_book book(std::string(std::istreambuf_iterator<char>(file), {}));
    book.order(1, "bid", 9950, 10);
    book.order(2, "bid", 9960, 5);
    book.order(3, "ask", 9980, 7);
    book.order(4, "ask", 9955, 8);
    book.order(5, "bid", 9956, 2);
    book.print();
}
