// An order book: orders come in, meet the best price of the other side, or wait.
//
// order_book schema.toml   prints each answer, and at the end the bids
#include "thwartcornel.hpp"

#include <algorithm>
#include <charconv>
#include <fstream>
#include <iostream>
#include <iterator>
#include <optional>
#include <sstream>
#include <stdexcept>
#include <string>
#include <string_view>

using thwartcornel::tables;

// What stands in an answer behind a name, up to the mark that ends it.
static std::optional<std::string_view> behind(std::string_view answer, std::string_view name, std::string_view ends)
{
    auto at = answer.find(name);
    if (at == answer.npos)
        return std::nullopt;
    answer.remove_prefix(at + name.size());
    return answer.substr(0, answer.find_first_of(ends));
}

static long number(std::string_view answer, std::string_view name)
{
    long found = 0;
    if (auto digits = behind(answer, name, ",}"))
        std::from_chars(digits->begin(), digits->end(), found);
    return found;
}

class order_book {
  public:
    explicit order_book(std::string_view schema) : book(tables::open(schema))
    {
        if (!book)
            throw std::runtime_error("the schema file is not there, or is none");
    }

    // Asks one line, made of these parts, and gives its answer.
    template <class... Part> std::string_view ask(const Part &...parts)
    {
        std::ostringstream line;
        (line << ... << parts);
        auto answer = book->ask(line.str());
        if (!answer)
            throw std::runtime_error("no memory for an answer");
        std::cout << *answer;
        return *answer;
    }

    // An order trades with the best orders of the other side while their prices meet, and what is left of it waits.
    void order(long id, std::string_view side, long price, long size)
    {
        bool buys = side == "bid";
        while (size) {
            auto best = ask(R"({"op":"find","t":"orders","i":")", buys ? R"(asks","k":["ask)" : R"(bids","k":["bid)", R"("]})");
            auto found = behind(best, R"("h":")", "\"");
            if (!found)
                break;
            std::string handle(*found);
            best = ask(R"({"op":"get","t":"orders","h":")", handle, R"("})");
            long waits = number(best, R"("size":)"), at = number(best, R"("price":)"), traded = std::min(waits, size);
            if (buys ? at > price : at < price)
                break;
            if (traded == waits)
                ask(R"({"op":"erase","t":"orders","h":")", handle, R"("})");
            else
                ask(R"({"op":"modify","t":"orders","h":")", handle, R"(","add":{"size":)", -traded, "}}");
            size -= traded;
        }
        if (size)
            ask(R"({"op":"insert","t":"orders","r":{"id":)", id, R"(,"side":")", side, R"(","price":)", price, R"(,"size":)", size, "}}");
    }

  private:
    std::optional<tables> book;
};

int main(int count, char **words)
{
    std::ifstream file(count == 2 ? words[1] : "");
    order_book book(std::string(std::istreambuf_iterator<char>(file), {}));
    book.order(1, "bid", 9950, 10);
    book.order(2, "bid", 9960, 5);
    book.order(3, "ask", 9980, 7);
    book.order(4, "ask", 9955, 8);
    book.order(5, "bid", 9956, 2);
    book.ask(R"({"op":"list","t":"orders","i":"bids"})");
}
