"""An order book: orders come in, meet the best price of the other side, or wait.

order_book.py schema.toml   prints each answer, and at the end the bids
"""
import json
import sys

from thwartcornel import Refused, Tables


class OrderBook:
    """The open orders of one instrument."""

    def __init__(self, schema):
        self.tables = Tables(schema)

    def ask(self, op, **words):
        """Asks one command, and gives its answer."""
        try:
            answer = self.tables.call(op, "orders", **words)
        except Refused as why:
            answer = why.answer
        print(json.dumps(answer, separators=(",", ":")))
        return answer

    def order(self, number, side, price, size):
        """An order trades with the best orders of the other side while their prices meet, and what is left of it waits."""
        index, other = ("asks", "ask") if side == "bid" else ("bids", "bid")
        while size and (handle := self.ask("find", i=index, k=[other]).get("h")):
            best = self.ask("get", h=handle)["r"]
            if best["price"] > price if side == "bid" else best["price"] < price:
                break
            traded = min(best["size"], size)
            if traded == best["size"]:
                self.ask("erase", h=handle)
            else:
                self.ask("modify", h=handle, add={"size": -traded})
            size -= traded
        if size:
            self.ask("insert", r={"id": number, "side": side, "price": price, "size": size})


def main():
    with open(sys.argv[1], "rb") as file:
        book = OrderBook(file.read())
    book.order(1, "bid", 9950, 10)
    book.order(2, "bid", 9960, 5)
    book.order(3, "ask", 9980, 7)
    book.order(4, "ask", 9955, 8)
    book.order(5, "bid", 9956, 2)
    book.ask("list", i="bids")


if __name__ == "__main__":
    main()
