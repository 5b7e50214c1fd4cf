/* The order book of order_book.c by typed calls: its orders are cells, and no line of JSON is made or read.

   order_book_rows schema.toml   prints each trade, and at the end the orders that wait */
#include "thwartcornel.h"

#include <inttypes.h>
#include <stdio.h>
#include <stdlib.h>
#include <string.h>

/* The columns and the indices by their places in the schema. */
enum { ID, SIDE, PRICE, SIZE, COLUMNS };
enum { BY_ID, BIDS, ASKS };

static tc_rows book = TC_CLOSED;

static void stop(const char *why)
{
    fprintf(stderr, "order_book_rows: %s\n", why);
    exit(1);
}

struct order {
    int64_t id, price, size;
    char side[4];
};

/* The order of a handle. A side is the one text that it has. */
static struct order order_of(tc_handle handle)
{
    tc_cell cells[COLUMNS];
    struct order order = {0};
    size_t count, length;
    if (tc_rows_get(&book, &handle, cells, COLUMNS, order.side, sizeof order.side - 1, &count, &length) != TC_OK)
        stop("an order is not there");
    order.id = cells[ID].number;
    order.price = cells[PRICE].number;
    order.size = cells[SIZE].number;
    return order;
}

/* Puts an order in, or with a handle in the place of the one that it names. */
static void keep(struct order order, tc_handle *place)
{
    tc_cell cells[COLUMNS] = {{order.id, TC_INTEGER}, {(int64_t)strlen(order.side), TC_TEXT}, {order.price, TC_INTEGER}, {order.size, TC_INTEGER}};
    tc_handle handle;
    size_t index, length = strlen(order.side);
    if (place ? tc_rows_modify(&book, place, cells, COLUMNS, order.side, length, true, &index)
              : tc_rows_insert(&book, cells, COLUMNS, order.side, length, &handle, &index))
        stop("the order has the number of another, or there is no room for it");
}

/* An order trades with the best orders of the other side while their prices meet, and what is left of it waits. */
static void trade(struct order order)
{
    bool buys = strcmp(order.side, "bid") == 0;
    tc_cell side = {3, TC_TEXT};
    tc_handle best;
    while (order.size && tc_rows_find(&book, buys ? ASKS : BIDS, &side, 1, buys ? "ask" : "bid", 3, &best) == TC_OK) {
        struct order other = order_of(best);
        int64_t traded = other.size < order.size ? other.size : order.size;
        if (buys ? other.price > order.price : other.price < order.price)
            break;
        printf("%" PRId64 " trades %" PRId64 " with %" PRId64 " at %" PRId64 "\n", order.id, traded, other.id, other.price);
        order.size -= traded;
        other.size -= traded;
        if (other.size)
            keep(other, &best);
        else
            tc_rows_erase(&book, &best);
    }
    if (order.size)
        keep(order, NULL);
}

int main(int count, char **words)
{
    char schema[4096];
    FILE *file = count == 2 ? fopen(words[1], "rb") : NULL;
    if (!file || tc_rows_open(&book, schema, fread(schema, 1, sizeof schema, file), 0) != TC_OK)
        stop("the schema file is not there, or is none");
    fclose(file);
    trade((struct order){1, 9950, 10, "bid"});
    trade((struct order){2, 9960, 5, "bid"});
    trade((struct order){3, 9980, 7, "ask"});
    trade((struct order){4, 9955, 8, "ask"});
    trade((struct order){5, 9956, 2, "bid"});
    tc_handle at;
    for (uint8_t status = tc_rows_first(&book, BIDS, &at); status == TC_OK; status = tc_rows_next(&book, BIDS, &at)) {
        struct order order = order_of(at);
        printf("%s %" PRId64 ": %" PRId64 " at %" PRId64 "\n", order.side, order.id, order.size, order.price);
    }
    tc_rows_close(&book);
}
