/* The layout of a book: how long its slices are for given sizes, where each row starts, what each number of a row is, and the range of every
   value. Everything is inline; nothing has to be linked.

   A book is numbers (int64_t) and name bytes. The numbers are, in this order: the head; the warehouses; the districts, 10 a warehouse; the
   customers, C a district; the items; the stocks, I a warehouse; the order slots, O a district; the history slots. Rows lie by warehouse, then
   district, then number, and everything is counted from 1: warehouse 1, district 1, customer 1, order 1. Beside the book lie the last orders
   (int64_t), one number for each customer, and the notes, a text of 500 bytes for each, both in the order of the customer rows; and the top-up
   table (int64_t), two numbers for each item.

   To make a book: choose sizes that book_sizes_ok accepts, allocate book_numbers and book_name_bytes, call book_blank, then set what the depots
   know: taxes, discounts, credit, prices, stock on hand (each at its row and column) and the names (book_set_name). book_open of book.h then
   accepts it. The last orders are book_last_numbers zeros, as calloc gives them; the notes are book_note_bytes spaces, set by memset; the top-up
   table is book_topup_numbers numbers, which book_usual_topup sets where no item has a margin and a lift of its own. C99 or newer, C++11 or newer. */
#ifndef BOOK_LAYOUT_H
#define BOOK_LAYOUT_H

#include <stdbool.h>
#include <stddef.h>
#include <stdint.h>
#include <string.h>

/* The sizes, each from 1 to its limit below. */
struct book_sizes {
    uint64_t warehouses; /* W */
    uint64_t customers;  /* C, in each district */
    uint64_t items;      /* I */
    uint64_t orders;     /* O, order slots in each district */
    uint64_t histories;  /* H, history slots of the whole book */
};

#define BOOK_MAX_WAREHOUSES 20
#define BOOK_DISTRICTS 10 /* in every warehouse */
#define BOOK_MAX_CUSTOMERS 3000
#define BOOK_MAX_ITEMS 100000
#define BOOK_MAX_ORDERS 10000
#define BOOK_MAX_HISTORIES 1000000

/* Ranges of the book's numbers, both ends in range. Money is cents; taxes and discounts are ten-thousandths. */
#define BOOK_MAX_RATE 9999                      /* tax, discount: 0 to */
#define BOOK_MAX_MONEY INT64_C(999999999999)    /* money to date: 0 to; balance: as far on either side of 0 */
#define BOOK_MAX_COUNT 999999999                /* payment, delivery, order and remote count: 0 to */
#define BOOK_MAX_CREDIT 1                       /* credit: 0 good, 1 bad */
#define BOOK_MAX_PRICE 99999                    /* price: 0 to; 0 marks an item that is not sold */
#define BOOK_MAX_ON_HAND 9999                   /* on hand: 0 to */
#define BOOK_MAX_LOTS INT64_C(9999999999)       /* lots to date: 0 to */
#define BOOK_MAX_MARGIN 9990                    /* an item's margin: 0 to */
#define BOOK_MIN_LIFT 10                        /* an item's lift */
#define BOOK_MAX_LIFT 9999
#define BOOK_MAX_MARGIN_AND_LIFT 10000          /* an item's margin and lift together: up to */
#define BOOK_USUAL_MARGIN 10                    /* TPC-C's margin and lift, of every item */
#define BOOK_USUAL_LIFT 91
#define BOOK_MIN_DATE 1                         /* 1900-01-01 00:00:00 */
#define BOOK_MAX_DATE INT64_C(6342969600)       /* 2100-12-31 23:59:59; a delivery date in the book also 0, for none yet */
#define BOOK_MIN_CARRIER 1                      /* a carrier in the book also 0, for none yet */
#define BOOK_MAX_CARRIER 10
#define BOOK_MIN_LINES 1                        /* lines of an order */
#define BOOK_MAX_LINES 15
#define BOOK_MIN_QUANTITY 1
#define BOOK_MAX_QUANTITY 10
#define BOOK_MIN_LINE_AMOUNT 1                  /* a line's amount */
#define BOOK_MAX_LINE_AMOUNT 999990
#define BOOK_MIN_AMOUNT 100                     /* a payment */
#define BOOK_MAX_AMOUNT 500000
#define BOOK_MIN_THRESHOLD 10
#define BOOK_MAX_THRESHOLD 20
#define BOOK_NAME_BYTES 16                      /* a last name, and a first name */
#define BOOK_MIN_NAME_BYTE 32                   /* bytes of names; a last name's first byte is no space */
#define BOOK_MAX_NAME_BYTE 126

/* Columns: what the numbers of a row are, from 0, and how many they are. */
enum book_column {
    /* the head */
    BOOK_HEAD_W = 0,
    BOOK_HEAD_C,
    BOOK_HEAD_I,
    BOOK_HEAD_O,
    BOOK_HEAD_H,
    BOOK_HEAD_HISTORY_COUNT, /* 0 to H */
    BOOK_HEAD_WIDTH,
    /* a warehouse */
    BOOK_WAREHOUSE_TAX = 0,
    BOOK_WAREHOUSE_YTD,
    BOOK_WAREHOUSE_WIDTH,
    /* a district */
    BOOK_DISTRICT_TAX = 0,
    BOOK_DISTRICT_YTD,
    BOOK_DISTRICT_NEXT_ORDER, /* 1 to O + 1 */
    BOOK_DISTRICT_WIDTH,
    /* a customer */
    BOOK_CUSTOMER_CREDIT = 0,
    BOOK_CUSTOMER_DISCOUNT,
    BOOK_CUSTOMER_BALANCE,
    BOOK_CUSTOMER_YTD_PAYMENT,
    BOOK_CUSTOMER_PAYMENT_COUNT,
    BOOK_CUSTOMER_DELIVERY_COUNT,
    BOOK_CUSTOMER_WIDTH,
    /* an item */
    BOOK_ITEM_PRICE = 0,
    BOOK_ITEM_WIDTH,
    /* an item's stock at a warehouse */
    BOOK_STOCK_ON_HAND = 0,
    BOOK_STOCK_LOTS,
    BOOK_STOCK_ORDER_COUNT,
    BOOK_STOCK_REMOTE_COUNT,
    BOOK_STOCK_WIDTH,
    /* an order */
    BOOK_ORDER_CUSTOMER = 0,
    BOOK_ORDER_ENTRY_DATE,
    BOOK_ORDER_CARRIER, /* 0 until delivered */
    BOOK_ORDER_LINE_COUNT,
    BOOK_ORDER_ALL_LOCAL, /* 1 where every line is supplied by the order's own warehouse */
    BOOK_ORDER_WAITING,   /* 1 until delivered */
    BOOK_ORDER_LINES,     /* the first of 15 lines */
    BOOK_ORDER_WIDTH = 81,
    /* a line of an order: its numbers from BOOK_ORDER_LINES + BOOK_LINE_WIDTH * i on, i from 0 */
    BOOK_LINE_ITEM = 0,
    BOOK_LINE_SUPPLY,
    BOOK_LINE_QUANTITY,
    BOOK_LINE_AMOUNT,
    BOOK_LINE_DELIVERY_DATE, /* 0 until delivered */
    BOOK_LINE_WIDTH,
    /* a history slot */
    BOOK_HISTORY_CUSTOMER = 0,
    BOOK_HISTORY_CUSTDISTRICT,
    BOOK_HISTORY_CUSTWAREHOUSE,
    BOOK_HISTORY_DISTRICT, /* where it was paid */
    BOOK_HISTORY_WAREHOUSE,
    BOOK_HISTORY_DATE,
    BOOK_HISTORY_AMOUNT,
    BOOK_HISTORY_WIDTH,
    /* an item in the top-up table */
    BOOK_TOPUP_MARGIN = 0,
    BOOK_TOPUP_LIFT,
    BOOK_TOPUP_WIDTH
};
#define BOOK_NAME_WIDTH (2 * BOOK_NAME_BYTES) /* a customer's name bytes: last name, then first name, each filled up with spaces */
#define BOOK_NOTE_WIDTH 500                   /* a customer's bytes of the notes */

/* Whether the sizes are in their ranges. The functions below are for sizes that are, and for places from 1 to their size: but for book_set_name they
   check nothing (book_places of the library does). */
static inline bool book_sizes_ok(const struct book_sizes *s)
{
    return 1 <= s->warehouses && s->warehouses <= BOOK_MAX_WAREHOUSES && 1 <= s->customers && s->customers <= BOOK_MAX_CUSTOMERS &&
           1 <= s->items && s->items <= BOOK_MAX_ITEMS && 1 <= s->orders && s->orders <= BOOK_MAX_ORDERS && 1 <= s->histories &&
           s->histories <= BOOK_MAX_HISTORIES;
}

/* Where the rows of a warehouse, a district, a customer, an item, an item's stock at a warehouse, an order and a history slot start in the
   numbers. Order number k of a district is in slot k. */
static inline size_t book_warehouse_at(const struct book_sizes *s, uint64_t warehouse)
{
    (void)s;
    return (size_t)(BOOK_HEAD_WIDTH + (warehouse - 1) * BOOK_WAREHOUSE_WIDTH);
}

/* How many districts lie before this one, over all warehouses. */
static inline uint64_t book_districts_before(uint64_t warehouse, uint64_t district)
{
    return (warehouse - 1) * BOOK_DISTRICTS + (district - 1);
}

static inline size_t book_district_at(const struct book_sizes *s, uint64_t warehouse, uint64_t district)
{
    return book_warehouse_at(s, s->warehouses + 1) + (size_t)(book_districts_before(warehouse, district) * BOOK_DISTRICT_WIDTH);
}

static inline size_t book_customer_at(const struct book_sizes *s, uint64_t warehouse, uint64_t district, uint64_t customer)
{
    uint64_t before = book_districts_before(warehouse, district) * s->customers + (customer - 1);
    return book_district_at(s, s->warehouses + 1, 1) + (size_t)(before * BOOK_CUSTOMER_WIDTH);
}

static inline size_t book_item_at(const struct book_sizes *s, uint64_t item)
{
    return book_customer_at(s, s->warehouses + 1, 1, 1) + (size_t)((item - 1) * BOOK_ITEM_WIDTH);
}

static inline size_t book_stock_at(const struct book_sizes *s, uint64_t warehouse, uint64_t item)
{
    return book_item_at(s, s->items + 1) + (size_t)(((warehouse - 1) * s->items + (item - 1)) * BOOK_STOCK_WIDTH);
}

static inline size_t book_order_at(const struct book_sizes *s, uint64_t warehouse, uint64_t district, uint64_t order)
{
    uint64_t before = book_districts_before(warehouse, district) * s->orders + (order - 1);
    return book_stock_at(s, s->warehouses + 1, 1) + (size_t)(before * BOOK_ORDER_WIDTH);
}

static inline size_t book_history_at(const struct book_sizes *s, uint64_t history)
{
    return book_order_at(s, s->warehouses + 1, 1, 1) + (size_t)((history - 1) * BOOK_HISTORY_WIDTH);
}

/* Where a customer's name starts in the name bytes. */
static inline size_t book_name_at(const struct book_sizes *s, uint64_t warehouse, uint64_t district, uint64_t customer)
{
    return (size_t)((book_districts_before(warehouse, district) * s->customers + (customer - 1)) * BOOK_NAME_WIDTH);
}

/* Where a customer's number is in the last orders: the largest of its order numbers, 0 for none. It is at most the district's next order number
   less 1; calls that take the slice are refused by 13 where any number of their district is not. */
static inline size_t book_last_at(const struct book_sizes *s, uint64_t warehouse, uint64_t district, uint64_t customer)
{
    return (size_t)(book_districts_before(warehouse, district) * s->customers + (customer - 1));
}

/* Where a customer's text starts in the notes: the notes of its payments with credit 1, the newest first, then what stood there before. It may
   hold any bytes. */
static inline size_t book_note_at(const struct book_sizes *s, uint64_t warehouse, uint64_t district, uint64_t customer)
{
    return (size_t)((book_districts_before(warehouse, district) * s->customers + (customer - 1)) * BOOK_NOTE_WIDTH);
}

/* Where an item's row starts in the top-up table: where fewer than its margin would be left on hand by a line of an order, its lift is added. */
static inline size_t book_topup_at(const struct book_sizes *s, uint64_t item)
{
    (void)s;
    return (size_t)((item - 1) * BOOK_TOPUP_WIDTH);
}

/* How many numbers, and how many name bytes, a book has, how many numbers its last orders and its top-up table, and how many bytes its notes are. */
static inline size_t book_numbers(const struct book_sizes *s)
{
    return book_history_at(s, s->histories + 1);
}

static inline size_t book_name_bytes(const struct book_sizes *s)
{
    return book_name_at(s, s->warehouses + 1, 1, 1);
}

static inline size_t book_last_numbers(const struct book_sizes *s)
{
    return book_last_at(s, s->warehouses + 1, 1, 1);
}

static inline size_t book_note_bytes(const struct book_sizes *s)
{
    return book_note_at(s, s->warehouses + 1, 1, 1);
}

static inline size_t book_topup_numbers(const struct book_sizes *s)
{
    return book_topup_at(s, s->items + 1);
}

/* A top-up table for whoever keeps TPC-C's 10 and 91: the same row for each item. topup has book_topup_numbers. */
static inline void book_usual_topup(const struct book_sizes *s, int64_t *topup)
{
    uint64_t i;
    for (i = 1; i <= s->items; i++) {
        topup[book_topup_at(s, i) + BOOK_TOPUP_MARGIN] = BOOK_USUAL_MARGIN;
        topup[book_topup_at(s, i) + BOOK_TOPUP_LIFT] = BOOK_USUAL_LIFT;
    }
}

/* A new book's start: the head, every next order number 1, every other number 0, every name byte a space. nums has book_numbers, names has
   book_name_bytes. What is left to set is said at the head of this file; a last name that is still spaces is refused by opening. */
static inline void book_blank(const struct book_sizes *s, int64_t *nums, uint8_t *names)
{
    uint64_t w, d;
    memset(nums, 0, book_numbers(s) * sizeof *nums);
    memset(names, ' ', book_name_bytes(s));
    nums[BOOK_HEAD_W] = (int64_t)s->warehouses;
    nums[BOOK_HEAD_C] = (int64_t)s->customers;
    nums[BOOK_HEAD_I] = (int64_t)s->items;
    nums[BOOK_HEAD_O] = (int64_t)s->orders;
    nums[BOOK_HEAD_H] = (int64_t)s->histories;
    for (w = 1; w <= s->warehouses; w++)
        for (d = 1; d <= BOOK_DISTRICTS; d++) nums[book_district_at(s, w, d) + BOOK_DISTRICT_NEXT_ORDER] = 1;
}

/* Sets a customer's last and first name, filled up with spaces, and answers true; false, with nothing set, where the book has no such customer, a
   name has over 16 bytes or a byte that is not 32 to 126, or the last name is empty or starts with a space. */
static inline bool book_set_name(const struct book_sizes *s, uint8_t *names, uint64_t warehouse, uint64_t district, uint64_t customer,
                                 const char *last, const char *first)
{
    size_t last_len = strlen(last), first_len = strlen(first), i;
    uint8_t *name;
    if (warehouse - 1 >= s->warehouses || district - 1 >= BOOK_DISTRICTS || customer - 1 >= s->customers) return false;
    if (last_len == 0 || last_len > BOOK_NAME_BYTES || first_len > BOOK_NAME_BYTES || last[0] == ' ') return false;
    for (i = 0; i < last_len; i++)
        if (last[i] < BOOK_MIN_NAME_BYTE || last[i] > BOOK_MAX_NAME_BYTE) return false;
    for (i = 0; i < first_len; i++)
        if (first[i] < BOOK_MIN_NAME_BYTE || first[i] > BOOK_MAX_NAME_BYTE) return false;
    name = names + book_name_at(s, warehouse, district, customer);
    memset(name, ' ', BOOK_NAME_WIDTH);
    memcpy(name, last, last_len);
    memcpy(name + BOOK_NAME_BYTES, first, first_len);
    return true;
}

#endif
