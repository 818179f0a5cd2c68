/* The headers tried as a caller would: the layout against the proved `layout`, the ranges against opening and the calls, the columns against what the
   calls write, the last orders, the notes, the waiting list and the top-up table by what is refused and written, the calls on a struct book against the
   flat functions, NULL with length 0. Compiles as C99 and as C++11. */
#include <stdio.h>
#include <stdlib.h>
#include "book.h"
#include "book_layout.h"

static unsigned long tried, wrong;

static void see(bool ok, const char *what)
{
    tried++;
    if (ok) return;
    wrong++;
    if (wrong <= 20) printf("header: wrong: %s\n", what);
}

/* A number below n, of a small generator that is the same on every machine. */
static uint64_t below(uint64_t n)
{
    static uint64_t x = 88172645463325252u;
    x ^= x << 13, x ^= x >> 7, x ^= x << 17;
    return x % n;
}

/* 1 to high, the ends often; sometimes just outside. */
static uint64_t near(uint64_t high)
{
    switch (below(16)) {
    case 0: return 0;
    case 1: return high + 1;
    case 2: return 1;
    case 3: return high;
    case 4: return below(4) ? 1 + below(high) : UINT64_MAX - below(3);
    default: return 1 + below(high);
    }
}

static bool one_to(uint64_t x, uint64_t high) { return 1 <= x && x <= high; }

/* ---- The layout ---- */

static void layout(void)
{
    struct book_sizes s;
    uint64_t out[12], w, d, c, i, o, h;
    bool ok;
    s.warehouses = near(BOOK_MAX_WAREHOUSES), s.customers = near(BOOK_MAX_CUSTOMERS), s.items = near(BOOK_MAX_ITEMS);
    s.orders = near(BOOK_MAX_ORDERS), s.histories = near(BOOK_MAX_HISTORIES);
    ok = book_sizes_ok(&s);
    w = near(ok ? s.warehouses : 5), d = near(BOOK_DISTRICTS), c = near(ok ? s.customers : 5), i = near(ok ? s.items : 5);
    o = near(ok ? s.orders : 5), h = near(ok ? s.histories : 5);
    ok = ok && one_to(w, s.warehouses) && one_to(d, BOOK_DISTRICTS) && one_to(c, s.customers) && one_to(i, s.items) && one_to(o, s.orders) &&
         one_to(h, s.histories);
    memset(out, 0x5a, sizeof out);
    book_places(s.warehouses, s.customers, s.items, s.orders, s.histories, w, d, c, i, o, h, out);
    see(out[0] == (ok ? BOOK_COMMITTED : BOOK_BAD_HEAD) && out[1] == 0, "sizes and places in range");
    if (!ok) {
        for (int k = 2; k < 12; k++) see(out[k] == 0, "figures of refused places");
        return;
    }
    see(book_numbers(&s) == out[2], "numbers");
    see(book_name_bytes(&s) == out[3], "name bytes");
    see(book_warehouse_at(&s, w) == out[4], "warehouse row");
    see(book_district_at(&s, w, d) == out[5], "district row");
    see(book_customer_at(&s, w, d, c) == out[6], "customer row");
    see(book_item_at(&s, i) == out[7], "item row");
    see(book_stock_at(&s, w, i) == out[8], "stock row");
    see(book_order_at(&s, w, d, o) == out[9], "order row");
    see(book_history_at(&s, h) == out[10], "history row");
    see(book_name_at(&s, w, d, c) == out[11], "name");
    see(book_last_numbers(&s) * BOOK_NAME_WIDTH == out[3] && book_last_at(&s, w, d, c) * BOOK_NAME_WIDTH == out[11], "last orders lie as names do");
    see(book_note_bytes(&s) == book_last_numbers(&s) * BOOK_NOTE_WIDTH && book_note_at(&s, w, d, c) == book_last_at(&s, w, d, c) * BOOK_NOTE_WIDTH, "notes lie so too");
    see(book_topup_numbers(&s) == 2 * s.items && book_topup_at(&s, i) == 2 * (i - 1), "two numbers for each item");
}

/* ---- A small book: W 2, C 3, I 4, O 5, H 6; everything set ---- */

static const struct book_sizes small = {2, 3, 4, 5, 6};
static int64_t nums[8608], saved[8608];
static uint8_t names[2 * 10 * 3 * BOOK_NAME_WIDTH];
static int64_t last[2 * 10 * 3], saved_last[2 * 10 * 3];
static uint8_t notes[2 * 10 * 3 * BOOK_NOTE_WIDTH], saved_notes[2 * 10 * 3 * BOOK_NOTE_WIDTH];
static int64_t topup[2 * 4], saved_topup[2 * 4];

static struct book lent(void)
{
    struct book book = book_lent(nums, book_numbers(&small), names, book_name_bytes(&small));
    book.last = last, book.last_len = book_last_numbers(&small);
    book.notes = notes, book.notes_len = book_note_bytes(&small);
    book.topup = topup, book.topup_len = book_topup_numbers(&small);
    return book;
}

static struct book fresh(void)
{
    uint64_t w, d, c, i;
    memset(last, 0, sizeof last);
    memset(notes, ' ', sizeof notes);
    book_usual_topup(&small, topup);
    book_blank(&small, nums, names);
    for (w = 1; w <= small.warehouses; w++) {
        nums[book_warehouse_at(&small, w) + BOOK_WAREHOUSE_TAX] = 1000;
        for (i = 1; i <= small.items; i++) nums[book_stock_at(&small, w, i) + BOOK_STOCK_ON_HAND] = 50;
        for (d = 1; d <= BOOK_DISTRICTS; d++) {
            nums[book_district_at(&small, w, d) + BOOK_DISTRICT_TAX] = 500;
            for (c = 1; c <= small.customers; c++) {
                nums[book_customer_at(&small, w, d, c) + BOOK_CUSTOMER_DISCOUNT] = 100;
                see(book_set_name(&small, names, w, d, c, c == 3 ? "BERG" : "ALM", "EVA"), "a name set");
            }
        }
    }
    for (i = 1; i <= small.items; i++) nums[book_item_at(&small, i) + BOOK_ITEM_PRICE] = (int64_t)(100 * i);
    return lent();
}

/* Opening with one number set: accepted just within low to high. */
static void opens(size_t at, int64_t low, int64_t high, const char *what)
{
    int64_t tries[6] = {low, high, low - 1, high + 1, INT64_MIN, INT64_MAX};
    struct book book = fresh();
    for (int k = 0; k < 6; k++) {
        nums[at] = tries[k];
        see((book_open(&book).refusal == BOOK_COMMITTED) == (k < 2), what);
    }
}

static void masters(void)
{
    const struct book_sizes *s = &small;
    opens(book_warehouse_at(s, 2) + BOOK_WAREHOUSE_TAX, 0, BOOK_MAX_RATE, "warehouse tax");
    opens(book_warehouse_at(s, 2) + BOOK_WAREHOUSE_YTD, 0, 0, "warehouse money");
    opens(book_district_at(s, 2, 3) + BOOK_DISTRICT_TAX, 0, BOOK_MAX_RATE, "district tax");
    opens(book_district_at(s, 2, 3) + BOOK_DISTRICT_YTD, 0, 0, "district money");
    opens(book_district_at(s, 2, 3) + BOOK_DISTRICT_NEXT_ORDER, 1, 1, "next order number");
    opens(book_customer_at(s, 2, 10, 3) + BOOK_CUSTOMER_CREDIT, 0, BOOK_MAX_CREDIT, "credit");
    opens(book_customer_at(s, 2, 10, 3) + BOOK_CUSTOMER_DISCOUNT, 0, BOOK_MAX_RATE, "discount");
    for (int k = BOOK_CUSTOMER_BALANCE; k < BOOK_CUSTOMER_WIDTH; k++) opens(book_customer_at(s, 1, 1, 2) + (size_t)k, 0, 0, "customer at opening");
    opens(book_item_at(s, 4) + BOOK_ITEM_PRICE, 0, BOOK_MAX_PRICE, "price");
    opens(book_stock_at(s, 2, 4) + BOOK_STOCK_ON_HAND, 0, BOOK_MAX_ON_HAND, "on hand");
    for (int k = BOOK_STOCK_LOTS; k < BOOK_STOCK_WIDTH; k++) opens(book_stock_at(s, 1, 1) + (size_t)k, 0, 0, "stock at opening");
    for (int byte = 0; byte < 256; byte++)
        for (size_t at = 0; at < BOOK_NAME_WIDTH; at += BOOK_NAME_WIDTH - 1) {
            struct book book = fresh();
            names[book_name_at(s, 2, 10, 3) + at] = (uint8_t)byte;
            see((book_open(&book).refusal == BOOK_COMMITTED) ==
                    (BOOK_MIN_NAME_BYTE <= byte && byte <= BOOK_MAX_NAME_BYTE && !(at == 0 && byte == ' ')),
                "a name byte");
        }
    {
        uint8_t keep[sizeof names];
        fresh();
        memcpy(keep, names, sizeof names);
        see(!book_set_name(s, names, 1, 1, 1, "", "EVA") && !book_set_name(s, names, 1, 1, 1, " ALM", "EVA") &&
                !book_set_name(s, names, 1, 1, 1, "SEVENTEEN LETTERS", "EVA") && !book_set_name(s, names, 1, 1, 1, "ALM", "EV\x7f") &&
                !book_set_name(s, names, 1, 1, 1, "\xc3\x84LM", "EVA") && !book_set_name(s, names, 0, 1, 1, "ALM", "BO") &&
                !book_set_name(s, names, 3, 1, 1, "ALM", "BO") && !book_set_name(s, names, 1, 11, 1, "ALM", "BO") &&
                !book_set_name(s, names, 1, 1, 4, "ALM", "BO") && memcmp(keep, names, sizeof names) == 0,
            "names that are none");
    }
}

/* ---- Requests: each range by both ends and just outside ---- */

static const struct book_line one = {1, 1, 1};

static struct book_order_request order_of(uint64_t w, uint64_t d, uint64_t c, const struct book_line *lines, size_t lines_len)
{
    struct book_order_request q;
    memset(&q, 0, sizeof q);
    q.warehouse = w, q.district = d, q.customer = c, q.date = 100, q.lines = lines, q.lines_len = lines_len;
    return q;
}

static void ranges(void)
{
    struct book_line lines[BOOK_MAX_LINES + 1];
    uint64_t ends[4][2];
    for (int k = 0; k <= BOOK_MAX_LINES; k++) lines[k] = one;
    for (size_t n = 0; n <= BOOK_MAX_LINES + 1; n++) {
        struct book book = fresh();
        struct book_order_request q = order_of(1, 1, 1, lines, n);
        struct book_order_answer a = book_order(&book, &q);
        see(a.refusal == (BOOK_MIN_LINES <= n && n <= BOOK_MAX_LINES ? BOOK_COMMITTED : BOOK_BAD_VALUE) && a.detail == 0, "number of lines");
    }
    for (uint64_t n = 0; n <= BOOK_MAX_QUANTITY + 1; n++) {
        struct book book = fresh();
        struct book_order_request q = order_of(1, 1, 1, lines, 2);
        struct book_order_answer a;
        lines[1].quantity = n;
        a = book_order(&book, &q);
        see(BOOK_MIN_QUANTITY <= n && n <= BOOK_MAX_QUANTITY ? a.refusal == BOOK_COMMITTED : a.refusal == BOOK_BAD_VALUE && a.detail == 2, "quantity");
    }
    ends[0][0] = BOOK_MIN_DATE, ends[0][1] = BOOK_MAX_DATE, ends[1][0] = BOOK_MIN_CARRIER, ends[1][1] = BOOK_MAX_CARRIER;
    ends[2][0] = BOOK_MIN_AMOUNT, ends[2][1] = BOOK_MAX_AMOUNT, ends[3][0] = BOOK_MIN_THRESHOLD, ends[3][1] = BOOK_MAX_THRESHOLD;
    for (int k = 0; k < 4; k++)
        for (int e = 0; e < 4; e++) {
            uint64_t x = e == 0 ? ends[k][0] : e == 1 ? ends[k][1] : e == 2 ? ends[k][0] - 1 : ends[k][1] + 1;
            uint64_t asked = k == 0 ? BOOK_BAD_DATE : BOOK_BAD_VALUE, refusal;
            struct book book = fresh();
            struct book_pay_request pay;
            struct book_deliver_request deliver;
            struct book_level_request level;
            memset(&pay, 0, sizeof pay), memset(&deliver, 0, sizeof deliver), memset(&level, 0, sizeof level);
            pay.warehouse = pay.district = pay.custwarehouse = pay.custdistrict = 1, pay.who = book_by_number(1);
            pay.date = k == 0 ? x : 1, pay.amount = k == 2 ? x : 100;
            deliver.warehouse = 1, deliver.carrier = k == 1 ? x : 1, deliver.date = k == 0 ? x : 1;
            level.warehouse = level.district = 1, level.threshold = x;
            refusal = k == 1 ? book_deliver(&book, &deliver).refusal : k == 3 ? book_level(&book, &level).refusal : book_pay(&book, &pay).refusal;
            see(refusal == (e < 2 ? (uint64_t)BOOK_COMMITTED : asked), "a range of a request");
        }
    see(book_date(0) == UINT64_C(2208988801) && book_date(-INT64_C(2208988800)) == BOOK_MIN_DATE && book_date(INT64_C(4133980799)) == BOOK_MAX_DATE, "dates");
}

/* ---- What the calls write, at the columns by name ---- */

static int64_t at(size_t row, int column) { return nums[row + (size_t)column]; }

static void story(void)
{
    const struct book_sizes *s = &small;
    struct book book = fresh();
    struct book_line lines[2] = {{1, 1, 10}, {4, 2, 3}};
    struct book_order_request order = order_of(1, 4, 3, lines, 2);
    struct book_order_answer ordered = book_order(&book, &order);
    size_t row = book_order_at(s, 1, 4, 1), line = row + BOOK_ORDER_LINES + BOOK_LINE_WIDTH;
    struct book_deliver_request deliver;
    struct book_deliver_answer delivered;
    struct book_pay_request pay;
    struct book_pay_answer paid;
    struct book_status_request ask;
    struct book_status_answer status;
    struct book_shown_line shown;
    struct book_level_request low;
    memset(&deliver, 0, sizeof deliver), memset(&pay, 0, sizeof pay), memset(&ask, 0, sizeof ask), memset(&low, 0, sizeof low);

    /* 1,000 + 1,200 cents, 1 in 100 off, 15 in 100 taxes: 2,504.7, to the nearest cent */
    see(ordered.refusal == BOOK_COMMITTED && ordered.detail == 0 && ordered.order == 1 && ordered.total == 2505 && ordered.lifts == 0, "an order");
    see(at(row, BOOK_ORDER_CUSTOMER) == 3 && at(row, BOOK_ORDER_ENTRY_DATE) == 100 && at(row, BOOK_ORDER_CARRIER) == 0 &&
            at(row, BOOK_ORDER_LINE_COUNT) == 2 && at(row, BOOK_ORDER_ALL_LOCAL) == 0 && at(row, BOOK_ORDER_WAITING) == 1,
        "the order's row");
    see(at(line, BOOK_LINE_ITEM) == 4 && at(line, BOOK_LINE_SUPPLY) == 2 && at(line, BOOK_LINE_QUANTITY) == 3 && at(line, BOOK_LINE_AMOUNT) == 1200 &&
            at(line, BOOK_LINE_DELIVERY_DATE) == 0,
        "the order's second line");
    see(at(book_district_at(s, 1, 4), BOOK_DISTRICT_NEXT_ORDER) == 2, "next order number");
    see(last[book_last_at(s, 1, 4, 3)] == 1, "the customer's last order");
    order = order_of(2, 4, 3, lines + 1, 1);
    see(book_order(&book, &order).refusal == BOOK_COMMITTED, "an order of the supplying warehouse");
    row = book_stock_at(s, 2, 4);
    see(at(row, BOOK_STOCK_ON_HAND) == 44 && at(row, BOOK_STOCK_LOTS) == 6 && at(row, BOOK_STOCK_ORDER_COUNT) == 2 &&
            at(row, BOOK_STOCK_REMOTE_COUNT) == 1,
        "stock");

    deliver.warehouse = 1, deliver.carrier = 7, deliver.date = 200;
    delivered = book_deliver(&book, &deliver);
    see(delivered.refusal == BOOK_COMMITTED && delivered.skipped == 9 && delivered.mark == 0x3f7 && delivered.orders[3] == 1 && delivered.orders[0] == 0,
        "a delivery");

    pay.warehouse = 2, pay.district = 5, pay.custwarehouse = 1, pay.custdistrict = 4, pay.who = book_by_name("BERG"), pay.date = 300, pay.amount = 700;
    paid = book_pay(&book, &pay);
    see(paid.refusal == BOOK_COMMITTED && paid.customer == 3 && paid.balance == 1500, "a payment");
    row = book_history_at(s, 1);
    see(at(row, BOOK_HISTORY_CUSTOMER) == 3 && at(row, BOOK_HISTORY_CUSTDISTRICT) == 4 && at(row, BOOK_HISTORY_CUSTWAREHOUSE) == 1 &&
            at(row, BOOK_HISTORY_DISTRICT) == 5 && at(row, BOOK_HISTORY_WAREHOUSE) == 2 && at(row, BOOK_HISTORY_DATE) == 300 &&
            at(row, BOOK_HISTORY_AMOUNT) == 700 && nums[BOOK_HEAD_HISTORY_COUNT] == 1,
        "history");
    see(notes[book_note_at(s, 1, 4, 3)] == ' ', "no note with good credit");
    nums[book_customer_at(s, 1, 4, 3) + BOOK_CUSTOMER_CREDIT] = 1;
    see(book_pay(&book, &pay).balance == 800, "a second payment");
    see(memcmp(notes + book_note_at(s, 1, 4, 3), "3 4 1 5 2 700; ", 15) == 0, "its note");
    row = book_customer_at(s, 1, 4, 3);
    see(at(row, BOOK_CUSTOMER_BALANCE) == 800 && at(row, BOOK_CUSTOMER_YTD_PAYMENT) == 1400 && at(row, BOOK_CUSTOMER_PAYMENT_COUNT) == 2 &&
            at(row, BOOK_CUSTOMER_DELIVERY_COUNT) == 1,
        "customer");
    see(at(book_warehouse_at(s, 2), BOOK_WAREHOUSE_YTD) == 1400 && at(book_district_at(s, 2, 5), BOOK_DISTRICT_YTD) == 1400, "money to date");

    ask.warehouse = 1, ask.district = 4, ask.who = book_by_number(3);
    status = book_status(&book, &ask);
    see(status.refusal == BOOK_COMMITTED && status.customer == 3 && status.balance == 800 && status.order == 1 && status.date == 100 &&
            status.carrier == 7 && status.lines_len == 2 && status.lines == nums + book_order_at(s, 1, 4, 1) + BOOK_ORDER_LINES,
        "a status");
    shown = book_status_line(&status, 1);
    see(shown.item == 4 && shown.supply == 2 && shown.quantity == 3 && shown.amount == 1200 && shown.delivery_date == 200, "a shown line");
    ask.who = book_by_number(1), status = book_status(&book, &ask);
    see(status.refusal == BOOK_COMMITTED && status.customer == 1 && status.order == 0 && status.lines == NULL && status.lines_len == 0, "no order");

    low.warehouse = 1, low.district = 4, low.threshold = 20;
    see(book_level(&book, &low).refusal == BOOK_COMMITTED && book_level(&book, &low).count == 0, "a level");
    nums[book_stock_at(s, 1, 4) + BOOK_STOCK_ON_HAND] = 19;
    see(book_level(&book, &low).count == 1, "a level of one");
    see(book_open(&book).refusal == BOOK_NOT_NEW && book_open(&book).detail == 0, "a book in use");
}

/* ---- Ranges of rows in use: a call that uses the row is refused by 9 just outside ---- */

static uint64_t asks_status(struct book *book)
{
    struct book_status_request q;
    memset(&q, 0, sizeof q);
    q.warehouse = 1, q.district = 4, q.who = book_by_number(3);
    see(book_status(book, &q).detail == 0, "a status's detail");
    return book_status(book, &q).refusal;
}

static uint64_t asks_level(struct book *book)
{
    struct book_level_request q;
    memset(&q, 0, sizeof q);
    q.warehouse = 1, q.district = 4, q.threshold = 10;
    see(book_level(book, &q).detail == 0, "a level's detail");
    return book_level(book, &q).refusal;
}

static uint64_t delivers(struct book *book)
{
    struct book_deliver_request q;
    memset(&q, 0, sizeof q);
    q.warehouse = 1, q.carrier = 1, q.date = 1;
    see(book_deliver(book, &q).detail == 0, "a delivery's detail");
    return book_deliver(book, &q).refusal;
}

static uint64_t pays(struct book *book)
{
    struct book_pay_request q;
    memset(&q, 0, sizeof q);
    q.warehouse = 1, q.district = 5, q.custwarehouse = 1, q.custdistrict = 4, q.who = book_by_number(1), q.date = 1, q.amount = 100;
    return book_pay(book, &q).refusal;
}

/* In the book that story leaves; just outside, the call is refused by this number. */
static void used_by(uint64_t (*call)(struct book *), uint64_t refusal, size_t at, int64_t low, int64_t high, const char *what)
{
    int64_t tries[4] = {low, high, low - 1, high + 1};
    struct book book = lent();
    for (int k = 0; k < 4; k++) {
        memcpy(nums, saved, sizeof nums);
        nums[at] = tries[k];
        see(call(&book) == (k < 2 ? (uint64_t)BOOK_COMMITTED : refusal), what);
    }
}

static void used(uint64_t (*call)(struct book *), size_t at, int64_t low, int64_t high, const char *what)
{
    used_by(call, BOOK_BAD_ROW, at, low, high, what);
}

/* A number of an order: Delivery uses it, Order-Status shows it. */
static void in_order(size_t at, int64_t low, int64_t high, const char *what)
{
    used(delivers, at, low, high, what);
    used_by(asks_status, BOOK_BAD_LAST, at, low, high, what);
}

static void in_use(void)
{
    const struct book_sizes *s = &small;
    size_t customer = book_customer_at(s, 1, 4, 3), stock = book_stock_at(s, 1, 2), order = book_order_at(s, 1, 4, 1), line = order + BOOK_ORDER_LINES;
    memcpy(saved, nums, sizeof nums);
    used(pays, book_warehouse_at(s, 1) + BOOK_WAREHOUSE_YTD, 0, BOOK_MAX_MONEY, "warehouse money in use");
    used(pays, book_district_at(s, 1, 5) + BOOK_DISTRICT_YTD, 0, BOOK_MAX_MONEY, "district money in use");
    used(asks_status, customer + BOOK_CUSTOMER_BALANCE, -BOOK_MAX_MONEY, BOOK_MAX_MONEY, "balance");
    used(asks_status, customer + BOOK_CUSTOMER_YTD_PAYMENT, 0, BOOK_MAX_MONEY, "payments to date");
    used(asks_status, customer + BOOK_CUSTOMER_PAYMENT_COUNT, 0, BOOK_MAX_COUNT, "payment count");
    used(asks_status, customer + BOOK_CUSTOMER_DELIVERY_COUNT, 0, BOOK_MAX_COUNT, "delivery count");
    used(asks_level, stock + BOOK_STOCK_LOTS, 0, BOOK_MAX_LOTS, "lots to date");
    used(asks_level, stock + BOOK_STOCK_ORDER_COUNT, 0, BOOK_MAX_COUNT, "order count");
    used(asks_level, stock + BOOK_STOCK_REMOTE_COUNT, 0, BOOK_MAX_COUNT, "remote count");
    in_order(order + BOOK_ORDER_CUSTOMER, 1, 3, "an order's customer");
    in_order(order + BOOK_ORDER_ENTRY_DATE, BOOK_MIN_DATE, BOOK_MAX_DATE, "entry date");
    in_order(order + BOOK_ORDER_CARRIER, 0, BOOK_MAX_CARRIER, "an order's carrier");
    in_order(order + BOOK_ORDER_LINE_COUNT, BOOK_MIN_LINES, 2, "line count"); /* the third line is no line */
    in_order(order + BOOK_ORDER_ALL_LOCAL, 0, 1, "all-local");
    in_order(order + BOOK_ORDER_WAITING, 0, 1, "waiting");
    in_order(line + BOOK_LINE_ITEM, 1, 4, "a line's item");
    in_order(line + BOOK_LINE_SUPPLY, 1, 2, "a line's supplying warehouse");
    in_order(line + BOOK_LINE_QUANTITY, BOOK_MIN_QUANTITY, BOOK_MAX_QUANTITY, "a line's quantity");
    in_order(line + BOOK_LINE_AMOUNT, BOOK_MIN_LINE_AMOUNT, BOOK_MAX_LINE_AMOUNT, "a line's amount");
    in_order(line + BOOK_LINE_DELIVERY_DATE, 0, BOOK_MAX_DATE, "delivery date");
}

/* ---- The last orders ---- */

static uint64_t orders(struct book *book)
{
    struct book_order_request q = order_of(1, 4, 2, &one, 1);
    struct book_order_answer a = book_order(book, &q);
    see(a.detail == 0, "an order's detail");
    return a.refusal;
}

/* The length that New-Order and Order-Status accept is book_last_numbers; the other calls take any. */
static void last_length(void)
{
    static int64_t longer[sizeof last / sizeof *last + 1];
    size_t right = book_last_numbers(&small), lengths[4] = {right, right - 1, right + 1, 0};
    for (int k = 0; k < 4; k++) {
        struct book book = fresh();
        uint64_t refusal = k == 0 ? BOOK_COMMITTED : BOOK_BAD_LAST;
        memset(longer, 0, sizeof longer);
        book.last = lengths[k] == 0 ? NULL : longer, book.last_len = lengths[k];
        see(asks_status(&book) == refusal && orders(&book) == refusal, "the last orders' length");
        see(k == 0 || longer[book_last_at(&small, 1, 4, 2)] == 0, "a refused order leaves the last orders");
        see(book_open(&book).refusal == (k == 0 ? BOOK_NOT_NEW : BOOK_COMMITTED), "opening does not take them");
        see(pays(&book) == BOOK_COMMITTED && delivers(&book) == BOOK_COMMITTED && asks_level(&book) == BOOK_COMMITTED, "calls that do not take them");
    }
    {
        struct book book = book_lent(nums, book_numbers(&small), names, book_name_bytes(&small));
        fresh();
        see(book.last == NULL && book.last_len == 0 && orders(&book) == BOOK_BAD_LAST, "book_lent lends none");
    }
}

/* Committed, New-Order writes the order's number at the customer's place, and nothing else. */
static void last_places(void)
{
    struct book book = fresh();
    uint64_t w, d, c;
    for (w = 1; w <= small.warehouses; w++)
        for (d = 1; d <= BOOK_DISTRICTS; d++)
            for (c = 1; c <= small.customers; c++) {
                struct book_order_request q = order_of(w, d, c, &one, 1);
                struct book_order_answer a;
                memcpy(saved_last, last, sizeof last);
                a = book_order(&book, &q);
                saved_last[book_last_at(&small, w, d, c)] = (int64_t)a.order;
                see(a.refusal == BOOK_COMMITTED && a.order == c && memcmp(saved_last, last, sizeof last) == 0, "the place of a customer's last order");
            }
}

/* In a district with two orders, of customers 3 and 2: any customer's number from 0 to 2 is accepted, no other, and the one asked for is shown. */
static void last_range(void)
{
    const int64_t tries[6] = {0, 2, -1, 3, INT64_MIN, INT64_MAX};
    const struct book_sizes *s = &small;
    for (int k = 0; k < 6; k++)
        for (uint64_t c = 1; c <= s->customers; c++) {
            struct book book = fresh();
            struct book_order_request first = order_of(1, 4, 3, &one, 1);
            uint64_t refusal = k < 2 ? BOOK_COMMITTED : BOOK_BAD_LAST;
            struct book_status_request q;
            memset(&q, 0, sizeof q);
            q.warehouse = 1, q.district = 4, q.who = book_by_number(c);
            see(book_order(&book, &first).refusal == BOOK_COMMITTED && orders(&book) == BOOK_COMMITTED, "two orders");
            last[book_last_at(s, 1, 4, c)] = tries[k];
            see(asks_status(&book) == refusal, "a last order's range, for a status");
            if (k < 2) see(book_status(&book, &q).order == (uint64_t)tries[k], "the order that is named");
            memcpy(saved_last, last, sizeof last);
            see(orders(&book) == refusal, "a last order's range, for an order");
            if (k < 2) saved_last[book_last_at(s, 1, 4, 2)] = 3;
            see(memcmp(saved_last, last, sizeof last) == 0, "what an order leaves of the last orders");
        }
    {
        struct book book = fresh();
        last[book_last_at(s, 1, 5, 1)] = -1, last[book_last_at(s, 2, 4, 1)] = 1;
        see(asks_status(&book) == BOOK_COMMITTED && orders(&book) == BOOK_COMMITTED, "last orders of other districts");
    }
}

/* ---- The notes ---- */

/* A customer whose credit is set so pays at warehouse 2, district 5. */
static struct book_pay_answer pays_with(struct book *book, uint64_t w, uint64_t d, uint64_t c, int64_t credit)
{
    struct book_pay_request q;
    memset(&q, 0, sizeof q);
    nums[book_customer_at(&small, w, d, c) + BOOK_CUSTOMER_CREDIT] = credit;
    q.warehouse = 2, q.district = 5, q.custwarehouse = w, q.custdistrict = d, q.who = book_by_number(c), q.date = 300, q.amount = 700;
    return book_pay(book, &q);
}

/* The length that Payment accepts is book_note_bytes, with either credit; the other calls take any. */
static void notes_length(void)
{
    static uint8_t longer[sizeof notes + 1], saved_longer[sizeof notes + 1];
    size_t right = book_note_bytes(&small), lengths[6] = {right, right - 1, right + 1, right - BOOK_NOTE_WIDTH, right / BOOK_DISTRICTS, 0};
    memset(saved_longer, 'x', sizeof longer);
    for (int k = 0; k < 6; k++) {
        struct book book = fresh();
        uint64_t refusal = k == 0 ? BOOK_COMMITTED : BOOK_BAD_NOTES;
        memset(longer, 'x', sizeof longer);
        book.notes = lengths[k] == 0 ? NULL : longer, book.notes_len = lengths[k];
        see(book_open(&book).refusal == BOOK_COMMITTED, "opening does not take the notes");
        see(pays_with(&book, 1, 4, 3, 0).refusal == refusal && memcmp(longer, saved_longer, sizeof longer) == 0, "the notes' length with good credit");
        see(pays_with(&book, 1, 4, 2, 1).refusal == refusal && pays_with(&book, 1, 4, 2, 1).detail == 0, "the notes' length with bad credit");
        see((memcmp(longer, saved_longer, sizeof longer) == 0) == (k != 0), "a refused payment leaves the notes");
        see(orders(&book) == BOOK_COMMITTED && delivers(&book) == BOOK_COMMITTED && asks_status(&book) == BOOK_COMMITTED && asks_level(&book) == BOOK_COMMITTED,
            "calls that do not take the notes");
    }
    {
        struct book book = book_lent(nums, book_numbers(&small), names, book_name_bytes(&small));
        fresh();
        see(book.notes == NULL && book.notes_len == 0 && pays(&book) == BOOK_BAD_NOTES, "book_lent lends none");
    }
}

/* Committed, a payment with bad credit puts its note at the customer's place, and nothing else; one with good credit puts none. */
static void notes_places(void)
{
    struct book book = fresh();
    uint64_t w, d, c;
    for (w = 1; w <= small.warehouses; w++)
        for (d = 1; d <= BOOK_DISTRICTS; d++)
            for (c = 1; c <= small.customers; c++) {
                char note[64];
                int length = snprintf(note, sizeof note, "%d %d %d 5 2 700;", (int)c, (int)d, (int)w);
                struct book_pay_answer a;
                memcpy(saved_notes, notes, sizeof notes);
                memcpy(saved_notes + book_note_at(&small, w, d, c), note, (size_t)length);
                nums[BOOK_HEAD_HISTORY_COUNT] = 0;
                a = pays_with(&book, w, d, c, 1);
                see(a.refusal == BOOK_COMMITTED && a.customer == c && memcmp(saved_notes, notes, sizeof notes) == 0, "the place of a customer's note");
                a = pays_with(&book, w, d, c, 0);
                see(a.refusal == BOOK_COMMITTED && memcmp(saved_notes, notes, sizeof notes) == 0, "no note with good credit");
            }
}

/* Texts of any bytes: one moves right by the note's length and loses its end, the others stay; a refused payment leaves all. */
static void notes_moved(void)
{
    struct book book = fresh();
    const char *note = "2 4 1 5 2 700;";
    size_t at = book_note_at(&small, 1, 4, 2), length = strlen(note);
    for (size_t k = 0; k < sizeof notes; k++) notes[k] = (uint8_t)below(256);
    memcpy(saved_notes, notes, sizeof notes);
    for (int k = 0; k < 3; k++) {
        memmove(saved_notes + at + length, saved_notes + at, BOOK_NOTE_WIDTH - length);
        memcpy(saved_notes + at, note, length);
        see(pays_with(&book, 1, 4, 2, 1).refusal == BOOK_COMMITTED && memcmp(saved_notes, notes, sizeof notes) == 0, "a note at the left");
    }
    see(pays_with(&book, 1, 4, 2, BOOK_MAX_CREDIT + 1).refusal == BOOK_BAD_ROW, "no such credit");
    nums[BOOK_HEAD_HISTORY_COUNT] = (int64_t)small.histories;
    see(pays_with(&book, 1, 4, 2, 1).refusal == BOOK_NO_ROOM, "no room for a payment");
    see(memcmp(saved_notes, notes, sizeof notes) == 0, "a refused payment puts no note");
}

/* ---- The top-up table ---- */

/* Opening and New-Order accept the length book_topup_numbers; the other calls take any. */
static void topup_length(void)
{
    static int64_t longer[sizeof topup / sizeof *topup + 2];
    size_t right = book_topup_numbers(&small), lengths[6] = {right, right - 1, right + 1, right - 2, right + 2, 0};
    for (size_t k = 0; k < right + 2; k++) longer[k] = k % 2 == BOOK_TOPUP_LIFT ? BOOK_USUAL_LIFT : BOOK_USUAL_MARGIN;
    see(memcmp(longer, topup, sizeof topup) == 0, "the usual table");
    for (int k = 0; k < 6; k++) {
        struct book book = fresh();
        uint64_t refusal = k == 0 ? BOOK_COMMITTED : BOOK_BAD_TOPUP;
        book.topup = lengths[k] == 0 ? NULL : longer, book.topup_len = lengths[k];
        see(book_open(&book).refusal == refusal && book_open(&book).detail == 0, "the table's length at opening");
        memcpy(saved, nums, sizeof nums), memcpy(saved_last, last, sizeof last);
        see(orders(&book) == refusal, "the table's length for an order");
        see((memcmp(saved, nums, sizeof nums) == 0 && memcmp(saved_last, last, sizeof last) == 0) == (k != 0), "a refused order changes nothing");
        see(pays(&book) == BOOK_COMMITTED && delivers(&book) == BOOK_COMMITTED && asks_status(&book) == BOOK_COMMITTED && asks_level(&book) == BOOK_COMMITTED,
            "calls that do not take the table");
    }
    {
        struct book book = book_lent(nums, book_numbers(&small), names, book_name_bytes(&small));
        fresh();
        book.last = last, book.last_len = book_last_numbers(&small);
        see(book.topup == NULL && book.topup_len == 0 && book_open(&book).refusal == BOOK_BAD_TOPUP && orders(&book) == BOOK_BAD_TOPUP, "book_lent lends none");
    }
}

/* A row of any item is accepted, at opening and for an order of item 1, just where the ranges say so; the table is left as it is. */
static void topup_rows(void)
{
    const int64_t margins[9] = {0, 1, BOOK_USUAL_MARGIN, BOOK_MAX_MARGIN - 1, BOOK_MAX_MARGIN, BOOK_MAX_MARGIN + 1, -1, INT64_MIN, INT64_MAX};
    const int64_t lifts[10] = {BOOK_MIN_LIFT - 1, BOOK_MIN_LIFT, BOOK_MIN_LIFT + 1, BOOK_MAX_LIFT - 1, BOOK_MAX_LIFT, BOOK_MAX_LIFT + 1, 0, -1, INT64_MIN,
                               INT64_MAX};
    for (uint64_t i = 1; i <= small.items; i++)
        for (int k = 0; k < 90; k++) {
            struct book book = fresh();
            int64_t margin = margins[k % 9], lift = lifts[k / 9];
            bool ok = 0 <= margin && margin <= BOOK_MAX_MARGIN && BOOK_MIN_LIFT <= lift && lift <= BOOK_MAX_LIFT &&
                      margin + lift <= BOOK_MAX_MARGIN_AND_LIFT;
            topup[book_topup_at(&small, i) + BOOK_TOPUP_MARGIN] = margin, topup[book_topup_at(&small, i) + BOOK_TOPUP_LIFT] = lift;
            memcpy(saved_topup, topup, sizeof topup);
            see(book_open(&book).refusal == (ok ? BOOK_COMMITTED : BOOK_BAD_TOPUP), "a row at opening");
            see(orders(&book) == (ok ? BOOK_COMMITTED : BOOK_BAD_TOPUP), "a row for an order");
            see(memcmp(saved_topup, topup, sizeof topup) == 0, "the table is left");
        }
}

/* Lines in turn, each by its item's own row: what is on hand, and how many lifted. */
static void topup_lifts(void)
{
    const struct book_sizes *s = &small;
    struct book book = fresh();
    struct book_line lines[5] = {{1, 1, 10}, {1, 1, 1}, {2, 1, 5}, {2, 2, 6}, {1, 1, 10}};
    struct book_order_request q = order_of(1, 4, 3, lines, 5);
    struct book_order_answer a;
    topup[book_topup_at(s, 1) + BOOK_TOPUP_MARGIN] = 40, topup[book_topup_at(s, 1) + BOOK_TOPUP_LIFT] = 10;
    topup[book_topup_at(s, 2) + BOOK_TOPUP_MARGIN] = 45, topup[book_topup_at(s, 2) + BOOK_TOPUP_LIFT] = 500;
    a = book_order(&book, &q);
    see(a.refusal == BOOK_COMMITTED && a.order == 1 && a.lifts == 3, "how many lines lifted");
    see(at(book_stock_at(s, 1, 1), BOOK_STOCK_ON_HAND) == 49, "40 is kept, 39 and 10, 39 and 10");
    see(at(book_stock_at(s, 1, 2), BOOK_STOCK_ON_HAND) == 45 && at(book_stock_at(s, 2, 2), BOOK_STOCK_ON_HAND) == 544, "45 is kept, 44 and 500");
    q.lines_len = 1, topup[book_topup_at(s, 1) + BOOK_TOPUP_MARGIN] = 39;
    see(book_order(&book, &q).lifts == 0 && at(book_stock_at(s, 1, 1), BOOK_STOCK_ON_HAND) == 39, "a table that is changed");
}

/* 17 behind 2, 3, 9 and 13, before 11 and 12; the flat function's array is 0 behind the number. */
static void topup_order(void)
{
    struct book book = fresh();
    struct book_line none = {5, 1, 1};
    struct book_order_request no_item = order_of(1, 4, 2, &none, 1);
    uint64_t out[5];
    topup[book_topup_at(&small, 4) + BOOK_TOPUP_LIFT] = BOOK_MAX_LIFT + 1;
    memset(out, 0x5a, sizeof out);
    book_new_order(nums, book.nums_len, names, book.names_len, last, book.last_len, topup, book.topup_len, 1, 4, 2, 100, &one, 1, out);
    see(out[0] == BOOK_BAD_TOPUP && out[1] == 0 && out[2] == 0 && out[3] == 0 && out[4] == 0, "an order's array where it is refused");
    see(book_order(&book, &no_item).refusal == BOOK_BAD_TOPUP && book_order(&book, &no_item).detail == 0, "17 before 12");
    nums[book_district_at(&small, 1, 4) + BOOK_DISTRICT_NEXT_ORDER] = (int64_t)small.orders + 1;
    see(orders(&book) == BOOK_BAD_TOPUP, "17 before 11");
    see(book_open(&book).refusal == BOOK_NOT_NEW, "3 before 17");
    last[book_last_at(&small, 1, 4, 1)] = -1;
    see(orders(&book) == BOOK_BAD_LAST, "13 before 17");
    nums[book_stock_at(&small, 1, 1) + BOOK_STOCK_ON_HAND] = BOOK_MAX_ON_HAND + 1;
    see(orders(&book) == BOOK_BAD_ROW, "9 before 17");
    book.names_len--;
    see(orders(&book) == BOOK_BAD_HEAD && book_open(&book).refusal == BOOK_BAD_HEAD, "2 before 17");
}

/* ---- Deliveries that wait ---- */

static struct book_deliver_request deliver_of(uint64_t w, uint64_t carrier, uint64_t date)
{
    struct book_deliver_request q;
    memset(&q, 0, sizeof q);
    q.warehouse = w, q.carrier = carrier, q.date = date;
    return q;
}

/* A list of this count whose places all hold something. */
static struct book_queue queue_of(uint64_t count)
{
    struct book_queue queue;
    queue.count = count;
    for (uint64_t k = 0; k < BOOK_WAITING_PLACES; k++)
        queue.waiting[k].date = 100 + k, queue.waiting[k].warehouse = 1 + k % 2, queue.waiting[k].carrier = 1 + k % 10;
    return queue;
}

static bool same_queue(const struct book_queue *a, const struct book_queue *b) { return memcmp(a, b, sizeof *a) == 0; }

/* Into a list that is all 0: sixteen go, each behind those before it and as it is given; a seventeenth does not. */
static void queued(void)
{
    struct book_queue queue, saved_queue;
    uint64_t numbers[49], expected[49] = {0}, k;
    memset(&queue, 0, sizeof queue);
    see(sizeof queue == sizeof numbers, "the list has 49 numbers");
    for (k = 0; k < BOOK_WAITING_PLACES; k++) {
        struct book_deliver_request q = deliver_of(UINT64_MAX - k, 77 * k, k == 0 ? BOOK_MIN_DATE : k == 1 ? (uint64_t)BOOK_MAX_DATE : 100 - k);
        struct book_later_answer a = book_deliver_later(&queue, &q);
        see(a.refusal == BOOK_COMMITTED && a.detail == 0 && a.before == k, "how many stood before it");
        expected[0] = k + 1, expected[3 * k + 1] = q.date, expected[3 * k + 2] = q.warehouse, expected[3 * k + 3] = q.carrier;
        memcpy(numbers, &queue, sizeof queue);
        see(memcmp(numbers, expected, sizeof numbers) == 0, "a request as it is given");
    }
    for (k = 0; k < 4; k++) {
        const uint64_t counts[4] = {16, 17, UINT64_MAX, 15}, dates[4] = {1, 0, BOOK_MAX_DATE + 1, UINT64_MAX};
        for (int j = 0; j < 4; j++) {
            struct book_deliver_request q = deliver_of(1, 1, dates[j]);
            uint64_t refusal = counts[k] >= 16 ? BOOK_QUEUE_FULL : dates[j] == 1 ? BOOK_COMMITTED : BOOK_BAD_DATE, out[3] = {77, 77, 77};
            queue = saved_queue = queue_of(counts[k]);
            book_queue_delivery(&queue, q.warehouse, q.carrier, q.date, out);
            see(out[0] == refusal && out[1] == 0 && out[2] == (refusal == BOOK_COMMITTED ? 15 : 0), "15 before 7");
            see(same_queue(&queue, &saved_queue) == (refusal != BOOK_COMMITTED), "a refused queuing changes nothing");
        }
    }
}

/* Three orders wait in district 4 of warehouse 1. */
static struct book with_orders(void)
{
    struct book book = fresh();
    for (int k = 0; k < 3; k++) see(orders(&book) == BOOK_COMMITTED, "an order to be delivered");
    return book;
}

static bool same_answer(const struct book_deliver_answer *a, const struct book_deliver_answer *b)
{
    return a->refusal == b->refusal && a->detail == b->detail && a->skipped == b->skipped && a->mark == b->mark &&
           memcmp(a->orders, b->orders, sizeof a->orders) == 0;
}

/* The line that a run of this request has to write; its length. */
static size_t line_of(char *line, size_t room, const struct book_waiting *w, uint64_t date, const struct book_deliver_answer *a)
{
    size_t n = (size_t)snprintf(line, room, "%llu\t%llu\t%llu\t%llu\t%llu", (unsigned long long)w->date, (unsigned long long)w->warehouse,
                                (unsigned long long)w->carrier, (unsigned long long)date,
                                (unsigned long long)(a->refusal == BOOK_COMMITTED ? a->skipped : a->refusal));
    for (int d = 0; d < 10 && a->refusal == BOOK_COMMITTED; d++) n += (size_t)snprintf(line + n, room - n, "\t%llu", (unsigned long long)a->orders[d]);
    return n + (size_t)snprintf(line + n, room - n, "\n");
}

/* One run beside book_deliver on a copy of the book: the same answer and book, the request off the list, its line in the buffer, whose rest stays. */
static void ran(struct book *book, struct book_queue *queue, uint64_t date, size_t room)
{
    static uint8_t buffer[600], expected[600];
    static int64_t after[sizeof nums / sizeof *nums];
    char line[BOOK_RESULT_BYTES];
    struct book_waiting oldest = queue->waiting[0];
    struct book_deliver_request q = deliver_of(oldest.warehouse, oldest.carrier, date);
    struct book_deliver_answer plain, a;
    struct book_queue left = *queue;
    size_t length;
    memcpy(saved, nums, sizeof nums);
    plain = book_deliver(book, &q);
    memcpy(after, nums, sizeof nums), memcpy(nums, saved, sizeof nums);
    for (size_t k = 0; k < sizeof buffer; k++) buffer[k] = expected[k] = (uint8_t)below(256);
    a = book_deliver_next(book, queue, date, buffer, room);
    length = line_of(line, sizeof line, &oldest, date, &plain);
    memcpy(expected, line, length);
    memmove(left.waiting, left.waiting + 1, sizeof *left.waiting * (size_t)(left.count - 1));
    memset(&left.waiting[left.count - 1], 0, sizeof *left.waiting), left.count--;
    see(same_answer(&a, &plain) && memcmp(nums, after, sizeof nums) == 0, "a run does what its Delivery does");
    see(memcmp(buffer, expected, sizeof buffer) == 0, "a run's line, and the rest of the buffer");
    see(same_queue(queue, &left), "what a run leaves of the list");
}

/* Runs that are committed and refused, from lists of every count; a request that was queued behind j others is run by number j + 1. */
static void runs(void)
{
    struct book book;
    struct book_queue queue;
    for (uint64_t count = 1; count <= BOOK_WAITING_PLACES; count++) {
        book = with_orders(), queue = queue_of(count);
        for (uint64_t k = 0; k < count; k++) {
            see(queue.waiting[0].date == 100 + k, "the oldest first");
            ran(&book, &queue, k == 7 ? 0 : 300 + k, k % 2 ? 600 : BOOK_RESULT_BYTES);
        }
    }
    book = with_orders(), queue = queue_of(4);
    queue.waiting[0].warehouse = UINT64_MAX, queue.waiting[1].carrier = 11, queue.waiting[2].date = UINT64_MAX;
    for (int k = 0; k < 4; k++) ran(&book, &queue, k == 3 ? BOOK_MAX_DATE + 1 : BOOK_MAX_DATE, BOOK_RESULT_BYTES);
    queue = queue_of(2);
    nums[book_customer_at(&small, 1, 9, 2) + BOOK_CUSTOMER_BALANCE] = BOOK_MAX_MONEY + 1;
    ran(&book, &queue, 300, BOOK_RESULT_BYTES);
    book.names_len--;
    ran(&book, &queue, 300, BOOK_RESULT_BYTES);
}

/* Refused by 16, before all else, a run changes nothing and its arrays are 0 behind the number. */
static void not_run(void)
{
    static uint8_t buffer[BOOK_RESULT_BYTES], kept[BOOK_RESULT_BYTES];
    const uint64_t counts[6] = {0, 17, UINT64_MAX, UINT64_C(1) << 32, 1, 16};
    memset(buffer, 0xee, sizeof buffer), memset(kept, 0xee, sizeof kept);
    for (int k = 0; k < 6; k++)
        for (int j = 0; j < 3; j++) {
            struct book book = with_orders();
            struct book_queue queue = queue_of(counts[k]), saved_queue = queue;
            size_t room = k < 4 ? sizeof buffer : j == 0 ? 0 : sizeof buffer - (size_t)j;
            uint64_t out[4], delivered[10], none[10] = {0};
            memset(out, 0x5a, sizeof out), memset(delivered, 0x5a, sizeof delivered);
            memcpy(saved, nums, sizeof nums);
            if (j == 1) book.nums_len--;
            book_run_delivery(book.nums, book.nums_len, book.names, book.names_len, &queue, j == 2 ? 0 : 300, room == 0 ? NULL : buffer, room, out,
                              delivered);
            see(out[0] == BOOK_NOT_RUN && out[1] == 0 && out[2] == 0 && out[3] == 0 && memcmp(delivered, none, sizeof none) == 0, "16 before all others");
            see(same_queue(&queue, &saved_queue) && memcmp(buffer, kept, sizeof kept) == 0 && memcmp(nums, saved, sizeof nums) == 0,
                "a run refused by 16 changes nothing");
            see(book_deliver_next(&book, &queue, 300, buffer, room).refusal == BOOK_NOT_RUN, "16 by the inline function");
        }
}

/* ---- Refusals by name, and that they leave the book; NULL with length 0 ---- */

static void refused(void)
{
    struct book book = fresh(), empty, unsaid;
    struct book_line none = {5, 1, 1};
    struct book_order_request q = order_of(3, 1, 1, &one, 1), null_lines = order_of(1, 1, 1, NULL, 0), no_item = order_of(1, 1, 1, &none, 1);
    struct book_pay_request pay;
    struct book_status_request ask;
    struct book_deliver_request deliver;
    memset(&empty, 0, sizeof empty), memset(&pay, 0, sizeof pay), memset(&ask, 0, sizeof ask), memset(&deliver, 0, sizeof deliver);
    deliver.carrier = deliver.date = 1;
    memcpy(saved, nums, sizeof nums);
    see(book_order(&book, &q).refusal == BOOK_NO_WAREHOUSE && book_order(&book, &q).detail == 0, "no warehouse");
    q = order_of(1, 11, 1, &one, 1);
    see(book_order(&book, &q).refusal == BOOK_NO_DISTRICT, "no district");
    q = order_of(1, 1, 4, &one, 1);
    see(book_order(&book, &q).refusal == BOOK_NO_CUSTOMER, "no customer");
    see(book_order(&book, &no_item).refusal == BOOK_NO_ITEM && book_order(&book, &no_item).detail == 1, "no item");
    see(book_order(&book, &null_lines).refusal == BOOK_BAD_VALUE && book_order(&book, &null_lines).detail == 0, "NULL for no lines");
    ask.warehouse = ask.district = 1, ask.who.named = true;
    see(book_status(&book, &ask).refusal == BOOK_NOBODY, "NULL for an empty name");
    pay.warehouse = pay.district = pay.custwarehouse = pay.custdistrict = 1, pay.who = book_by_name("NOBODY"), pay.date = 1, pay.amount = 100;
    see(book_pay(&book, &pay).refusal == BOOK_NOBODY && book_pay(&book, &pay).detail == 0, "nobody");
    see(book_deliver(&book, &deliver).refusal == BOOK_NO_WAREHOUSE && book_deliver(&book, &deliver).detail == 0, "no warehouse to deliver");
    see(book_open(&empty).refusal == BOOK_BAD_HEAD && book_order(&empty, &q).refusal == BOOK_BAD_HEAD && book_pay(&empty, &pay).refusal == BOOK_BAD_HEAD &&
            book_status(&empty, &ask).refusal == BOOK_BAD_HEAD,
        "NULL for a book");
    unsaid = book_lent(nums, book_numbers(&small), names, book_name_bytes(&small));
    q = order_of(1, 1, 1, &one, 1), ask.who = book_by_number(1);
    see(book_order(&unsaid, &q).refusal == BOOK_BAD_LAST && book_status(&unsaid, &ask).refusal == BOOK_BAD_LAST, "NULL for the last orders");
    see(book_order(&unsaid, &no_item).refusal == BOOK_BAD_LAST && book_order(&unsaid, &no_item).detail == 0, "13 before 12");
    see(book_pay(&unsaid, &pay).refusal == BOOK_BAD_NOTES && book_pay(&unsaid, &pay).detail == 0, "NULL for the notes, 14 before 10");
    pay.warehouse = 3;
    see(book_pay(&unsaid, &pay).refusal == BOOK_BAD_NOTES && book_pay(&book, &pay).refusal == BOOK_NO_WAREHOUSE, "14 before 4");
    see(memcmp(saved, nums, sizeof nums) == 0, "a refused call changes nothing");
    nums[book_customer_at(&small, 1, 1, 1) + BOOK_CUSTOMER_BALANCE] = BOOK_MAX_MONEY + 1;
    q = order_of(1, 1, 1, &one, 1);
    see(book_order(&book, &q).refusal == BOOK_BAD_ROW, "a damaged row");
    book = fresh();
    for (int k = 0; k < 5; k++) see(book_order(&book, &q).refusal == BOOK_COMMITTED, "five orders");
    see(book_order(&book, &q).refusal == BOOK_NO_ROOM, "no slot");
    last[book_last_at(&small, 1, 1, 2)] = 6;
    see(book_order(&book, &q).refusal == BOOK_BAD_LAST, "13 before 11");
}

/* ---- Request lines ---- */

static bool reads(const char *text, struct book_request *r) { return book_read((const uint8_t *)text, strlen(text), r).refusal == BOOK_COMMITTED; }

static bool wrote(const uint8_t *buffer, struct book_write_answer a, const char *text)
{
    return a.refusal == BOOK_COMMITTED && a.length == strlen(text) && memcmp(buffer, text, strlen(text)) == 0 && buffer[a.length] == 0xee;
}

static void lines(void)
{
    struct book_request r;
    struct book_line many[16];
    struct book_order_request q;
    uint8_t buffer[600];
    const char *n = "N\t1\t2\t3\t100\t1\t1\t10\t4\t2\t3\n", *p = "P\t2\t5\t1\t4\t=BERG\t300\t700\n", *d = "D\t1\t7\t200\n", *st = "S\t1\t2\t#3\n", *l = "L\t1\t2\t20\n";
    memset(buffer, 0xee, sizeof buffer);
    see(reads(n, &r) && r.letter == 'N' && r.order.customer == 3 && r.order.lines_len == 2 && r.order.lines[1].item == 4 && r.order.lines[1].supply == 2 &&
            r.order.lines[1].quantity == 3 && r.lines[2].item == 0 && wrote(buffer, book_write_order(buffer, sizeof buffer, &r.order), n),
        "an order's line");
    memset(buffer, 0xee, sizeof buffer);
    see(reads(p, &r) && r.letter == 'P' && r.pay.custdistrict == 4 && r.pay.who.named && r.pay.who.name_len == 4 && memcmp(r.pay.who.name, "BERG", 4) == 0 &&
            r.pay.date == 300 && r.pay.amount == 700 && wrote(buffer, book_write_pay(buffer, sizeof buffer, &r.pay), p),
        "a payment's line");
    see(reads("P\t2\t5\t1\t4\t#3\t300\t700\n", &r) && !r.pay.who.named && r.pay.who.number == 3 && r.pay.amount == 700, "a payment by number");
    memset(buffer, 0xee, sizeof buffer);
    see(reads(d, &r) && r.letter == 'D' && r.deliver.carrier == 7 && r.deliver.date == 200 && wrote(buffer, book_write_deliver(buffer, sizeof buffer, &r.deliver), d),
        "a delivery's line");
    memset(buffer, 0xee, sizeof buffer);
    see(reads(st, &r) && r.letter == 'S' && r.status.district == 2 && !r.status.who.named && r.status.who.number == 3 &&
            wrote(buffer, book_write_status(buffer, sizeof buffer, &r.status), st),
        "a status's line");
    memset(buffer, 0xee, sizeof buffer);
    see(reads(l, &r) && r.letter == 'L' && r.level.threshold == 20 && wrote(buffer, book_write_level(buffer, sizeof buffer, &r.level), l), "a level's line");
    see(!reads("D\t1\t7\t200", &r) && r.letter == 0 && !reads("", &r) && book_read(NULL, 0, &r).refusal == BOOK_NO_FORM &&
            book_read(NULL, 0, &r).detail == 0,
        "lines without a form");
    for (int k = 0; k < 16; k++) many[k].item = many[k].supply = many[k].quantity = UINT64_C(9999999999);
    memset(buffer, 0xee, sizeof buffer);
    q = order_of(UINT64_C(9999999999), UINT64_C(9999999999), UINT64_C(9999999999), many, 15), q.date = UINT64_C(9999999999);
    see(book_write_order(buffer, 541, &q).length == 541, "the longest line");
    memset(buffer, 0xee, sizeof buffer);
    see(book_write_order(buffer, 540, &q).refusal == BOOK_NO_FORM && book_write_order(buffer, 540, &q).detail == 0 && buffer[0] == 0xee, "a buffer one short");
    q.lines_len = 16;
    see(book_write_order(buffer, sizeof buffer, &q).refusal == BOOK_NO_FORM && buffer[0] == 0xee, "an order of 16 lines");
    q.lines = NULL, q.lines_len = 0;
    see(book_write_order(buffer, sizeof buffer, &q).refusal == BOOK_NO_FORM && book_write_order(NULL, 0, &q).refusal == BOOK_NO_FORM, "an order without lines");
}

int main(void)
{
    see(book_version() == BOOK_VERSION, "version");
    see(book_numbers(&small) == sizeof nums / sizeof *nums && book_name_bytes(&small) == sizeof names &&
            book_last_numbers(&small) == sizeof last / sizeof *last && book_note_bytes(&small) == sizeof notes &&
            book_topup_numbers(&small) == sizeof topup / sizeof *topup,
        "the small book's room");
    for (int k = 0; k < 200000; k++) layout();
    masters(), ranges(), story(), in_use(), last_length(), last_places(), last_range(), notes_length(), notes_places(), notes_moved();
    topup_length(), topup_rows(), topup_lifts(), topup_order(), queued(), runs(), not_run(), refused(), lines();
    printf("header: %lu facts, %lu wrong\n", tried, wrong);
    return wrong != 0;
}
