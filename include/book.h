/* The order book for feed cooperatives: the proved library's calls, from C (C99 or newer) and C++ (C++11 or newer).

   A book is two slices that the caller owns and lends to each call: numbers (int64_t) and name bytes. Beside them stand three more. The last order
   of each customer (int64_t), all 0 with a new book: New-Order writes it, Order-Status reads it, no other call takes it. The notes, a text of 500
   bytes for each customer, all spaces with a new book: Payment writes it, no other call takes it. The top-up table (int64_t), a margin and a lift
   for each item, TPC-C's being 10 and 91: opening and New-Order read it, no call writes it, and the caller may change it between calls.
   include/book_layout.h says how long the slices are for given sizes, where each row starts, and what every number may hold. A call judges the
   slices that it takes, whatever they hold. It is committed, carried out whole; or refused by a number, and then changes no number and no byte of
   them.

   Deliveries may wait their turn in a struct book_queue that the caller owns and lends as well, all 0 when it is new: queuing puts a request behind
   those that wait, a run takes the oldest, carries it out and writes a line about it to a lent buffer; no other call takes either. Here alone a
   refused call may change something: a run whose Delivery is refused leaves the book as it was, but the request has left the list and its line is
   written. Refused by 16, which is no refusal of the Delivery, a run changes nothing at all.

   Two layers. A `struct book` with a request struct goes to a small inline function, and a struct with named fields comes back:

       struct book_pay_answer paid = book_pay(&book, &request);
       if (paid.refusal != BOOK_COMMITTED) ...

   Make the book by book_lent, then set its last orders, notes and top-up table by name; set a request to 0 by memset, then its fields by name: a
   later version may add fields, and a caller written so still compiles. Beneath are the flat functions that the library exports; their parameters
   may change with BOOK_VERSION.

   Memory.
   - NULL goes with length 0, for every slice: an empty book is refused by 2, an order without lines by 8, an empty last name by 10, New-Order
     and Order-Status without the last orders by 13, Payment without the notes by 14, a run without a buffer by 16, opening and New-Order without
     the top-up table by 17. Everything else that is handed over by a pointer is not NULL; an array that a flat function fills has the length that
     its type says.
   - Slices that are only read may overlap. What a call writes (numbers, last orders in New-Order, notes in Payment, a waiting list, a buffer,
     what comes out) must not overlap with anything else lent to that call.
   - The library keeps nothing between calls, has no global state, allocates nothing and writes no file.
   - Threads: one writer a book, its last orders and notes included. While book_order, book_pay, book_deliver or book_deliver_next runs on a
     book, no other call may run on it; the calls that only read may run side by side. Different books do not know of each other; one top-up table
     may be lent with several at once, as long as nobody changes it. One call at a time on a waiting list: book_deliver_later takes no book and
     may run beside calls on any, but not beside another call on the same list.
   - A crash inside a call (the process killed, the power gone) can leave a half-written book, or last orders or notes that do not go with it,
     where their memory outlives the process, as in a mapped file: the stores of a call are not one step of the machine. A waiting list can be
     half-written too, or have lost a request that was not carried out, or still have one that was. Keep a copy of the slices and the waiting
     list, or the list of requests with the top-up table that each order was lent, from before the call. */
#ifndef BOOK_H
#define BOOK_H

#include <stdbool.h>
#include <stddef.h>
#include <stdint.h>
#include <string.h>

/* The version of this header, and what book_version() of the library answers: it rises whenever a function, a struct or a refusal here changes.
   Where the shared library is loaded, refuse to start unless book_version() == BOOK_VERSION; its soname has the number as well. */
#define BOOK_VERSION 5

/* What a call answers first: 0, or the first number of this list that fits, in the list's order but that New-Order looks at 13 and 17 before 11 and
   12, Payment at 14 straight after 2, queuing at 15 before 7, and a run at 16 before all others. The detail is the place (from 1) of the first
   offending line of an order at 8 and 12, and 0 otherwise, also where the number of lines itself offends. */
enum book_refusal {
    BOOK_COMMITTED = 0,
    BOOK_NO_FORM = 1,      /* a text line has no form; in writing, the request has none or the buffer is shorter than its line */
    BOOK_BAD_HEAD = 2,     /* under 6 numbers, a head number out of range, or a length of numbers or name bytes that the head does not imply */
    BOOK_NOT_NEW = 3,      /* opening alone: a value is out of range, or the book is in use (sound or not) */
    BOOK_NO_WAREHOUSE = 4, /* a warehouse, the terminal's or the paying customer's, is not 1 to W */
    BOOK_NO_DISTRICT = 5,  /* a district, the terminal's or the paying customer's, is not 1 to 10 */
    BOOK_NO_CUSTOMER = 6,  /* a customer number is not 1 to C */
    BOOK_BAD_DATE = 7,     /* a date is not 1 to 6,342,969,600 */
    BOOK_BAD_VALUE = 8,    /* amount, carrier, threshold, number of lines, supplying warehouse or quantity out of range */
    BOOK_BAD_ROW = 9,      /* a row or name that the call uses holds a value out of range: the book is damaged */
    BOOK_NOBODY = 10,      /* nobody in the district has the last name */
    BOOK_NO_ROOM = 11,     /* New-Order: no order slot is left in the district; Payment: no history slot is left */
    BOOK_NO_ITEM = 12,     /* a line's item is not 1 to I, or its price is 0 */
    BOOK_BAD_LAST = 13,    /* New-Order, Order-Status: the last orders' length is not 10 * W * C, a number of the call's district is not 0 to next
                              order number - 1, or (Order-Status) the order to be shown holds a value out of range */
    BOOK_BAD_NOTES = 14,   /* Payment: the notes' length is not 5,000 * W * C; their bytes are not judged */
    BOOK_QUEUE_FULL = 15,  /* queuing: 16 Deliveries wait, or the waiting list counts more than that */
    BOOK_NOT_RUN = 16,     /* a run: no Delivery waits, the waiting list counts more than 16, or the buffer has fewer than 400 bytes; nothing was
                              taken off the list */
    BOOK_BAD_TOPUP = 17    /* opening, New-Order: the top-up table has not 2 * I numbers, or any row of it, also of an item that the order does not
                              name, has a margin that is not 0 to 9,990, a lift that is not 10 to 9,999, or both together above 10,000 */
};

/* All that is lent but a waiting list: the numbers, the name bytes, the last orders, the notes and the top-up table, each with its length. */
struct book {
    int64_t *nums;
    size_t nums_len;
    const uint8_t *names;
    size_t names_len;
    int64_t *last; /* by customer its largest order number, 0 for none; book_lent leaves it empty */
    size_t last_len;
    uint8_t *notes; /* by customer a text of 500 bytes; book_lent leaves it empty */
    size_t notes_len;
    const int64_t *topup; /* by item a margin and a lift; book_lent leaves it empty */
    size_t topup_len;
};

/* Who: a customer number, or a last name of 1 to 16 bytes, which is compared after filling it up with spaces. Among namesakes of a district,
   sorted by first name and then number, the middle one is meant (place n/2 rounded up), silently: a number is safer. book_by_number and
   book_by_name make one. */
struct book_who {
    bool named;
    uint64_t number;
    const uint8_t *name;
    size_t name_len;
};

/* One line of an order: the item, the supplying warehouse, the quantity (1 to 10). */
struct book_line {
    uint64_t item;
    uint64_t supply;
    uint64_t quantity;
};

#define BOOK_WAITING_PLACES 16 /* so many Deliveries may wait */
#define BOOK_RESULT_BYTES 400  /* the least room for a run's line, which never fills it */

/* A Delivery that waits: the date of its queuing, then the request. */
struct book_waiting {
    uint64_t date;
    uint64_t warehouse;
    uint64_t carrier;
};

/* The waiting list: how many wait, then the places, the oldest first; a place that a run frees is 0. All 0, as memset makes it, nobody waits. It may
   hold anything: the calls judge its count, and a run the oldest request, as Delivery does; the date of queuing is printed as it stands. */
struct book_queue {
    uint64_t count;
    struct book_waiting waiting[BOOK_WAITING_PLACES];
};

struct book_order_request {
    uint64_t warehouse;
    uint64_t district;
    uint64_t customer;
    uint64_t date;
    const struct book_line *lines; /* 1 to 15 of them */
    size_t lines_len;
};

struct book_pay_request {
    uint64_t warehouse; /* where the money is taken */
    uint64_t district;
    uint64_t custwarehouse; /* where the customer is at home */
    uint64_t custdistrict;
    struct book_who who;
    uint64_t date;
    uint64_t amount; /* cents, 100 to 500,000 */
};

struct book_deliver_request {
    uint64_t warehouse;
    uint64_t carrier; /* 1 to 10 */
    uint64_t date;
};

struct book_status_request {
    uint64_t warehouse;
    uint64_t district;
    struct book_who who;
};

struct book_level_request {
    uint64_t warehouse;
    uint64_t district;
    uint64_t threshold; /* 10 to 20 */
};

/* Answers. Where refusal is not 0, every figure behind detail is 0. */
struct book_open_answer {
    uint64_t refusal;
    uint64_t detail;
};

/* The order's number in its district; the total that is billed, to the nearest cent, an exact half upwards; and how many of its lines lifted, found
   fewer than their item's margin left and added its lift. Neither total nor lifts are kept in the book. */
struct book_order_answer {
    uint64_t refusal;
    uint64_t detail;
    uint64_t order;
    uint64_t total;
    uint64_t lifts;
};

/* The customer who paid, and the balance afterwards, in cents: below 0 where more was paid than delivered. */
struct book_pay_answer {
    uint64_t refusal;
    uint64_t detail;
    uint64_t customer;
    int64_t balance;
};

/* How many districts had nothing to deliver; which: bit d - 1 of mark is district d; and at orders[d - 1] the order delivered in district d,
   0 where it was skipped. */
struct book_deliver_answer {
    uint64_t refusal;
    uint64_t detail;
    uint64_t skipped;
    uint64_t mark;
    uint64_t orders[10];
};

/* How many Deliveries stood before the one that was queued: so many runs come before its own, those refused by 16 not counted. */
struct book_later_answer {
    uint64_t refusal;
    uint64_t detail;
    uint64_t before;
};

/* The customer, the balance, and the customer's last order, the one that the last orders name, whoever its customer is: its number, entry date
   and carrier (0 while it waits). Its lines stand in the book's own numbers: five for each line, from lines on (book_status_line reads one).
   Where the number is 0, there is no order: order, date and carrier are 0, lines is NULL and lines_len 0. The lines are those of the book as it
   is: a later call may change them. */
struct book_status_answer {
    uint64_t refusal;
    uint64_t detail;
    uint64_t customer;
    int64_t balance;
    uint64_t order;
    uint64_t date;
    uint64_t carrier;
    const int64_t *lines;
    size_t lines_len; /* how many lines */
};

/* A line of a status's order; the delivery date is 0 until it is delivered. */
struct book_shown_line {
    int64_t item;
    int64_t supply;
    int64_t quantity;
    int64_t amount; /* quantity times price, cents */
    int64_t delivery_date;
};

struct book_level_answer {
    uint64_t refusal;
    uint64_t detail;
    uint64_t count; /* items of the last 20 orders with less on hand than the threshold */
};

struct book_read_answer {
    uint64_t refusal;
    uint64_t detail;
};

struct book_write_answer {
    uint64_t refusal;
    uint64_t detail;
    uint64_t length; /* bytes, the line's byte 10 counted */
};

/* A request line that was read: the letter says which of the five requests it holds. order.lines and who.name point into this struct. */
struct book_request {
    char letter; /* N, P, D, S or L */
    struct book_order_request order;
    struct book_pay_request pay;
    struct book_deliver_request deliver;
    struct book_status_request status;
    struct book_level_request level;
    struct book_line lines[15];
    uint8_t name[16];
};

#ifdef __cplusplus
extern "C" {
#endif

/* ---- The flat functions. Slices are pointer and length. out[0] is the refusal, out[1] its detail; the figures follow, all 0 where refused.
   The parameters are those of the request structs above. named says whether who is the last name or the number. ---- */

/* The version of the library. */
uint64_t book_version(void);

/* Opening: whether the book is new and in range, and the top-up table as it has to be. It writes nothing. out: refusal, detail. */
void book_opening(const int64_t *nums, size_t nums_len, const uint8_t *names, size_t names_len, const int64_t *topup, size_t topup_len,
                  uint64_t out[2]);

/* New-Order; committed, it makes the order's number the customer's in last. Each line in turn takes its quantity from what is on hand of its item at
   its supplying warehouse; where that leaves fewer than the item's margin in topup, the item's lift is added, once. out: refusal, detail, order,
   total, lifts (how many lines had theirs added). */
void book_new_order(int64_t *nums, size_t nums_len, const uint8_t *names, size_t names_len, int64_t *last, size_t last_len, const int64_t *topup,
                    size_t topup_len, uint64_t warehouse, uint64_t district, uint64_t customer, uint64_t date, const struct book_line *lines,
                    size_t lines_len, uint64_t out[5]);

/* Payment; committed, where the customer's credit is 1 it puts a note at the left of the customer's text in notes. The note is six numbers:
   customer, custdistrict, custwarehouse, district, warehouse, amount, in decimal, a space between two and a semicolon behind the last. The old
   text moves right, and what passes its byte 500 is lost. out: refusal, detail, customer; balance[0]: the balance afterwards. */
void book_payment(int64_t *nums, size_t nums_len, const uint8_t *names, size_t names_len, uint8_t *notes, size_t notes_len, uint64_t warehouse,
                  uint64_t district, uint64_t custwarehouse, uint64_t custdistrict, bool named, uint64_t number, const uint8_t *name,
                  size_t name_len, uint64_t date, uint64_t amount, uint64_t out[3], int64_t balance[1]);

/* Delivery. out: refusal, detail, skip count, mark (bit d - 1 is district d skipped); orders[d - 1]: the order of district d, 0 where skipped. */
void book_delivery(int64_t *nums, size_t nums_len, const uint8_t *names, size_t names_len, uint64_t warehouse, uint64_t carrier,
                   uint64_t date, uint64_t out[4], uint64_t orders[10]);

/* Queues a Delivery: date, warehouse and carrier are put as they are given to the first free place of the list, and its count is one more. The date
   is the day of queuing, 1 to 6,342,969,600; warehouse and carrier are judged by the run alone. Refused by 15 and 7 only. out: refusal, detail, how
   many stood before it. */
void book_queue_delivery(struct book_queue *queue, uint64_t warehouse, uint64_t carrier, uint64_t date, uint64_t out[3]);

/* Runs the oldest Delivery of the list, on the date given, that of the run. Refused by 16 it changes nothing. Otherwise it does to the book what
   book_delivery of this request on this date does, refusals too, and answers the same; and whatever that is, the request leaves the list (the
   others move one place forward, the place that becomes free is 0) and one line is written to the front of the buffer, whose other bytes stay. The
   line: date of queuing, warehouse, carrier, date of the run, then skip count and the ten order numbers or, where the Delivery was refused, the
   number of its refusal alone; decimal, a tab between two, byte 10 at the end. out: refusal, detail, skip count, mark; orders[d - 1]: the order of
   district d, 0 where skipped. */
void book_run_delivery(int64_t *nums, size_t nums_len, const uint8_t *names, size_t names_len, struct book_queue *queue, uint64_t date,
                       uint8_t *buffer, size_t buffer_len, uint64_t out[4], uint64_t orders[10]);

/* Order-Status, with the order that last names. out: refusal, detail, customer, order, date, carrier, then where in nums the order's lines start
   and how many numbers they are, five a line (item, supplying warehouse, quantity, amount, delivery date); 0, 0 where there is none. balance[0]:
   the balance. */
void book_order_status(const int64_t *nums, size_t nums_len, const uint8_t *names, size_t names_len, const int64_t *last, size_t last_len,
                       uint64_t warehouse, uint64_t district, bool named, uint64_t number, const uint8_t *name, size_t name_len,
                       uint64_t out[8], int64_t balance[1]);

/* Stock-Level. out: refusal, detail, count. */
void book_stock_level(const int64_t *nums, size_t nums_len, const uint8_t *names, size_t names_len, uint64_t warehouse, uint64_t district,
                      uint64_t threshold, uint64_t out[3]);

/* A request line read, with its byte 10. out: refusal, detail, the letter N, P, D, S or L, six numbers (the request's but who, in the line's
   order, 0 beyond them), 1 where who is a last name, the customer number, how many lines the order has, how many bytes the name. What is no part
   of the request is 0, in lines and name as well. */
void book_read_line(const uint8_t *line, size_t line_len, uint64_t out[13], struct book_line lines[15], uint8_t name[16]);

/* A request's line written to the front of a buffer, with its byte 10; the bytes behind it are left, and where it is refused all are. The longest
   line has 541 bytes. out: refusal, detail, length. */
void book_write_new_order(uint8_t *buffer, size_t buffer_len, uint64_t warehouse, uint64_t district, uint64_t customer, uint64_t date,
                          const struct book_line *lines, size_t lines_len, uint64_t out[3]);
void book_write_payment(uint8_t *buffer, size_t buffer_len, uint64_t warehouse, uint64_t district, uint64_t custwarehouse,
                        uint64_t custdistrict, bool named, uint64_t number, const uint8_t *name, size_t name_len, uint64_t date,
                        uint64_t amount, uint64_t out[3]);
void book_write_delivery(uint8_t *buffer, size_t buffer_len, uint64_t warehouse, uint64_t carrier, uint64_t date, uint64_t out[3]);
void book_write_order_status(uint8_t *buffer, size_t buffer_len, uint64_t warehouse, uint64_t district, bool named, uint64_t number,
                             const uint8_t *name, size_t name_len, uint64_t out[3]);
void book_write_stock_level(uint8_t *buffer, size_t buffer_len, uint64_t warehouse, uint64_t district, uint64_t threshold, uint64_t out[3]);

/* The layout of a book of five sizes, and the rows of six places in it, each counted from 1; include/book_layout.h has the same as inline
   functions. out: refusal (2 where a size is out of the head's ranges, or a place is not 1 to its size), 0, how many numbers, how many name
   bytes, then where the rows of the warehouse, district, customer, item, stock (of warehouse and item), order slot and history slot start in the
   numbers, and where the customer's name starts in the name bytes. */
void book_places(uint64_t warehouses, uint64_t customers, uint64_t items, uint64_t orders, uint64_t histories, uint64_t warehouse,
                 uint64_t district, uint64_t customer, uint64_t item, uint64_t order, uint64_t history, uint64_t out[12]);

#ifdef __cplusplus
}
#endif

/* ---- The calls on a struct book. ---- */

static inline struct book_who book_by_number(uint64_t customer)
{
    struct book_who who;
    memset(&who, 0, sizeof who);
    who.number = customer;
    return who;
}

/* The name is not NULL and has to stay where it is until the call. */
static inline struct book_who book_by_name(const char *last_name)
{
    struct book_who who;
    memset(&who, 0, sizeof who);
    who.named = true;
    who.name = (const uint8_t *)last_name;
    who.name_len = strlen(last_name);
    return who;
}

/* A date of the book from Unix time (seconds from 1970, as time() gives): date 1 is 1900-01-01 00:00:00. A date has no time zone: use one for
   the whole book. */
static inline uint64_t book_date(int64_t unix_time)
{
    return (uint64_t)unix_time + UINT64_C(2208988801);
}

/* A book of these two slices. The last orders, the notes, the top-up table, and whatever else a later version lends, are empty: set them by name. */
static inline struct book book_lent(int64_t *nums, size_t nums_len, const uint8_t *names, size_t names_len)
{
    struct book book;
    memset(&book, 0, sizeof book);
    book.nums = nums;
    book.nums_len = nums_len;
    book.names = names;
    book.names_len = names_len;
    return book;
}

static inline struct book_open_answer book_open(const struct book *book)
{
    uint64_t out[2];
    struct book_open_answer a;
    book_opening(book->nums, book->nums_len, book->names, book->names_len, book->topup, book->topup_len, out);
    a.refusal = out[0];
    a.detail = out[1];
    return a;
}

static inline struct book_order_answer book_order(struct book *book, const struct book_order_request *q)
{
    uint64_t out[5];
    struct book_order_answer a;
    book_new_order(book->nums, book->nums_len, book->names, book->names_len, book->last, book->last_len, book->topup, book->topup_len,
                   q->warehouse, q->district, q->customer, q->date, q->lines, q->lines_len, out);
    a.refusal = out[0];
    a.detail = out[1];
    a.order = out[2];
    a.total = out[3];
    a.lifts = out[4];
    return a;
}

static inline struct book_pay_answer book_pay(struct book *book, const struct book_pay_request *q)
{
    uint64_t out[3];
    int64_t balance[1];
    struct book_pay_answer a;
    book_payment(book->nums, book->nums_len, book->names, book->names_len, book->notes, book->notes_len, q->warehouse, q->district,
                 q->custwarehouse, q->custdistrict, q->who.named, q->who.number, q->who.name, q->who.name_len, q->date, q->amount, out, balance);
    a.refusal = out[0];
    a.detail = out[1];
    a.customer = out[2];
    a.balance = balance[0];
    return a;
}

static inline struct book_deliver_answer book_deliver(struct book *book, const struct book_deliver_request *q)
{
    uint64_t out[4];
    struct book_deliver_answer a;
    book_delivery(book->nums, book->nums_len, book->names, book->names_len, q->warehouse, q->carrier, q->date, out, a.orders);
    a.refusal = out[0];
    a.detail = out[1];
    a.skipped = out[2];
    a.mark = out[3];
    return a;
}

/* Queues the request on its date; book_deliver_next carries it out in its turn, on a date of its own. */
static inline struct book_later_answer book_deliver_later(struct book_queue *queue, const struct book_deliver_request *q)
{
    uint64_t out[3];
    struct book_later_answer a;
    book_queue_delivery(queue, q->warehouse, q->carrier, q->date, out);
    a.refusal = out[0];
    a.detail = out[1];
    a.before = out[2];
    return a;
}

/* Runs the oldest Delivery that waits and answers as it does. Unless refused by 16, the buffer has its line, up to the first byte 10, and the list
   one request less, also where the Delivery was refused. */
static inline struct book_deliver_answer book_deliver_next(struct book *book, struct book_queue *queue, uint64_t date, uint8_t *buffer,
                                                           size_t buffer_len)
{
    uint64_t out[4];
    struct book_deliver_answer a;
    book_run_delivery(book->nums, book->nums_len, book->names, book->names_len, queue, date, buffer, buffer_len, out, a.orders);
    a.refusal = out[0];
    a.detail = out[1];
    a.skipped = out[2];
    a.mark = out[3];
    return a;
}

static inline struct book_status_answer book_status(const struct book *book, const struct book_status_request *q)
{
    uint64_t out[8];
    int64_t balance[1];
    struct book_status_answer a;
    book_order_status(book->nums, book->nums_len, book->names, book->names_len, book->last, book->last_len, q->warehouse, q->district,
                      q->who.named, q->who.number, q->who.name, q->who.name_len, out, balance);
    a.refusal = out[0];
    a.detail = out[1];
    a.customer = out[2];
    a.balance = balance[0];
    a.order = out[3];
    a.date = out[4];
    a.carrier = out[5];
    a.lines = out[7] == 0 ? NULL : book->nums + out[6];
    a.lines_len = (size_t)(out[7] / 5);
    return a;
}

/* Line i of a status's order, i from 0 and below lines_len. */
static inline struct book_shown_line book_status_line(const struct book_status_answer *a, size_t i)
{
    const int64_t *line = a->lines + 5 * i;
    struct book_shown_line l;
    l.item = line[0];
    l.supply = line[1];
    l.quantity = line[2];
    l.amount = line[3];
    l.delivery_date = line[4];
    return l;
}

static inline struct book_level_answer book_level(const struct book *book, const struct book_level_request *q)
{
    uint64_t out[3];
    struct book_level_answer a;
    book_stock_level(book->nums, book->nums_len, book->names, book->names_len, q->warehouse, q->district, q->threshold, out);
    a.refusal = out[0];
    a.detail = out[1];
    a.count = out[2];
    return a;
}

/* ---- Request lines. ---- */

/* Who of a line that was read, its name in r. */
static inline struct book_who book_read_who(const struct book_request *r, const uint64_t out[13])
{
    struct book_who who;
    who.named = out[9] != 0;
    who.number = out[10];
    who.name = r->name;
    who.name_len = (size_t)out[12];
    return who;
}

/* Reads a line, with its byte 10, into r; where it has no form, r is all 0. */
static inline struct book_read_answer book_read(const uint8_t *line, size_t line_len, struct book_request *r)
{
    uint64_t out[13];
    struct book_read_answer a;
    memset(r, 0, sizeof *r);
    book_read_line(line, line_len, out, r->lines, r->name);
    a.refusal = out[0];
    a.detail = out[1];
    r->letter = (char)out[2];
    switch (r->letter) {
    case 'N':
        r->order.warehouse = out[3], r->order.district = out[4], r->order.customer = out[5], r->order.date = out[6];
        r->order.lines = r->lines, r->order.lines_len = (size_t)out[11];
        break;
    case 'P':
        r->pay.warehouse = out[3], r->pay.district = out[4], r->pay.custwarehouse = out[5], r->pay.custdistrict = out[6];
        r->pay.who = book_read_who(r, out), r->pay.date = out[7], r->pay.amount = out[8];
        break;
    case 'D':
        r->deliver.warehouse = out[3], r->deliver.carrier = out[4], r->deliver.date = out[5];
        break;
    case 'S':
        r->status.warehouse = out[3], r->status.district = out[4], r->status.who = book_read_who(r, out);
        break;
    case 'L':
        r->level.warehouse = out[3], r->level.district = out[4], r->level.threshold = out[5];
        break;
    }
    return a;
}

static inline struct book_write_answer book_written(const uint64_t out[3])
{
    struct book_write_answer a;
    a.refusal = out[0];
    a.detail = out[1];
    a.length = out[2];
    return a;
}

/* Writes a request's line to the front of a buffer. */
static inline struct book_write_answer book_write_order(uint8_t *buffer, size_t buffer_len, const struct book_order_request *q)
{
    uint64_t out[3];
    book_write_new_order(buffer, buffer_len, q->warehouse, q->district, q->customer, q->date, q->lines, q->lines_len, out);
    return book_written(out);
}

static inline struct book_write_answer book_write_pay(uint8_t *buffer, size_t buffer_len, const struct book_pay_request *q)
{
    uint64_t out[3];
    book_write_payment(buffer, buffer_len, q->warehouse, q->district, q->custwarehouse, q->custdistrict, q->who.named, q->who.number,
                       q->who.name, q->who.name_len, q->date, q->amount, out);
    return book_written(out);
}

static inline struct book_write_answer book_write_deliver(uint8_t *buffer, size_t buffer_len, const struct book_deliver_request *q)
{
    uint64_t out[3];
    book_write_delivery(buffer, buffer_len, q->warehouse, q->carrier, q->date, out);
    return book_written(out);
}

static inline struct book_write_answer book_write_status(uint8_t *buffer, size_t buffer_len, const struct book_status_request *q)
{
    uint64_t out[3];
    book_write_order_status(buffer, buffer_len, q->warehouse, q->district, q->who.named, q->who.number, q->who.name, q->who.name_len, out);
    return book_written(out);
}

static inline struct book_write_answer book_write_level(uint8_t *buffer, size_t buffer_len, const struct book_level_request *q)
{
    uint64_t out[3];
    book_write_stock_level(buffer, buffer_len, q->warehouse, q->district, q->threshold, out);
    return book_written(out);
}

#endif
