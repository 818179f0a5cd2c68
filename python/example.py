"""Document 01's program over python/book.py: its small book, request lines from standard input, answers to standard output."""

import sys

import book


def small_book():
    b = book.Book(book.Sizes(warehouses=1, customers=2, items=5, orders=4, histories=8))
    b.warehouse(1).tax = 1000
    for district in range(1, 11):
        b.district(1, district).tax = 500
        b.customer(1, district, 1).discount = 1000
        b.set_name(1, district, 1, "ALM", "EVA")
        b.set_name(1, district, 2, "ALM", "BO")
    for item, price in enumerate([100, 250, 999, 0, 1234], 1):
        b.item(item).price = price
        b.stock(1, item).on_hand = 20
    b.open()
    return b


def figures(answer):
    """An answer's figures, in the order of its line; the lifts of an order are not printed."""
    if isinstance(answer, book.Ordered):
        return [answer.order, answer.total]
    return [answer] if isinstance(answer, int) else [figure for part in answer for figure in figures(part)]


def answer_line(b, line):
    try:
        request = book.read_line(line)
    except book.Refused:
        return "?\t1\t0"
    letter = chr(line[0])
    assert book.write_line(request) == line
    try:
        return "\t".join(map(str, [letter, 0] + figures(b.carry_out(request))))
    except book.Refused as refused:
        return f"{letter}\t{refused.number}\t{refused.detail}"


if __name__ == "__main__":
    opened = small_book()
    for line in sys.stdin.buffer:
        print(answer_line(opened, line))
