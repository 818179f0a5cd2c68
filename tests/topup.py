"""Each item's own top-up, from Python: what python/book.py answers, raises and leaves, on document 01's small book."""

import io
import os
import sys

sys.path.insert(0, os.path.join(os.path.dirname(os.path.dirname(os.path.realpath(__file__))), "python"))
import book
from example import answer_line, small_book


def refused(call, *parameters):
    """The refusal's number."""
    try:
        call(*parameters)
    except book.Refused as refusal:
        assert refusal.detail == 0 and str(refusal).startswith(f"{refusal.number}: ")
        return refusal.number
    raise AssertionError(f"{call.__name__}{parameters} was not refused")


def no_item(b, item):
    try:
        b.topup_of(item)
    except ValueError:
        return True
    return False


def main():
    b = small_book()
    assert list(b.topup) == [10, 91] * 5 and no_item(b, 0) and no_item(b, 6)
    assert b.new_order(1, 1, 1, 100, [(1, 1, 10), (1, 1, 1), (1, 1, 1)]) == book.Ordered(order=1, total=1242, lifts=1)
    assert b.stock(1, 1).on_hand == 99
    b.topup_of(2).margin, b.topup_of(2).lift = 17, 500
    assert b.new_order(1, 1, 2, 100, [(2, 1, 3), (2, 1, 1), (3, 1, 10)]).lifts == 1
    assert (b.stock(1, 2).on_hand, b.stock(1, 3).on_hand) == (516, 10)
    assert list(b.topup) == [10, 91, 17, 500] + [10, 91] * 3
    b.topup_of(5).lift = 9_991
    before = bytes(b.nums)
    assert refused(b.new_order, 1, 1, 1, 100, [(1, 1, 1)]) == 17 and refused(b.open) == 3
    assert bytes(b.nums) == before and b.payment(1, 1, 1, 1, 1, 100, 500).balance == -500
    b.topup_of(5).lift = 9_990
    assert answer_line(b, b"N\t1\t2\t1\t100\t3\t1\t1\n") == "N\t0\t1\t1034"
    kept, other = io.BytesIO(bytes(b.topup)), small_book()
    assert kept.readinto(other.topup) == 10 * 8 and other.topup_of(5).lift == 9_990 and other.open() is None
    other.topup_of(1).margin = -1
    assert refused(other.open) == 17
    print("python/book.py: each item has its own top-up")


main()
