"""Deliveries that wait, from Python: what python/book.py answers, raises, writes and leaves, on document 01's small book."""

import io
import os
import pickle
import sys

sys.path.insert(0, os.path.join(os.path.dirname(os.path.dirname(os.path.realpath(__file__))), "python"))
import book
from example import small_book


def refused(call, *parameters):
    """The refusal's number and line."""
    try:
        call(*parameters)
    except book.Refused as refusal:
        again = pickle.loads(pickle.dumps(refusal))
        assert (again.number, again.detail, again.line) == (refusal.number, 0, refusal.line) and str(refusal).startswith(f"{refusal.number}: ")
        return refusal.number, refusal.line
    raise AssertionError(f"{call.__name__}{parameters} was not refused")


def main():
    b = small_book()
    b.new_order(1, 2, 1, 100, [(1, 1, 10), (2, 1, 3)])
    assert refused(b.run_delivery, 200) == (16, None)
    requests = [(1, 3, 150), (7, 3, 151), (2**64 - 1, 0, 152), (1, 11, 153)]
    assert [b.queue_delivery(*request) for request in requests] == [0, 1, 2, 3]
    assert refused(b.queue_delivery, 1, 3, 0) == (7, None)
    assert b.waiting() == [book.Waiting(date, warehouse, carrier) for warehouse, carrier, date in requests]
    orders = [0, 1, 0, 0, 0, 0, 0, 0, 0, 0]
    assert b.run_delivery(200) == book.Ran(9, orders, b"150\t1\t3\t200\t9\t0\t1\t0\t0\t0\t0\t0\t0\t0\t0\n")
    assert b.order(1, 2, 1).carrier == 3 and b.customer(1, 2, 1).delivery_count == 1
    before = bytes(b.nums)
    assert refused(b.run_delivery, 201) == (4, b"151\t7\t3\t201\t4\n")
    assert refused(b.run_delivery, 0) == (4, b"152\t18446744073709551615\t0\t0\t4\n")
    assert refused(b.run_delivery, 202) == (8, b"153\t1\t11\t202\t8\n")
    assert refused(b.run_delivery, 203) == (16, None)
    assert bytes(b.nums) == before and b.waiting() == [] and bytes(b.queue) == bytes(49 * 8)
    assert [b.queue_delivery(1, 3, 150) for _ in range(16)] == list(range(16))
    assert refused(b.queue_delivery, 1, 3, 0) == (15, None)
    kept, other = io.BytesIO(), small_book()
    kept.write(b.queue)
    kept.seek(0)
    assert kept.readinto(other.queue) == 49 * 8 and other.waiting() == b.waiting()
    other.queue.count = 2**64 - 1
    assert refused(other.run_delivery, 1) == (16, None) and refused(other.queue_delivery, 1, 1, 1) == (15, None)
    print("python/book.py: Deliveries wait and are run")


main()
