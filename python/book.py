"""The order book for feed cooperatives, from Python: the proved library over ctypes, nothing else.

`bin/build library` of the repository makes the shared library that this module loads (or name one in BOOK_LIBRARY). x86-64 Linux only.
A Book owns its numbers, its names, its last orders, its notes, its top-up table and its waiting list of Deliveries. Every call is committed and
answers its figures, or raises Refused and has changed nothing; but a run whose Delivery is refused takes it off the waiting list all the same (see
run_delivery). One call at a time runs on a Book, also from threads: it has a lock. To keep a book, write b.nums, b.names, b.last, b.notes, b.topup
and b.queue to a file; to have it back, make a Book of the same sizes and read them into it (file.readinto); it is not opened again, since opening is
for a new book.
"""

import ctypes
import operator
import os
import threading
from typing import List, NamedTuple, Union

VERSION = 5  # BOOK_VERSION of include/book.h

_path = os.environ.get("BOOK_LIBRARY") or os.path.join(
    os.path.dirname(os.path.dirname(os.path.realpath(__file__))), "target", "shared", "libbook.so"
)
try:
    _lib = ctypes.CDLL(_path)
    _lib.book_version.restype = ctypes.c_uint64
except (OSError, AttributeError) as error:
    raise ImportError(f"{error}; 'bin/build library' makes target/shared/libbook.so, BOOK_LIBRARY names another") from None
if _lib.book_version() != VERSION:
    raise ImportError(f"{_path} is version {_lib.book_version()} of the library, this module is for version {VERSION}")

REFUSALS = {
    1: "the line has no form, or the buffer is too short",
    2: "the head is out of range, or the length of numbers or names is not what it implies",
    3: "the book is not new, or a value is out of range",
    4: "no such warehouse",
    5: "no such district",
    6: "no such customer",
    7: "the date is out of range",
    8: "amount, carrier, threshold, number of lines, supplying warehouse or quantity out of range",
    9: "a row or name that the call uses is out of range",
    10: "nobody has the last name",
    11: "no order slot, or no history slot, is left",
    12: "an item is not one of the book's, or its price is 0",
    13: "the last orders have a wrong length or, in the district, a number out of range, or the order to be shown is out of range",
    14: "the notes have a wrong length",
    15: "sixteen Deliveries wait, or the waiting list counts more",
    16: "no Delivery waits, the waiting list counts more than 16, or the buffer has under 400 bytes",
    17: "the top-up table has a wrong length, or some item's margin or lift, or both together, are out of range",
}


class Refused(Exception):
    """The refusal's number, and its detail: the first offending line of an order at 8 and 12, else 0.

    Of a run whose Delivery was refused, line is its result line; else it is None.
    """

    def __init__(self, number, detail, line=None):
        super().__init__(number, detail, line)
        self.number = number
        self.detail = detail
        self.line = line

    def __str__(self):
        return f"{self.number}: {REFUSALS.get(self.number, '?')}" + (f" (line {self.detail})" if self.detail else "")


# ---- Requests and answers. Who is a customer number (int) or a last name (str or bytes). Money is cents.

Who = Union[int, str, bytes]


class Line(NamedTuple):
    item: int
    supply: int
    quantity: int


class NewOrder(NamedTuple):
    warehouse: int
    district: int
    customer: int
    date: int
    lines: List[Line]


class Payment(NamedTuple):
    warehouse: int
    district: int
    custwarehouse: int
    custdistrict: int
    who: Who
    date: int
    amount: int


class Delivery(NamedTuple):
    warehouse: int
    carrier: int
    date: int


class OrderStatus(NamedTuple):
    warehouse: int
    district: int
    who: Who


class StockLevel(NamedTuple):
    warehouse: int
    district: int
    threshold: int


class Ordered(NamedTuple):
    order: int
    total: int
    lifts: int  # how many of its lines topped their stock up


class Paid(NamedTuple):
    customer: int
    balance: int


class Delivered(NamedTuple):
    skipped: int
    orders: List[int]  # of districts 1 to 10, 0 where skipped


class Ran(NamedTuple):
    skipped: int
    orders: List[int]  # of districts 1 to 10, 0 where skipped
    line: bytes  # queuing date, warehouse, carrier, date of the run, skip count and orders, parted by tabs; byte 10


class Waiting(NamedTuple):
    date: int  # of the queuing
    warehouse: int
    carrier: int


class ShownLine(NamedTuple):
    item: int
    supply: int
    quantity: int
    amount: int
    delivery_date: int  # 0 until delivered


class Status(NamedTuple):
    customer: int
    balance: int
    order: int  # 0 where there is none
    date: int
    carrier: int  # 0 until delivered
    lines: List[ShownLine]


def date(unix_time):
    """A date of the book from Unix time; date 1 is 1900-01-01 00:00:00."""
    return int(unix_time) + 2_208_988_801


# ---- The book

class Sizes(NamedTuple):
    warehouses: int
    customers: int  # in each district
    items: int
    orders: int  # order slots in each district
    histories: int  # history slots


class Row:
    """A row of the book: its fields by name are the book's own numbers, to read and to set."""

    __slots__ = ("_nums", "_at", "_fields")

    def __init__(self, nums, at, fields):
        object.__setattr__(self, "_nums", nums)
        object.__setattr__(self, "_at", at)
        object.__setattr__(self, "_fields", fields)

    def _place(self, field):
        if field.startswith("_") or field not in self._fields:
            raise AttributeError(f"a row has no {field}")
        return self._at + self._fields.index(field)

    def __getattr__(self, field):
        return self._nums[self._place(field)]

    def __setattr__(self, field, value):
        value = operator.index(value)
        if not -(2**63) <= value < 2**63:
            raise ValueError(f"{field} {value} has no room in 64 bits")
        self._nums[self._place(field)] = value

    def __reduce__(self):
        return Row, (self._nums, self._at, self._fields)

    def __repr__(self):
        return "Row(" + ", ".join(f"{field}={getattr(self, field)}" for field in self._fields) + ")"


_WAREHOUSE = ("tax", "ytd")
_DISTRICT = ("tax", "ytd", "next_order")
_CUSTOMER = ("credit", "discount", "balance", "ytd_payment", "payment_count", "delivery_count")
_ITEM = ("price",)
_STOCK = ("on_hand", "lots", "order_count", "remote_count")
_ORDER = ("customer", "entry_date", "carrier", "line_count", "all_local", "waiting")
_HISTORY = ("customer", "custdistrict", "custwarehouse", "district", "warehouse", "date", "amount")
_TOPUP = ("margin", "lift")
_USUAL_TOPUP = (10, 91)  # TPC-C's, of every item
_NAME_BYTES = 32  # of a customer; the last orders have one number for as many
_NOTE_BYTES = 500  # of a customer


class _CLine(ctypes.Structure):
    _fields_ = [("item", ctypes.c_uint64), ("supply", ctypes.c_uint64), ("quantity", ctypes.c_uint64)]


class _CWaiting(ctypes.Structure):
    _fields_ = [("date", ctypes.c_uint64), ("warehouse", ctypes.c_uint64), ("carrier", ctypes.c_uint64)]


class _CQueue(ctypes.Structure):
    _fields_ = [("count", ctypes.c_uint64), ("waiting", _CWaiting * 16)]


_RESULT_BYTES = 400  # the least room for a run's line


def _u64(name, value):
    try:
        value = operator.index(value)
    except TypeError:
        raise TypeError(f"{name} is a number, not {value!r}") from None
    if not 0 <= value < 2**64:
        raise ValueError(f"{name} {value} is out of range: 0 to 2^64 - 1")
    return ctypes.c_uint64(value)


def _numbers(**named):
    return [_u64(name, value) for name, value in named.items()]


def _slice(array):
    return [array, ctypes.c_size_t(len(array))]


def _lines(lines):
    array = (_CLine * len(lines))(*[_CLine(*_numbers(**Line(*line)._asdict())) for line in lines])
    return [array, ctypes.c_size_t(len(lines))]


def _who(who):
    """Whether by name, the number, the name and its length."""
    if isinstance(who, (str, bytes, bytearray)):
        name = who.encode() if isinstance(who, str) else bytes(who)
        return [ctypes.c_bool(True), ctypes.c_uint64(0), ctypes.c_char_p(name), ctypes.c_size_t(len(name))]
    return [ctypes.c_bool(False), _u64("who", who), None, ctypes.c_size_t(0)]


def _answer(call, parameters, figures, *others):
    """Calls, raises Refused where refused, and answers the figures."""
    out = (ctypes.c_uint64 * (2 + figures))()
    call.restype = None
    call(*parameters, out, *others)
    if out[0]:
        raise Refused(out[0], out[1])
    return out[2:]


def _places(sizes, warehouse=1, district=1, customer=1, item=1, order=1, history=1):
    """How many numbers and name bytes a book of these sizes has, and where the rows of one place start: proved, as the calls are."""
    places = dict(warehouse=warehouse, district=district, customer=customer, item=item, order=order, history=history)
    try:
        return _answer(_lib.book_places, _numbers(**sizes._asdict(), **places), 10)
    except Refused:
        raise ValueError(f"{places} is no place of a book of {sizes}, or these are no sizes of a book") from None


def _result_line(buffer):
    """The line at a buffer's front, its byte 10 included."""
    return bytes(buffer).partition(b"\n")[0] + b"\n"


def _padded(part):
    return (part.encode() if isinstance(part, str) else bytes(part)).ljust(16)


class Book:
    """A new book: the next order numbers are 1, all else is 0 and the names are spaces. Set the rows and names, then open it.

    nums, names, last, notes and topup are ctypes arrays, lent to the calls as they are. last has for each customer its largest order number, 0 for
    none: new_order writes it, order_status reads it, the other calls do not take it. notes has for each customer a text of 500 bytes, spaces at
    first: payment puts a note at its left where the customer's credit is 1, the other calls do not take it. topup has for each item a margin and a
    lift, 10 and 91 at first: open and new_order read it, no call writes it, and it may be changed between calls (topup_of). queue is a ctypes
    structure, the count and 16 places of the Deliveries that wait: queue_delivery and run_delivery alone take it.
    """

    def __init__(self, sizes):
        self.sizes = Sizes(*sizes)
        numbers, name_bytes = _places(self.sizes)[:2]
        self.nums = (ctypes.c_int64 * numbers)(*self.sizes)
        self.names = (ctypes.c_uint8 * name_bytes)()
        customers = name_bytes // _NAME_BYTES
        self.last = (ctypes.c_int64 * customers)()
        self.notes = (ctypes.c_uint8 * (customers * _NOTE_BYTES))()
        self.topup = (ctypes.c_int64 * (len(_TOPUP) * self.sizes.items))(*_USUAL_TOPUP * self.sizes.items)
        self.queue = _CQueue()
        self._lock = threading.Lock()
        ctypes.memset(self.names, ord(" "), len(self.names))
        ctypes.memset(self.notes, ord(" "), len(self.notes))
        for warehouse in range(1, self.sizes.warehouses + 1):
            for district in range(1, 11):
                self.district(warehouse, district).next_order = 1

    # The rows, counted from 1. An order's slot is its number.

    def warehouse(self, warehouse):
        return Row(self.nums, _places(self.sizes, warehouse)[2], _WAREHOUSE)

    def district(self, warehouse, district):
        return Row(self.nums, _places(self.sizes, warehouse, district)[3], _DISTRICT)

    def customer(self, warehouse, district, customer):
        return Row(self.nums, _places(self.sizes, warehouse, district, customer)[4], _CUSTOMER)

    def item(self, item):
        return Row(self.nums, _places(self.sizes, item=item)[5], _ITEM)

    def stock(self, warehouse, item):
        return Row(self.nums, _places(self.sizes, warehouse, item=item)[6], _STOCK)

    def order(self, warehouse, district, order):
        return Row(self.nums, _places(self.sizes, warehouse, district, order=order)[7], _ORDER)

    def history(self, history):
        return Row(self.nums, _places(self.sizes, history=history)[8], _HISTORY)

    def topup_of(self, item):
        """An item's margin and lift: where a line leaves fewer than the margin on hand, the lift is added."""
        _places(self.sizes, item=item)
        return Row(self.topup, len(_TOPUP) * (item - 1), _TOPUP)

    def set_name(self, warehouse, district, customer, last, first):
        """Last and first name, each of at most 16 bytes 32 to 126; the last name is not empty and starts with no space."""
        at = _places(self.sizes, warehouse, district, customer)[9]
        name = _padded(last) + _padded(first)
        if len(_padded(last)) != 16 or len(name) != 32 or name[0] == 32 or not all(32 <= byte <= 126 for byte in name):
            raise ValueError(f"{last!r}, {first!r} is no name of a book")
        self.names[at : at + 32] = list(name)

    def _customers_before(self, warehouse, district, customer):
        return _places(self.sizes, warehouse, district, customer)[9] // _NAME_BYTES

    def last_order(self, warehouse, district, customer):
        """The largest of a customer's order numbers, 0 for none, as last has it."""
        return self.last[self._customers_before(warehouse, district, customer)]

    def notes_of(self, warehouse, district, customer):
        """The 500 bytes of a customer, as notes has them: its notes, the newest first."""
        at = self._customers_before(warehouse, district, customer) * _NOTE_BYTES
        return bytes(self.notes[at : at + _NOTE_BYTES])

    def waiting(self):
        """The Deliveries that wait, the oldest first, as queue has them."""
        return [Waiting(w.date, w.warehouse, w.carrier) for w in self.queue.waiting[: self.queue.count]]

    # The calls

    def _call(self, call, parameters, figures, *others):
        lent = _slice(self.nums) + _slice(self.names)
        with self._lock:
            return _answer(call, lent + parameters, figures, *others)

    def open(self):
        """Refused by 3 unless the book is new and in range, by 17 unless the top-up table is as it has to be. It writes nothing."""
        self._call(_lib.book_opening, _slice(self.topup), 0)

    def new_order(self, warehouse, district, customer, date, lines):
        order = _numbers(warehouse=warehouse, district=district, customer=customer, date=date)
        lent = _slice(self.last) + _slice(self.topup)
        return Ordered(*self._call(_lib.book_new_order, lent + order + _lines(lines), 3))

    def payment(self, warehouse, district, custwarehouse, custdistrict, who, date, amount):
        places = _numbers(warehouse=warehouse, district=district, custwarehouse=custwarehouse, custdistrict=custdistrict)
        balance = (ctypes.c_int64 * 1)()
        paid = _slice(self.notes) + places + _who(who) + _numbers(date=date, amount=amount)
        (customer,) = self._call(_lib.book_payment, paid, 1, balance)
        return Paid(customer, balance[0])

    def delivery(self, warehouse, carrier, date):
        orders = (ctypes.c_uint64 * 10)()
        skipped, _ = self._call(_lib.book_delivery, _numbers(warehouse=warehouse, carrier=carrier, date=date), 2, orders)
        return Delivered(skipped, list(orders))

    def queue_delivery(self, warehouse, carrier, date):
        """Puts a Delivery behind those that wait, to be run later; how many stood before it. The date is that of the queuing.

        Warehouse and carrier are judged by the run alone.
        """
        queued = [ctypes.byref(self.queue)] + _numbers(warehouse=warehouse, carrier=carrier, date=date)
        with self._lock:
            return _answer(_lib.book_queue_delivery, queued, 1)[0]

    def run_delivery(self, date):
        """Carries out the oldest Delivery that waits, on this date. Refused by 16 where none does, it has changed nothing.

        Refused by another number, that of the Delivery, it has not changed the book, but the request has left the list; the exception has its line.
        """
        orders, buffer = (ctypes.c_uint64 * 10)(), (ctypes.c_uint8 * _RESULT_BYTES)()
        run = [ctypes.byref(self.queue)] + _numbers(date=date) + _slice(buffer)
        try:
            skipped, _ = self._call(_lib.book_run_delivery, run, 2, orders)
        except Refused as refused:
            if refused.number == 16:
                raise
            raise Refused(refused.number, refused.detail, _result_line(buffer)) from None
        return Ran(skipped, list(orders), _result_line(buffer))

    def order_status(self, warehouse, district, who):
        balance = (ctypes.c_int64 * 1)()
        asked = _numbers(warehouse=warehouse, district=district) + _who(who)
        customer, order, date, carrier, start, count = self._call(_lib.book_order_status, _slice(self.last) + asked, 6, balance)
        lines = [ShownLine(*self.nums[at : at + 5]) for at in range(start, start + count, 5)]
        return Status(customer, balance[0], order, date, carrier, lines)

    def stock_level(self, warehouse, district, threshold):
        """How many items of the last 20 orders have less on hand than the threshold."""
        return self._call(_lib.book_stock_level, _numbers(warehouse=warehouse, district=district, threshold=threshold), 1)[0]

    def carry_out(self, request):
        """A request of any kind, as read_line gives it."""
        return getattr(self, _kind(request))(*request)


_KINDS = {NewOrder: "new_order", Payment: "payment", Delivery: "delivery", OrderStatus: "order_status", StockLevel: "stock_level"}


def _kind(request):
    for kind, name in _KINDS.items():
        if isinstance(request, kind):
            return name
    raise TypeError(f"a request is one of {', '.join(kind.__name__ for kind in _KINDS)}, not {request!r}")


# ---- Request lines


def read_line(line):
    """The request that a line of bytes holds, its byte 10 included; Refused(1) where it has no form."""
    if not isinstance(line, (bytes, bytearray)):
        raise TypeError(f"a line is bytes, not {line!r}")
    lines, name = (_CLine * 15)(), (ctypes.c_uint8 * 16)()
    text = [ctypes.c_char_p(bytes(line)), ctypes.c_size_t(len(line))]
    letter, *six, named, number, count, length = _answer(_lib.book_read_line, text, 11, lines, name)
    who = bytes(name[:length]).decode("ascii") if named else number
    if letter == ord("N"):
        return NewOrder(*six[:4], [Line(l.item, l.supply, l.quantity) for l in lines[:count]])
    if letter == ord("P"):
        return Payment(*six[:4], who, *six[4:])
    if letter == ord("D"):
        return Delivery(*six[:3])
    return OrderStatus(*six[:2], who) if letter == ord("S") else StockLevel(*six[:3])


def write_line(request):
    """The line of a request, its byte 10 included; Refused(1) where it has no form."""
    write = getattr(_lib, "book_write_" + _kind(request))
    parameters = []
    for field, value in request._asdict().items():
        parameters += _lines(value) if field == "lines" else _who(value) if field == "who" else [_u64(field, value)]
    buffer = (ctypes.c_uint8 * 541)()
    (length,) = _answer(write, [buffer, ctypes.c_size_t(541)] + parameters, 1)
    return bytes(buffer[:length])
