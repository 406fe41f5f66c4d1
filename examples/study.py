"""A small study: a short sale order slides over a day with a falling and rising national bid while the restriction is on.

It shows how a host plays a run of event records by venue_play, takes each event's bytes out by the ends, and goes on where a call stopped.
It prints, from these bytes alone, what becomes of order 1, and before the day ends the resting orders as copy out gives them, a market short
among them.
examples/study.c is the same in C.
Build and run, from the repository's root:
tools/libhost && cc -shared -o out/libvenue.so -Wl,--whole-archive out/libhost.a -Wl,--no-whole-archive && python3 examples/study.py
"""
import re
from ctypes import CDLL, POINTER, Structure, byref, c_size_t, c_uint8, c_uint32, c_uint64

ENTRY, CANCEL, BID, DAY_END, OWNED_ENTRY, TIMED_TAPE = 1, 2, 3, 5, 6, 7

# the events: what the table calls each, and the numbers of its record, the kind and its fields
DAY = [
    ("bid 95000", (BID, 95000)),
    # time in seconds, price: the second is 10% below the first, and below the close
    ("tape 100000, second 0", (TIMED_TAPE, 0, 100000)),
    ("tape 90000, second 300", (TIMED_TAPE, 300, 90000)),
    ("bid 91000", (BID, 91000)),
    # id, mark 2 (short), limit, shares, displayed, day, slide 0 (continuous)
    ("1 sells 500 short, 90500", (ENTRY, 1, 2, 90500, 500, 1, 0, 0)),
    ("bid 90700", (BID, 90700)),
    ("bid 90900", (BID, 90900)),
    ("bid 90300", (BID, 90300)),
    ("2 buys 200, 90600", (ENTRY, 2, 0, 90600, 200, 1, 0, 0)),
    ("bid 90000", (BID, 90000)),
    ("cancel 2", (CANCEL, 2)),
    # a price of 0 means market: this one follows the bid; it is of firm 9
    ("3 sells 100 short", (OWNED_ENTRY, 3, 2, 0, 100, 1, 0, 0, 9)),
    ("day end, close 90000", (DAY_END, 90000)),
]

# include/venue.h says what the calls take and answer
with open("include/venue.h") as header:
    DEFINED = dict(re.findall(r"#define (\w+) (\d+)", header.read()))
VENUE_WORDS = int(DEFINED["VENUE_WORDS"])
VENUE_ORDERS = int(DEFINED["VENUE_ORDERS"])
VENUE_CENT = int(DEFINED["VENUE_CENT"])
VENUE_ALL_PLAYED = int(DEFINED["VENUE_ALL_PLAYED"])
VENUE_ENDS_FULL = int(DEFINED["VENUE_ENDS_FULL"])
VENUE_REPORTS_FULL = int(DEFINED["VENUE_REPORTS_FULL"])


class Order(Structure):
    """The header's struct venue_order: one word a field."""
    FIELDS = "id mark limit shares show life slide stamp price entry_bid adjusted used clear market owner"
    _fields_ = [(name, c_uint32) for name in FIELDS.split()]


class Progress(Structure):
    """The header's struct venue_progress: how far venue_play came."""
    _fields_ = [(name, c_uint64) for name in ("events", "at", "bytes")]


venue = CDLL("out/libvenue.so")
venue.venue_open.argtypes = [POINTER(c_uint32), c_size_t, c_uint32, c_uint32]
venue.venue_open.restype = c_uint32
venue.venue_play.argtypes = [POINTER(c_uint32), c_size_t, POINTER(c_uint8), c_size_t, c_uint64, POINTER(c_uint8), c_size_t,
                             POINTER(c_uint64), c_size_t, POINTER(Progress)]
venue.venue_play.restype = c_uint32
venue.venue_copy_out.argtypes = [POINTER(c_uint32), c_size_t, POINTER(Order), c_size_t]
venue.venue_copy_out.restype = c_uint32
venue.venue_depth.argtypes = [POINTER(Order), c_size_t, c_uint32, c_uint32]
venue.venue_depth.restype = c_uint64

words = (c_uint32 * VENUE_WORDS)()
# the lengths that the header advises
reports = (c_uint8 * 1048576)()
ends = (c_uint64 * 65536)()

# how far the day is played: the offset of the next record, and the events before it
offset, played = 0, 0

# the national bid, and what the reports say of order 1: its present price and the shares left
bid, price, left = 0, 0, 0


def number_bytes(x):
    """A number in the seven-bit form."""
    return bytes([x]) if x < 128 else bytes([x % 128 + 128]) + number_bytes(x // 128)


def numbers_of(data):
    """The numbers that stand one after another in the bytes."""
    x, shift = 0, 0
    for byte in data:
        x += (byte % 128) << shift
        shift += 7
        if byte < 128:
            yield x
            x, shift = 0, 0


def take_report(kind, rest, entered):
    """The report, or the refusal (kind 0), in words; keeps what it says of order 1."""
    global price, left
    if kind == 0:
        return f"refused, {next(rest)}"
    if kind == 1:
        order, stamp, at = next(rest), next(rest), next(rest)
        if order == 1:
            price, left = at, entered
        return f"order {order} accepted at {at}, stamp {stamp}"
    if kind == 2:
        buyer, seller, at, shares = next(rest), next(rest), next(rest), next(rest)
        if 1 in (buyer, seller):
            left -= shares
        return f"{buyer} buys {shares} of {seller} at {at}"
    if kind == 3:
        order, shares, cause = next(rest), next(rest), next(rest)
        if order == 1:
            left -= shares
        return f"order {order} cancelled, {shares} shares, cause {cause}"
    if kind == 4:
        order, at, stamp = next(rest), next(rest), next(rest)
        if order == 1:
            price = at
        return f"order {order} re-priced to {at}, stamp {stamp}"
    if kind == 5:
        return "restriction on"
    if kind == 6:
        return f"day ended, phase {next(rest)}"
    direction, at = next(rest), next(rest)
    return f"pause watch, a {'fall' if direction == 1 else 'rise'} to {at}"


def print_event(what, numbers, data):
    """Prints the line of the table for an event and its bytes."""
    global bid
    refused = data[:1] == [0]
    rest = numbers_of(data)
    entered = numbers[4] if numbers[0] in (ENTRY, OWNED_ENTRY) else 0
    line = "; ".join(take_report(kind, rest, entered) for kind in rest)
    if not refused and numbers[0] == BID:
        bid = numbers[1]
    if not refused and numbers[0] == DAY_END:
        bid = 0
    print(f"{what:<24} {bid:>6} {price if left > 0 else '-':>6} {left:>5}  {line or '-'}")


def play(records, length):
    """Plays on up to a length of the records, and prints a line for each event. A call that filled what was lent is followed by another."""
    global offset, played
    while True:
        progress = Progress(0, offset, 0)  # a refusal 16 doesn't write it
        answer = venue.venue_play(words, len(words), records, length, offset, reports, len(reports), ends, len(ends), byref(progress))
        start = 0
        for (what, numbers), end in zip(DAY[played:], ends[:progress.events]):
            print_event(what, numbers, reports[start:end])
            start = end
        played += progress.events
        offset = progress.at
        if answer == VENUE_ALL_PLAYED:
            return
        if answer not in (VENUE_ENDS_FULL, VENUE_REPORTS_FULL):
            raise SystemExit(f"play refused, {answer // 65536}, at offset {offset}")
        if progress.events == 0:
            raise SystemExit("reports or ends are too short for an event")


def show_book():
    """Prints each resting order as copy out gives it, with the shares displayed at its price on its side."""
    run = (Order * VENUE_ORDERS)()
    count = venue.venue_copy_out(words, len(words), run, len(run)) % 65536
    for o in run[:count]:
        shown = venue.venue_depth(run, count, o.price, o.mark)
        print(f"resting: order {o.id}, {o.shares} left at {o.price}, limit {o.limit}, entry bid {o.entry_bid}, adjusted {o.adjusted}, "
              f"used {o.used}, clear {o.clear}, market {o.market}, owner {o.owner}; displayed there: {shown}")


def main():
    answer = venue.venue_open(words, len(words), VENUE_CENT, 100000)
    if answer != 0:
        raise SystemExit(f"open refused, {answer // 65536}")
    data, day_end = b"", 0
    for _, numbers in DAY:
        if numbers[0] == DAY_END:
            day_end = len(data)
        data += b"".join(number_bytes(x) for x in numbers)
    records = (c_uint8 * len(data)).from_buffer_copy(data)
    print(f"{'event':<24} {'bid':>6} {'price':>6} {'left':>5}  reports")
    # the records up to the day end; then on, with the whole length
    play(records, day_end)
    show_book()
    play(records, len(records))


main()
