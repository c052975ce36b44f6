#!/usr/bin/env python3
"""Judge and generator: pass hours and terms (02 f), reckoned for tools/vectors.py; run by itself, it makes vectors/hours.log.

The moment of the week comes from Python's calendar, by weekday and time of day; a second beyond its years is taken back
by whole spans of 400 years, which are whole weeks. An open second behind a closed one is the start of a term or of a
window, so the earliest is looked for among these.
"""
import random
import sys
import struct
from datetime import datetime, timedelta

import logs
import usage
from name_vectors import Refused

EPOCH = datetime(2000, 1, 1)
SATURDAY = 5
CENTURIES = int((datetime(2400, 1, 1) - EPOCH).total_seconds())
DAY, WEEK, LIMIT = 86400, 604800, 2**64
assert EPOCH.weekday() == SATURDAY == datetime(2400, 1, 1).weekday()


def moment(second):
    """The seconds since Saturday 00:00."""
    day = EPOCH + timedelta(seconds=second % CENTURIES)
    return (day.weekday() - SATURDAY) % 7 * DAY + day.hour * 3600 + day.minute * 60 + day.second


def spans(data):
    """Terms and windows of a contract."""
    if len(data) < 4:
        raise Refused(35)
    terms, windows = struct.unpack_from(">HH", data)
    if terms > 64 or windows > 28 or len(data) != 4 + 16 * (terms + windows):
        raise Refused(35)
    pairs = list(struct.iter_unpack(">QQ", data[4:]))
    if any(end <= start for start, end in pairs) or any(end > WEEK for _, end in pairs[terms:]):
        raise Refused(35)
    ranges = [range(*pair) for pair in pairs]
    return ranges[:terms], ranges[terms:]


def held(second, terms, windows):
    return any(second in term for term in terms) and any(moment(second) in window for window in windows)


def is_open(data, second):
    return "yes" if held(second, *spans(data)) else "no"


def earliest_open(data, second):
    terms, windows = spans(data)
    bases = [second, *(term.start for term in terms if term.start > second)]
    starts = [base + (window.start - moment(base)) % WEEK for base in bases for window in windows]
    found = min((start for start in bases + starts if held(start, terms, windows)), default=None)
    last = min(second + 50 if found is None else found, second + 2000)
    assert not any(held(passed, terms, windows) for passed in range(second, last)), data.hex()
    return "none" if found is None else str(found)


COMMANDS = {"is_open": ("bn", is_open), "earliest_open": ("bn", earliest_open)}

# ---- the vectors

DAYS = ["Saturday", "Sunday", "Monday", "Tuesday", "Wednesday", "Thursday", "Friday"]
ALWAYS, EVERY = (0, LIMIT - 1), (0, WEEK)


def at(*day):
    return int((datetime(*day) - EPOCH).total_seconds())


def of_week(day, hour=0, minute=0):
    return DAYS.index(day) * DAY + hour * 3600 + minute * 60


def packed(terms, windows):
    counts = struct.pack(">HH", len(terms), len(windows))
    return counts + b"".join(struct.pack(">QQ", *span) for span in [*terms, *windows])


def both(data, *seconds):
    for second in seconds:
        yield logs.line("is_open", data, second)
        yield logs.line("earliest_open", data, second)


def asked(terms, windows, *seconds):
    yield from both(packed(terms, windows), *seconds)


def instants():
    """Leap days, and 2100, which has none; ends of years and of centuries."""
    turns = [(2000, 2, 29), (2000, 3, 1), (2001, 1, 1), (2024, 2, 29), (2024, 3, 1), (2025, 1, 1)]
    turns += [(2100, 1, 1), (2100, 3, 1), (2200, 3, 1), (2400, 2, 29), (2400, 3, 1), (9999, 12, 31)]
    for turn in turns:
        day = datetime(*turn)
        yield from (day - timedelta(seconds=1), day)


def calendar():
    yield "# ==== the calendar: an instant is open in the window of its day, not in those of the days before and behind"
    for day in instants():
        second, name = at(*day.timetuple()[:6]), day.strftime("%A")
        yield f"# {name} {day}"
        for other in (0, 1, 6):
            start = of_week(DAYS[(DAYS.index(name) + other) % 7])
            yield logs.line("is_open", packed([ALWAYS], [(start, start + DAY)]), second)
    yield "# the first second of time, and the first week, second by second around its turns"
    yield from asked([ALWAYS], [(0, 1)], 0, 1, WEEK - 1, WEEK, WEEK + 1)
    yield from asked([ALWAYS], [(WEEK - 1, WEEK)], 0, WEEK - 2, WEEK - 1, WEEK)


def edges():
    term = (at(2024, 2, 28, 12), at(2024, 3, 2, 12))
    window = (of_week("Thursday", 6), of_week("Thursday", 9))
    yield "# ==== a term around the leap day of 2024, Thursdays 06:00 to 09:00: start inside, end outside"
    for hour in (6, 9):
        yield from asked([term], [window], *(at(2024, 2, 29, hour) + more for more in (-1, 0, 1)))
    yield "# the term starts and ends in a window"
    for first in (at(2024, 2, 29, 7), at(2024, 2, 29, 8)):
        yield from asked([(first, first + 600)], [window], *(first + more for more in (-1, 0, 599, 600)))
    yield "# the week's turn, Friday 23:59:59 to Saturday 00:00:00: over it, up to it, from it on; the term ends there"
    late, early = (of_week("Friday", 22), WEEK), (0, of_week("Saturday", 2))
    turn = at(2024, 3, 2)
    for windows in ([late, early], [late], [early]):
        yield from asked([term], windows, *(turn + more for more in (-7201, -1, 0, 7199, 7200)))
    yield from asked([(term[0], turn)], [late, early], turn - 1, turn)
    yield "# the window has passed this week: the next one is in the next week, in the next month, in the next year"
    yield from asked([ALWAYS], [window], at(2024, 2, 29, 9), at(2023, 12, 31), at(2100, 2, 28), at(2000, 12, 31))
    yield "# no term, no window, neither; a term in which no window comes; the last window of the last term has passed"
    for terms, windows in (([], [EVERY]), ([ALWAYS], []), ([], [])):
        yield from asked(terms, windows, 0, at(2024, 2, 29), LIMIT - 1)
    yield from asked([(at(2024, 2, 24), at(2024, 2, 29, 6))], [window], 0, at(2024, 2, 29, 5))
    yield from asked([(0, 1), term], [window], 0, at(2024, 2, 29, 9), term[1])


def several():
    day = at(2024, 2, 29)
    yield "# ==== terms and windows that overlap, meet, lie in one another, stand twice, in any order"
    windows = [(of_week("Friday"), of_week("Friday", 2)), (of_week("Thursday", 8), of_week("Thursday", 10))]
    windows += [(of_week("Thursday", 6), of_week("Thursday", 9)), (of_week("Thursday", 7), of_week("Thursday", 8))]
    terms = [(day + 28800, day + 2 * DAY), (day, day + 30000), (day + 30000, day + 32000), (day, day + 30000)]
    for wanted in (terms, terms[::-1]):
        for order in (windows, windows[::-1]):
            yield from asked(wanted, order, 0, *(day + more for more in (21599, 21600, 29999, 30000, 36000, DAY + 7200)))
    yield "# the earliest is in a later term: the first has no window, or ends before one"
    yield from asked([(day, day + 60), (day + 7 * DAY, day + 8 * DAY)], windows, day, day + 60)
    yield from asked([(day + 7 * DAY, day + 8 * DAY), (day, day + 21601)], windows, day, day + 21601)
    yield "# as many as there may be: a term a day, a window of a quarter of an hour every six hours"
    terms = [(day + k * DAY, day + k * DAY + 43200) for k in range(64)]
    windows = [(k * 21600, k * 21600 + 900) for k in range(28)]
    yield from asked(terms, windows, 0, *(day + more for more in (899, 900, 22500, 63 * DAY + 22499, 63 * DAY + 22500)))


def late():
    last, rest = LIMIT - 1, (LIMIT - 1) % WEEK
    yield "# ==== near 2^64: the last second of time is the end of every term at most, and so never open"
    yield from asked([ALWAYS], [EVERY], last - 2, last - 1, last)
    yield from asked([(last - 1, last)], [EVERY], 0, last - 2, last - 1, last)
    yield "# the windows around it; those that come only behind the end of time"
    around = [(rest - 2, rest - 1), (rest - 1, rest), (rest, rest + 1), (rest + 1, WEEK), (0, rest - 5), (0, 1)]
    for window in around:
        yield from asked([ALWAYS], [window], last - WEEK, last - 10, last - 2, last - 1, last)
    yield "# terms that start and end late"
    yield from asked([(last - 5, last - 3), (last - 2, last)], [EVERY], last - WEEK, *(last - k for k in (4, 3, 2, 1)))
    yield from asked([(2**63, 2**63 + 10)], [EVERY], 2**63 - 1, 2**63 + 9, 2**63 + 10)


def refused():
    good = packed([(5, 9)], [(3, 4), (0, WEEK)])
    yield "# ==== 35: every length but its own"
    for length in range(len(good)):
        yield logs.line("is_open", good[:length], 5)
    yield from both(good, 5)
    yield from both(good + b"\0", 5)
    yield from both(good + bytes(16), 5)
    yield "# 64 and 65 terms, 28 and 29 windows, all that 16 bits hold; more than the bytes hold, and fewer"
    for terms, windows in ((64, 28), (65, 0), (65, 28), (0, 29), (64, 29)):
        yield from asked([(5, 9)] * terms, [(3, 4)] * windows, 5)
    large, other = [(65535, 65535), (65535, 0), (0, 65535), (256, 2), (1, 512)], [(2, 2), (0, 2), (1, 1)]
    for counts in (*large, *other, (2, 1), (3, 0), (0, 3)):
        yield from both(struct.pack(">HH", *counts) + good[4:], 5)
    yield "# an end at its start, and before it, of a term and of a window, the first and the last"
    for bad in ((7, 7), (8, 7), (WEEK, WEEK), (2**63, 0)):
        for terms, windows in (([bad], []), ([(5, 9), bad], [EVERY]), ([bad, (5, 9)], [EVERY])):
            yield from asked(terms, windows, 5)
        for windows in ([bad], [EVERY, bad], [bad, EVERY]):
            yield from asked([(5, 9)], windows, 5)
    yield "# a window up to the week's end, and beyond; a term may lie there"
    for end in (WEEK, WEEK + 1, 2 * WEEK, LIMIT - 1):
        yield from asked([(5, 9)], [(WEEK - 1, end)], 5)
        yield from asked([(5, 9)], [EVERY, (WEEK - 1, end)], 5)
        yield from asked([(WEEK - 1, end)], [EVERY], WEEK)
    yield from asked([(5, 9)], [(WEEK, WEEK + 1)], WEEK)
    yield "# whatever second is asked"
    yield from asked([(5, 9)], [(0, WEEK + 1)], 0, LIMIT - 1)


def random_span(rng, low, high, longest):
    start = rng.randrange(low, high)
    return start, min(high, start + rng.randint(1, longest))


def at_random(rng):
    yield "# ==== at random"
    for _ in range(60):
        base = rng.choice((0, at(2024, 2, 29), at(2099, 12, 31), LIMIT - 1 - 3 * WEEK))
        last = base + 3 * WEEK
        terms = [random_span(rng, base, last, rng.choice((5000, DAY, WEEK))) for _ in range(rng.randrange(5))]
        windows = [random_span(rng, 0, WEEK, rng.choice((600, 7200, DAY))) for _ in range(rng.randrange(6))]
        near = [min(end + rng.randint(-1, 1), LIMIT - 1) for span in terms for end in span]
        yield from asked(terms, windows, *(rng.choice([base, rng.randrange(base, last), *near]) for _ in range(3)))


def made():
    head = "# Pass hours and terms, as a log of station, written and reckoned by tools/hours_vectors.py."
    parts = [calendar(), edges(), several(), late(), refused(), at_random(random.Random("hours vectors"))]
    return logs.made("hours", [head, *(line for part in parts for line in part)])


if __name__ == "__main__":
    sys.exit(usage.generate(__doc__, made))
