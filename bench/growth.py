"""The rows of the table growth: a call of "Cost of hostile input" in docs/DECISIONS.md over inputs of the sizes n, 2n and 4n, as bench/run.py measures them."""
import dataclasses
from collections.abc import Callable

import messages

SEGMENTS = (36, 72, 144)
BUCKETS = (126, 252, 504)
MANY = (5000, 10000, 20000)
TOPICS = (2500, 5000, 10000)
RECORD = (16383, 32766, 65532)
BYTES = (16384, 32768, 65536)
KEY = (16000, 32000, 64000)
DELTA = (4000, 8000, 16000)
LOG = (1000, 2000, 4000)
SPANS = (7, 14, 28)
COUNTS = (64, 128, 256)
QUEUE = (256, 512, 1024)
# Answers by their numbers in the header.
WRITTEN, YES, NO, FOUND = "5", "6", "7", "8"


@dataclasses.dataclass
class Case:
    """The call and its input; the sizes; what the port prints, by the size, * being the number of turns; the words of its program, and of the Rust's where it has
    the call; what the Rust prints, if that is something else."""
    call: str
    what: str
    sizes: tuple
    told: Callable
    ours: Callable
    theirs: Callable | None = None
    rust_told: Callable | None = None
    turns: int = 2


def always(text):
    """The same, whatever the size."""
    return lambda n: text


def lent(call, what, word, sizes, told):
    """A call of bench/growth.c, which makes its own input."""
    return Case(call, what, sizes, always(told), lambda bench, n: [bench.growth, word, n])


def piece(call, what, ours, theirs, name, sizes, told="0", rust_told=None):
    """A piece of an update."""
    def words(bench, n):
        return [bench.pieces, ours, bench.file(name.format(n=n))]

    def rust(bench, n):
        return [bench.rust, messages.PARENT, theirs, bench.file(name.format(n=n))]

    return Case(call, what, sizes, always(told), words, rust, always(rust_told or told))


def log(order, sizes=LOG):
    return Case("attach_log::check", f"n ids lost and gained, log {order}", sizes, always(YES), lambda bench, n: [bench.logs, order, n], turns=1)


def queued(what, first, second, changed):
    """An update while n lists stand in the queue."""
    def sides(bench, n):
        return bench.sides("update", bench.file(first), bench.file(second), 1, n)

    return Case("session_update", what, QUEUE, always(f"0 {changed}"), lambda bench, n: sides(bench, n)[1], lambda bench, n: sides(bench, n)[0])


def waiting(call, what, word, changed):
    """A response or a drain while n lists wait. The Rust hands all of them out at once."""
    def words(bench, n):
        return bench.sides("queue", word, *(bench.file(name) for name in ("a", "a2", "response")), n)[1]

    return Case(call, what, QUEUE, always(f"0 {changed}"), words)


def watch(what, name, changed):
    """An update of a watch, two messages in turn; how many topics the second one adds and removes, of n."""
    back = name if name in ("rising", "shuffled", "falling") else f"{name}-back"

    def sides(bench, n):
        return bench.sides("watch", *(bench.file(f"w-{n}-{one}") for one in ("rising", name, back)))

    return Case("watch::handle_update", what, TOPICS, lambda n: "0 {} {}".format(*changed(n)), lambda bench, n: sides(bench, n)[1], lambda bench, n: sides(bench, n)[0])


CASES = [
    piece("utf8::is_utf8", "n bytes", "text", "text", "text-{n}", BYTES),
    lent("name_topic::segment_topic", "a parent's name of n bytes", "segment-topic", BYTES, WRITTEN),
    lent("name_topic::parent_topic", "a name of n bytes", "parent-topic", BYTES, WRITTEN),
    lent("name_source::segment_source", "a name of n bytes", "segment-source", BYTES, FOUND),
    piece("wire_messages::first_fault", "n segments", "scan", "decode", "segments-{n}", MANY),
    lent("packed::read_whole", "n segments", "key-list", SEGMENTS, FOUND),
    lent("packed::read_whole, ranges_marks::mark_row", "n falling buckets", "key-buckets", BUCKETS, NO),
    lent("packed_delta::read_front", "a record of n falling buckets, read twice", "delta-buckets", RECORD, NO),
    lent("apply", "n segments, all lost, n gained", "apply", SEGMENTS, WRITTEN),
    lent("join", "n ids lost and gained, twice", "join", DELTA, WRITTEN),
    piece("intake::take_in, fits", "n segments", "intake", "intake", "segments-{n}", SEGMENTS),
    piece("intake::take_in, fits", "n segments, falling", "intake", "intake", "segments-{n}-falling", SEGMENTS),
    piece("intake::take_in, fits", "n segments, shuffled", "intake", "intake", "segments-{n}-shuffled", SEGMENTS),
    piece("intake::take_in, fits", "n falling buckets", "intake", "intake", "buckets-{n}-falling", BUCKETS),
    piece("intake::take_in, does not fit", "n segments", "intake", "intake", "segments-{n}", MANY, "*", "0"),
    piece("intake::take_in, does not fit", "n segments, falling", "intake", "intake", "segments-{n}-falling", MANY, "*", "0"),
    piece("intake::take_in, does not fit", "n segments, the last id has come before", "intake", "intake", "repeat-{n}", MANY, "*"),
    piece("intake::take_in, does not fit", "n falling buckets in one segment", "intake", "intake", "buckets-{n}-falling", BYTES, "*", "0"),
    lent("key_lookup::segment_for_key", "a key of n bytes", "key", KEY, FOUND),
    lent("key_for_hash::key_for_hash", "the hash n", "key-for-hash", BYTES, FOUND),
    lent("key_in_segment::key_in_segment", "n segments", "key-in-segment", SEGMENTS, FOUND),
    lent("charge::charge", "n buckets", "charge", RECORD, FOUND),
    lent("churn::push", "n counts before", "churn-push", COUNTS, FOUND),
    lent("churn::current", "n counts before", "churn-current", COUNTS, FOUND),
    lent("hours::is_open", "n terms, n windows", "is-open", SPANS, NO),
    lent("hours::earliest_open", "n terms, n windows", "earliest-open", SPANS, FOUND),
    log("rising"), log("falling"), log("shuffled"), log("halves"), log("shuffled", RECORD),
    lent("writer::to_pb", "n segments", "to-pb", SEGMENTS, WRITTEN),
    queued("case a, n lists queued", "a", "a2", "2 2"),
    queued("case s, n lists queued", "s", "s", "0 0"),
    waiting("session_response", "n lists of case a wait", "response", "0 0"),
    waiting("session_drain", "the last of n lists of case a", "last", "2 2"),
    watch("snapshot of n topics, rising", "rising", lambda n: (n, 0)),
    watch("snapshot of n topics, shuffled", "shuffled", lambda n: (n, 0)),
    watch("snapshot of n topics, falling", "falling", lambda n: (n, 0)),
    watch("diff of n / 2 topics, rising", "half", lambda n: (n // 4, n // 4)),
    watch("diff of n / 2 topics, shuffled", "half-shuffled", lambda n: (n // 4, n // 4)),
    watch("diff of n / 2 topics, falling", "half-falling", lambda n: (n // 4, n // 4)),
    watch("diff: n / 4 topics rising, the highest the other way", "high", lambda n: (1, n // 4)),
]
