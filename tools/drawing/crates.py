"""Which crate stands on which, as crates.txt says. Callers, tests, command lines and the kit's libraries are left out."""
from . import layers
from .page import Box, page, path, rectangle, text

WIDTH, EDGE = 980, 14
TALL, STEP = 46, 82
WIDE, THIN = 164, 20

TITLE = "The crates"

# What a crate is for, in a few words. One without stands there with its name alone.
WORDS = {
    "region_cut": "region, chunks, slots",
    "loan_ledger": "what shows a loan",
    "slot_chain": "buffers, and lists",
    "digit_route": "the way home",
    "pool_desk": "one allocator",
    "batch_inbox": "queue of messages",
    "link_inbox": "queue of linked nodes",
    "pool_machine": "the abstract machine",
    "slot_audit": "each slot once?",
    "slot_balance": "nothing is lost",
    "chunk_stock": "chunks, without a lock",
    "seated_desk": "allocators in C's storage",
    "fustrevol_c": "what C calls",
    "event_floor": "a pool in one thread",
    "trace_audit": "traces and reports",
    "pool_fabric": "what threads share",
    "pool_jobs": "tasks in threads",
    "poolctl": "command-line tool",
    "fustrevol": "what programs name",
    "pipeline": "program, with parcels",
    "first_pool": "the README's program",
    "line_search": "reads and prints",
    "syslog_lines": "lines of logs",
    "example_shipper": "ships logs",
    "packet_headers": "headers of packets",
    "example_decoder": "counts packets",
}


def read(listed):
    """What each crate stands on, and the words behind its name: two tables."""
    graph, marks = {}, {}
    for line in listed.splitlines():
        head, parted, belows = line.partition(":")
        if parted and not line.startswith("#"):
            name, *marks_of_it = head.split()
            graph[name], marks[name] = belows.split(), marks_of_it
    return graph, marks


def shown(graph):
    """The graph of the crates that are no callers, tests or command lines, and aren't there for these alone."""
    aside = {name for name in graph if name.endswith(("_uses", "_tests", "_words"))}
    for_tests = {below for name in aside for below in graph[name]}
    for_others = {below for name in graph if name not in aside for below in graph[name]}
    kept = [name for name in graph if name not in aside | (for_tests - for_others)]
    return {name: [below for below in graph[name] if below in kept] for name in kept}


def half(item):
    """Half of the room that a crate or a bend takes along its layer."""
    return THIN / 2 if isinstance(item, layers.Bend) else WIDE / 2 + 14


def centred(at):
    """The places moved to the middle of the page."""
    least, most = min(at.values()), max(at.values())
    if most - least > WIDTH - 2 * EDGE - WIDE:
        raise ValueError("a layer has more crates than fit on the page: make WIDE or the room beside it smaller")
    aside = (WIDTH - least - most) / 2
    return {item: round(x + aside) for item, x in at.items()}


def ends(links, at):
    """How far from the middle each line leaves its upper crate and meets its lower one: side by side, in order."""
    leaves, meets = {}, {}
    for item in at:
        if isinstance(item, layers.Bend):
            continue
        down = sorted((link for link in links if link[0] == item), key=lambda link: at[link[1]])
        up = sorted((link for link in links if link[1] == item), key=lambda link: at[link[0]])
        leaves |= {link: 20 * (i - (len(down) - 1) / 2) for i, link in enumerate(down)}
        meets |= {link: 20 * (i - (len(up) - 1) / 2) for i, link in enumerate(up)}
    return leaves, meets


def line(start, end):
    """A line that begins and ends upright."""
    (x, y), (to_x, to_y) = start, end
    turn = (y + to_y) / 2
    return path(f"M{x:.0f} {y:.0f}C{x:.0f} {turn:.0f} {to_x:.0f} {turn:.0f} {to_x:.0f} {to_y:.0f}")


def lines(links, at, top_of):
    leaves, meets = ends(links, at)
    for link in links:
        upper, lower = link
        start = at[upper] + leaves.get(link, 0), top_of[upper] + TALL
        end = at[lower] + meets.get(link, 0), top_of[lower]
        yield line(start, end)
    for item in at:
        if isinstance(item, layers.Bend):
            yield path(f"M{at[item]:.0f} {top_of[item]:.0f}v{TALL}")


def kind_of(marks):
    if "staticlib" in marks:
        return "third"
    return "second" if any(mark.startswith("may_wait") for mark in marks) else "first"


def node(name, middle, top, marks):
    words = WORDS.get(name)
    named = text(middle, top + (20 if words else 28), name, "strong middle")
    box = rectangle(Box(middle - WIDE / 2, top, WIDE, TALL), kind_of(marks))
    return [box, named, *([text(middle, top + 37, words, "small middle")] if words else [])]


def legend(top):
    """What the colours say, and how to read lines."""
    said = [("first", "each function returns"), ("second", "some functions may wait for another thread"),
            ("third", "a static library")]
    parts, x = [], EDGE + 6
    for kind, words in said:
        parts += [rectangle(Box(x, top, 22, 14), kind, corner=3), text(x + 30, top + 11.5, words, "small")]
        x += 62 + 6.7 * len(words)
    return [*parts, text(EDGE + 6, top + 36, READING, "small quiet")]


READING = "A line leads down to what a crate stands on. What follows from other lines isn't drawn."


def described(graph):
    stands = [f"{name} stands on {' and '.join(belows)}" for name, belows in graph.items() if belows]
    return "Each crate with those right below it, lowest first: " + "; ".join(stands) + "."


def picture(listed):
    whole, marks = read(listed)
    graph = layers.reduced(shown(whole))
    layer_of = layers.heights(graph)
    links = layers.links_of(graph, layer_of)
    rows = layers.ordered(layers.rows_of(graph, layer_of, links), links)
    at = centred(layers.places(rows, links, lambda a, b: half(a) + half(b), WIDTH - 2 * EDGE - WIDE))
    top_of = {item: EDGE + STEP * (len(rows) - 1 - layer) for layer, row in enumerate(rows) for item in row}
    nodes = [part for name in graph for part in node(name, at[name], top_of[name], marks[name])]
    foot = EDGE + STEP * (len(rows) - 1) + TALL + 18
    parts = [*lines(links, at, top_of), *nodes, *legend(foot)]
    return page(WIDTH, foot + 50, TITLE, described(graph), parts)
