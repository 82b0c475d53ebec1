"""A buffer's journey: lent, handed over, freed by another thread, and home again."""
from .page import Box, lines, page, path, rectangle, text

WIDTH, HEIGHT = 880, 452
OWNER, STRANGER = Box(12, 12, 400, 428), Box(468, 12, 400, 428)
FREE = Box(34, 196, 186, 66)
LENT, PASSED = Box(232, 66, 160, 62), Box(488, 66, 160, 62)
INBOX, CACHE = Box(232, 322, 160, 66), Box(488, 322, 186, 66)

TITLE = "A buffer's journey"
DESCRIPTION = (
    "Two threads, each with an allocator: A, the owner of the buffer, and B. "
    "1: A lends a slot from its free list. 2: the program hands the buffer to the thread of B, without a copy. "
    "3: that thread frees it at B, which doesn't own it. 4: B keeps it in its remote cache. "
    "5: B posts its cache to the inbox of A, as one batch. 6: A takes the batch, and the slot is in its free list again. "
    "7: A lends it again.")

# The buffer of this journey, another slot of A, another allocator's slot, and a place whose slot is away.
THIS, OWN, OTHER, AWAY = "this", "own", "other", "empty"


def slots(x, y, kinds):
    return [rectangle(Box(x + 22 * i, y, 17, 17), kind, corner=3) for i, kind in enumerate(kinds)]


def place(box, kind, words, kinds, more=""):
    """A box with words, the slots that are in it, and words behind these."""
    behind = [text(box.x + 14 + 22 * len(kinds), box.y + 48, more, "small")] if more else []
    named = text(box.x + 12, box.y + 23, words, "strong")
    return [rectangle(box, kind), named, *slots(box.x + 12, box.y + 35, kinds), *behind]


def step(x, y, count):
    """The number of a step, on its arrow."""
    return [f'<circle class="mark" cx="{x}" cy="{y}" r="11"/>', text(x, y + 4.5, str(count), "on middle")]


def places():
    return [
        rectangle(OWNER, "panel"), text(34, 40, "A thread with allocator A, the owner", "strong"),
        rectangle(STRANGER, "panel"), text(488, 40, "A thread with allocator B", "strong"),
        *place(FREE, "first", "Free list of A", [AWAY, OWN, OWN, OWN, OWN], "…"),
        *place(LENT, "first", "A buffer, lent", [THIS], "a slice of the region"),
        *place(PASSED, "second", "The same buffer", [THIS], "the same bytes"),
        *place(CACHE, "second", "Remote cache of B", [OWN, OWN, THIS, OTHER, OTHER], "…"),
        *place(INBOX, "first", "Inbox of A", [OWN, OWN, THIS], "a batch"),
    ]


def legend():
    kinds = [(34, THIS, "this buffer"), (150, OWN, "others of A"), (270, OTHER, "of other owners")]
    return [part for x, kind, words in kinds for part in (*slots(x, 411, [kind]), text(x + 23, 424, words, "small"))]


def arrows():
    return [
        path("M112 196C112 136 150 97 229 97", headed=True),
        path("M392 97H485", headed=True),
        path("M568 128V319", headed=True),
        path("M488 355H395", headed=True),
        path("M232 355C150 355 112 324 112 265", headed=True),
    ]


def steps():
    return [
        *step(119, 155, 1), *step(143, 121, 7), *step(440, 97, 2), *step(568, 224, 3),
        *step(694, 355, 4), *step(440, 355, 5), *step(138, 326, 6),
    ]


def words():
    return [
        lines(34, 76, ["1: lent by A", "7: lent again"], "small"),
        lines(392, 152, ["2: handed over by the program,", "without a copy"], "small end"),
        lines(590, 220, ["3: freed at B, which doesn't own it:", "no byte is changed"], "small"),
        lines(714, 334, ["4: cached, until these", "are above the limit,", "or B is flushed"], "small"),
        lines(488, 412, ["5: posted: all that goes to A, as one message,", "without a lock"], "small"),
        lines(34, 376, ["6: taken home, when A", "looks into its inbox"], "small"),
    ]


def picture():
    return page(WIDTH, HEIGHT, TITLE, DESCRIPTION, [*places(), *legend(), *arrows(), *steps(), *words()])
