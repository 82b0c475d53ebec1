"""For who changes the exports of the C library: the table from which `walks.py` writes them."""
from dataclasses import dataclass


@dataclass
class Kind:
    """What lies behind a pointer: C's type, Rattle's, where it is declared, and what a size's doc calls it."""

    c: str
    rust: str
    path: str
    noun: str
    lifetime: bool = True

    @property
    def module(self):
        return self.path.replace("::", ".")

    @property
    def static(self):
        return self.rust + ("<'static>" if self.lifetime else "")


KINDS = {
    "pool": Kind("FvPool", "Pool", "pool::Pool", "a pool"),
    "allocator": Kind("FvAllocator", "AllocatorHandle", "allocator_handle::AllocatorHandle", "an allocator"),
    "buf": Kind("FvBuf", "BufHandle", "buf_handle::BufHandle", "a buffer's handle"),
    "burst": Kind("FvBurst", "BurstHandle", "burst_handle::BurstHandle", "a burst"),
    "span": Kind("FvSpan", "Span", "span::Span", "a span", lifetime=False),
}
WIDTHS = {"u32": "w32", "u64": "w64", "usize": "w64"}


@dataclass
class Export:
    """An export: its form, the kinds behind its pointers, its numbers, what it answers, and the method that it calls."""

    name: str
    form: str
    pointers: list
    numbers: list
    answer: str
    method: str
    doc: str
    # a definition of the crate below that the callee's clause names and the export repeats: FILE.DEFINITION
    clause: str = ""
    # what it speaks of before the answer, and of which pointers' values, before and after
    clause_of: str = ""
    clause_about: tuple = ()

    @property
    def definition(self):
        return self.clause.partition(".")[2]

    @property
    def callee(self):
        return KINDS[self.pointers[0]].module + "." + self.method

    @property
    def path(self):
        return KINDS[self.pointers[0]].path + "::" + self.method


def makes(kind, doc, form="makes"):
    return Export(f"fv_{kind}_init", form, [kind], [], "", "new", doc)


def lends(name, pointers, numbers, method, doc, answer="u32", clause="", of="", about=None):
    about = tuple(about or pointers[-1:]) if clause else ()
    return Export(name, "lends", pointers, numbers, answer, method, doc, clause, of, about)


SIZE = [("size", "usize")]
WHICH = [("which", "u32")]
EXPORTS = [
    makes("pool", "Makes a pool that is not open.", form="makes_with_heap"),
    makes("allocator", "Makes an allocator that is not attached to a pool."),
    makes("buf", "Makes a handle that holds no buffer."),
    makes("burst", "Makes a burst that is not open."),
    Export(
        "fv_pool_open_numbered", "opens", ["pool"],
        [("allocators", "u32"), ("bits", "u32"), ("limit", "u64"), ("number", "u64")], "u32", "open",
        "Opens the pool of this number over a region, which is lent for good: 0, or why not.", "Shelves.Opens", "number",
    ),
    lends(
        "fv_pool_attach", ["pool", "allocator"], [], "attach",
        "Hands an allocator of the pool out: 0, or why not.", clause="Shelves.HandsOut", about=["pool", "allocator"],
    ),
    lends(
        "fv_pool_detach", ["pool", "allocator"], [], "detach",
        "Takes an allocator back: 0, or why not.", clause="Shelves.TakesBack", about=["pool", "allocator"],
    ),
    lends(
        "fv_pool_close", ["pool"], [], "close", "Audits the pool and ends it: 0, or what is wrong.",
        clause="Shelves.Closes",
    ),
    lends(
        "fv_pool_stat", ["pool"], WHICH, "stat", "A number about the pool.", answer="u64",
        clause="Stats.TellsPoolStat", of="which",
    ),
    lends(
        "fv_alloc", ["allocator", "buf"], SIZE, "alloc", "Lends a buffer of at least so many bytes: 0, or why not.",
        clause="Handles.LendsInto", of="size", about=["allocator", "buf"],
    ),
    lends(
        "fv_free", ["allocator", "buf"], [], "free", "Takes a buffer back, at any allocator of its pool: 0, or why not.",
        clause="Handles.TakesOut", about=["allocator", "buf"],
    ),
    lends(
        "fv_flush", ["allocator"], [], "flush", "Takes what came home, and posts all that is cached: 0, or why not.",
        clause="Stats.Flushes",
    ),
    lends(
        "fv_collect", ["allocator"], [], "collect", "Takes what came home: 0, or why nothing was taken.",
        clause="Stats.Collects",
    ),
    lends(
        "fv_allocator_stat", ["allocator"], WHICH, "stat", "A number about the allocator.", answer="u64",
        clause="Stats.TellsStat", of="which",
    ),
    lends(
        "fv_buf_capacity", ["buf"], [], "capacity", "How many bytes the buffer has; 0 where the handle holds none.",
        answer="u64", clause="Handles.TellsCapacity",
    ),
    lends(
        "fv_buf_len", ["buf"], [], "len", "How many bytes count as filled; 0 where the handle holds none.",
        answer="u64", clause="Handles.TellsFilled",
    ),
    lends(
        "fv_buf_set_len", ["buf"], [("len", "usize")], "set_len",
        "Says how many bytes count as filled: 0, or why not.", clause="Handles.SetsFilled", of="len",
    ),
    lends(
        "fv_burst_open", ["allocator", "burst"], [("places", "usize")], "open",
        "Opens an empty burst for buffers of the allocator: 0, or why not.", clause="Bursts.OpensBurst", of="places",
        about=["allocator", "burst"],
    ),
    lends(
        "fv_burst_fill", ["allocator", "burst"], SIZE + [("count", "usize")], "fill",
        "Lends so many buffers into a burst: 0, or why not all of them.", clause="Bursts.Fills",
        of="size count", about=["allocator", "burst"],
    ),
    lends(
        "fv_burst_free", ["allocator", "burst"], [], "free_all", "Takes all buffers of a burst back: 0, or why not.",
        clause="Bursts.TakesBurst", about=["allocator", "burst"],
    ),
    lends(
        "fv_burst_push", ["burst", "buf"], [], "push",
        "Puts a buffer at the end of a burst of its allocator: 0, or why not.",
        clause="Bursts.PutsIn", about=["burst", "buf"],
    ),
    lends(
        "fv_burst_pop", ["burst", "buf"], [], "pop", "Takes the last buffer out of a burst: 0, or why not.",
        clause="Bursts.TakesLast", about=["burst", "buf"],
    ),
    lends(
        "fv_burst_len", ["burst"], [], "len", "How many buffers the burst has; 0 where it is not open.", answer="u64",
        clause="Bursts.TellsCount",
    ),
    lends(
        "fv_burst_at", ["burst", "span"], [("index", "usize")], "span",
        "Tells where the bytes of a buffer of the burst lie: 0, or why not.", clause="Bursts.TellsSpan", of="index",
        about=["burst", "span"],
    ),
]
