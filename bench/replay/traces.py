#!/usr/bin/env python3
"""traces.py KIND LINES: a trace for `poolctl replay`, whose requests all succeed, of so many lines with the header.
Each kind is always the same.

  pairs     one desk: from 1 to 512 bytes are lent and freed at once
  replace   one desk: 1,024 buffers are lent; the oldest is freed, and another is lent
  remote    desk 1 lends and desk 0 frees; where its cache is due it is sent, linked and taken
  mesh      eight desks: each lends and one of the next four frees; what is passed on is sent on
  nothing   a desk takes where nothing is queued: lines that are only read and answered
"""
import functools
import itertools
import random
import sys
from collections import defaultdict

SIZES = [16, 32, 48, 64, 80, 96, 112, 128, 160, 192, 224, 256, 320, 384, 448, 512]
CHUNK = 4096
CHUNKS = 1024
LIMIT = 4096
BITS = 6


def class_for(size):
    return next(k for k, most in enumerate(SIZES) if most >= size)


@functools.cache
def digits_in_common(x, y, width):
    """How many digits of so many bits two numbers of desks share, from the lowest on."""
    alike = ((x >> at) % (1 << width) == (y >> at) % (1 << width) for at in range(0, BITS, width))
    return sum(1 for _digit in itertools.takewhile(bool, alike))


class Pool:
    """As much of a pool as is needed to write requests that succeed."""

    def __init__(self, desks, width):
        self.width = width
        self.lines = [f"pool {desks} {CHUNKS} {width}", *(f"adopt {desk} {desk}" for desk in range(desks))]
        self.kinds = []  # the owner and the class of each chunk
        self.homes = defaultdict(list)  # slots at home, by owner and class, the last on top
        # others' slots, by desk and lowest digit of the owner, as they came
        self.caches = defaultdict(lambda: defaultdict(list))
        self.cached_bytes = defaultdict(int)
        self.batches = 0

    def size(self, slot):
        return SIZES[self.kinds[slot[0]][1]]

    def owner(self, slot):
        return self.kinds[slot[0]][0]

    def draw(self, kind):
        chunk = len(self.kinds)
        self.kinds.append(kind)
        self.lines.append(f"claim {kind[0]} {kind[1]}")
        self.homes[kind] = [(chunk, i) for i in reversed(range(CHUNK // SIZES[kind[1]]))]

    def alloc(self, desk, size):
        kind = desk, class_for(size)
        if not self.homes[kind]:
            self.draw(kind)
        self.lines.append(f"alloc {desk} {size}")
        return self.homes[kind].pop()

    def free(self, desk, slot):
        self.lines.append(f"free {desk} {slot[0]}.{slot[1]}")
        self.keep(desk, slot)
        if self.is_due(desk):
            self.post(desk)

    def keep(self, desk, slot):
        """Puts a slot home, or into the cache."""
        if self.owner(slot) == desk:
            self.homes[self.kinds[slot[0]]].append(slot)
        else:
            self.caches[desk][self.owner(slot) % (1 << self.width)].append(slot)
            self.cached_bytes[desk] += self.size(slot)

    def is_due(self, desk):
        return self.cached_bytes[desk] > LIMIT

    def post(self, desk):
        """Sends the whole cache, and the caches that become due by it."""
        due = [desk]
        while due:
            sender = due.pop()
            while any(self.caches[sender].values()):
                address = self.send(sender)
                if self.is_due(address):
                    due.append(address)

    def send(self, sender):
        """Sends what goes to the owner of some cached slot: all whose owners share more digits with it than the sender
        does. The others' order turns."""
        digit, cached = next((digit, cached) for digit, cached in self.caches[sender].items() if cached)
        address = self.owner(cached[-1])
        near = digits_in_common(sender, address, self.width)
        is_nearer = lambda slot: digits_in_common(self.owner(slot), address, self.width) > near
        goes = [slot for slot in cached if is_nearer(slot)]
        self.caches[sender][digit] = [slot for slot in reversed(cached) if not is_nearer(slot)]
        self.cached_bytes[sender] -= sum(map(self.size, goes))
        self.batches += 1
        self.lines += [f"send {sender} {address}", f"link {self.batches}", f"take {address}"]
        for slot in goes:
            self.keep(address, slot)
        return address


def pairs(sizes):
    pool = Pool(1, 2)
    while True:
        pool.free(0, pool.alloc(0, next(sizes)))
        yield pool


def replace(sizes):
    pool = Pool(1, 2)
    row = [None] * 1024
    for i in itertools.count():
        if row[i % 1024]:
            pool.free(0, row[i % 1024])
        row[i % 1024] = pool.alloc(0, next(sizes))
        yield pool


def remote(sizes):
    pool = Pool(2, 2)
    while True:
        pool.free(0, pool.alloc(1, next(sizes)))
        yield pool


def mesh(sizes):
    pool = Pool(8, 1)
    chosen = random.Random(2)
    for i in itertools.count():
        pool.free((i + chosen.randint(1, 4)) % 8, pool.alloc(i % 8, next(sizes)))
        yield pool


def nothing(_sizes):
    pool = Pool(1, 2)
    while True:
        pool.lines.append("take 0")
        yield pool


KINDS = {"pairs": pairs, "replace": replace, "remote": remote, "mesh": mesh, "nothing": nothing}


def main():
    if len(sys.argv) != 3 or sys.argv[1] not in KINDS:
        sys.exit(__doc__)
    drawn = random.Random(1)
    count = int(sys.argv[2])
    for pool in KINDS[sys.argv[1]](drawn.randint(1, SIZES[-1]) for _ in itertools.count()):
        if len(pool.lines) >= count:
            break
    print("\n".join(pool.lines[:count]))


if __name__ == "__main__":
    main()
