"""Where the nodes of a graph stand: in layers, each above all that it stands on.

A line that passes a layer has a bend there. Lines down to one node share their bends.
"""
import math
import random
from dataclasses import dataclass
from itertools import combinations

# From how many orders the best is looked for.
BEGINNINGS = 24

# How often the places along the layers are drawn towards one another.
ROUNDS = 60


@dataclass(frozen=True)
class Bend:
    """Where lines down to a node pass a layer."""
    below: str
    layer: int


def reached(graph, node):
    """All that a node stands on, near or far."""
    return set().union(*({below} | reached(graph, below) for below in graph[node]))


def reduced(graph):
    """The graph without what follows from its other lines."""
    far = {node: set().union(*(reached(graph, below) for below in graph[node])) for node in graph}
    return {node: [below for below in graph[node] if below not in far[node]] for node in graph}


def heights(graph):
    """The layer of each node, from 0: one above the highest that it stands on."""
    found = {}

    def height(node):
        if node not in found:
            found[node] = 1 + max((height(below) for below in graph[node]), default=-1)
        return found[node]

    return {node: height(node) for node in graph}


def links_of(graph, layer_of):
    """Pairs of an upper and a lower one, each in the layer below: nodes and bends."""
    links = {}
    for node, belows in graph.items():
        for below in belows:
            upper = node
            for layer in range(layer_of[node] - 1, layer_of[below], -1):
                links[upper, Bend(below, layer)] = None
                upper = Bend(below, layer)
            links[upper, below] = None
    return list(links)


def rows_of(graph, layer_of, links):
    """Nodes and bends of each layer, the lowest first."""
    rows = [[] for _ in range(1 + max(layer_of.values()))]
    for node in graph:
        rows[layer_of[node]].append(node)
    for bend in dict.fromkeys(lower for _, lower in links if isinstance(lower, Bend)):
        rows[bend.layer].append(bend)
    return rows


def crossings(rows, links):
    """How many pairs of lines cross, and how far lines lead sideways."""
    at = {item: (layer, place - (len(row) - 1) / 2) for layer, row in enumerate(rows) for place, item in enumerate(row)}
    gaps = [[] for _ in rows]
    for upper, lower in links:
        gaps[at[upper][0]].append((at[upper][1], at[lower][1]))
    crossed = sum((a[0] - b[0]) * (a[1] - b[1]) < 0 for gap in gaps for a, b in combinations(gap, 2))
    return crossed, sum((a - b) ** 2 for gap in gaps for a, b in gap)


def better(rows, links):
    """The best of the orders that differ from this one by two items of a layer, or `None`."""
    best, least = None, crossings(rows, links)
    for layer, row in enumerate(rows):
        for i, j in combinations(range(len(row)), 2):
            swapped = list(row)
            swapped[i], swapped[j] = row[j], row[i]
            tried = [*rows[:layer], swapped, *rows[layer + 1:]]
            cost = crossings(tried, links)
            if cost < least:
                best, least = tried, cost
    return best


def settled(rows, links):
    """The rows in an order that no swap makes better."""
    while (found := better(rows, links)) is not None:
        rows = found
    return rows


def ordered(rows, links):
    """The best order that is found from several beginnings, which are the same in each run."""
    chance = random.Random(1)
    begun = [[sorted(row, key=lambda _: chance.random()) for row in rows] for _ in range(BEGINNINGS)]
    return min((settled(it, links) for it in [rows, *begun]), key=lambda it: crossings(it, links))


def spread(wanted, apart, most):
    """Places near the wanted ones, in their order, so far apart, from 0 to the most."""
    offsets = [sum(apart[:i]) for i in range(len(wanted))]
    groups = []
    for want, offset in zip(wanted, offsets):
        groups.append([want - offset, 1])
        while len(groups) > 1 and groups[-2][0] > groups[-1][0]:
            (a, m), (b, n) = groups[-2:]
            groups[-2:] = [[(a * m + b * n) / (m + n), m + n]]
    flat = [value for value, count in groups for _ in range(count)]
    return [min(max(value, 0), most - offsets[-1]) + offset for value, offset in zip(flat, offsets)]


def middle(values):
    """Their mean; rounded once, so that it is the same wherever it is computed."""
    return math.fsum(values) / len(values)


def places(rows, links, apart, most):
    """The place of each node and bend along its layer, from 0 to the most. `apart` tells how far two are parted."""
    near = {item: [] for row in rows for item in row}
    for upper, lower in links:
        near[upper].append(lower)
        near[lower].append(upper)
    at = {item: most * (i + 1) / (len(row) + 1) for row in rows for i, item in enumerate(row)}
    for turn in range(2 * ROUNDS):
        for row in rows if turn % 2 else reversed(rows):
            wanted = [middle([at[other] for other in near[item]] or [at[item]]) for item in row]
            at |= zip(row, spread(wanted, [apart(a, b) for a, b in zip(row, row[1:])], most))
    return at
