"""Bars as SVG: a group for each workload, a bar for each allocator, over a scale in nanoseconds. Shorter is better.

A picture has a ground of its own, so that it can be read on any page, light or dark. It is light, and dark for a
reader who set that.
"""
import math

HEIGHT, GAP, TOP, LEFT, WIDTH, RIGHT = 17, 16, 64, 226, 580, 60
OURS = ["desk", "Inbox", "LinkInbox", "Inbox, in parcels", "LinkInbox, in parcels"]
UNIT = "nanoseconds for one buffer"

# The least number of steps that a scale has, and the least number that it leads to.
STEPS, LEAST = 4, 1

LOOP = "Nanoseconds for one buffer lent and freed, without the loop; shorter is better"

STYLE = """<style>
text{font:12px sans-serif;fill:#24292f}
.head{font-size:13px;font-weight:bold}.group{font-weight:bold}.unit{fill:#57606a}
.value{paint-order:stroke;stroke:#f6f8fa;stroke-width:4px}
.end{text-anchor:end}.middle{text-anchor:middle}
.ground{fill:#f6f8fa}.line{stroke:#d3d9df}.axis{stroke:#57606a}
.ours{fill:#c2410c}.other{fill:#7d8a99}
@media (prefers-color-scheme: dark) {
text{fill:#e6edf3}.unit{fill:#9da7b1}.value{stroke:#161b22}
.ground{fill:#161b22}.line{stroke:#343b44}.axis{stroke:#9da7b1}
.ours{fill:#f0743e}.other{fill:#7d8a99}
}
</style>"""


def bars(groups, names, words=LOOP):
    """The picture of nanoseconds by group and name, under these words. A group may lack a name, or its value."""
    shown = {group: given(values, names) for group, values in groups.items()}
    ticks = scale(max([LEAST, *(value for values in shown.values() for value in values.values())]))
    tops = tops_of(shown)
    foot = TOP + sum(HEIGHT * len(values) + GAP for values in shown.values())
    drawn = [part for group, values in shown.items() for part in bars_of(group, values, tops[group], ticks[-1])]
    return page(words, foot + 44, [*axis(ticks, foot), *drawn, *legend(foot + 24)])


def given(values, names):
    """The values of these names, in their order, where there is one."""
    return {name: values[name] for name in names if values.get(name) is not None}


def scale(most):
    """The numbers of an axis from 0 to the most or more, in steps of 1, 2 or 5 times a power of ten."""
    power = 10.0 ** math.floor(math.log10(most / STEPS))
    step = max(times * power for times in (1, 2, 5) if times * power * STEPS <= most)
    return [step * i for i in range(math.ceil(most / step) + 1)]


def tops_of(shown):
    """Where each group begins."""
    tops, y = {}, TOP + GAP / 2
    for group, values in shown.items():
        tops[group] = y
        y += HEIGHT * len(values) + GAP
    return tops


def axis(ticks, foot):
    """The scale above and below the bars, with its unit, and a line through them for each number."""
    parts = []
    for tick in ticks:
        x = LEFT + tick / ticks[-1] * WIDTH
        kind = "line" if tick else "axis"
        parts.append(f'<path class="{kind}" d="M{x:.1f} {TOP}V{foot}"/>')
        parts += [text(x, y, f"{tick:g}", "unit middle") for y in (TOP - 6, foot + 16)]
    return [*parts, text(LEFT + WIDTH / 2, foot + 34, UNIT, "unit middle")]


def legend(top):
    """Whose each colour is."""
    parts = []
    for x, kind, words in [(14, "ours", "this pool"), (110, "other", "others")]:
        parts += [f'<rect class="{kind}" x="{x}" y="{top}" width="13" height="13"/>', text(x + 19, top + 11, words)]
    return parts


def bars_of(group, values, top, most):
    """A group's name, and a bar for each of its values."""
    middle = top + HEIGHT * len(values) / 2 + 4
    drawn = [bar(top + HEIGHT * i, name, value, most) for i, (name, value) in enumerate(values.items())]
    return [text(14, middle, group, "group"), *drawn]


def bar(top, name, value, most):
    """A bar between its name and its value. A value of less than nothing, where a loop was slower, has no length."""
    width = min(max(value / most, 0), 1) * WIDTH
    kind, line = "ours" if name in OURS else "other", top + HEIGHT - 5
    before = text(LEFT - 8, line, name, "end")
    rectangle = f'<rect class="{kind}" x="{LEFT}" y="{top + 2:.1f}" width="{max(width, 1):.1f}" height="{HEIGHT - 4}"/>'
    return "\n".join([before, rectangle, text(LEFT + width + 6, line, f"{value:.1f}", "value")])


def text(x, y, words, kind=""):
    named = f' class="{kind}"' if kind else ""
    return f'<text x="{x:.1f}" y="{y:.1f}"{named}>{words}</text>'


def page(words, height, parts):
    width = LEFT + WIDTH + RIGHT
    size = f'width="{width}" height="{height}" viewBox="0 0 {width} {height}"'
    opening = f'<svg xmlns="http://www.w3.org/2000/svg" {size} role="img" aria-labelledby="title">'
    ground = f'<rect class="ground" width="{width}" height="{height}" rx="10"/>'
    named = f'<title id="title">{words}</title>'
    return "\n".join([opening, named, STYLE, ground, text(14, 26, words, "head"), *parts, "</svg>\n"])
