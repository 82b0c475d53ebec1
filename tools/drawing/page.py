"""A page as SVG, and what pictures are made of.

A page has a ground of its own. So its words can be read on any document, light or dark. It is light, and dark for a
reader who set that.
"""
from dataclasses import dataclass

# What each class is drawn with: on a light ground, and what is other on a dark one.
LIGHT = """\
text{font:13px sans-serif;fill:#24292f}
.strong{font-weight:bold}.small{font-size:11.5px}.quiet{fill:#57606a}.on{font-weight:bold;fill:#fff}
.middle{text-anchor:middle}.end{text-anchor:end}
.ground{fill:#f6f8fa}.panel{fill:#fff;stroke:#c4ccd4}
.first{fill:#dcebfa;stroke:#2f6fb0}.second{fill:#def3e3;stroke:#2b7a4b}.third{fill:#f1e6fa;stroke:#7b4fa6}
.empty{fill:none;stroke:#2f6fb0;stroke-dasharray:3 2}.own{fill:#2f6fb0}.other{fill:#a8b1ba}.this{fill:#c2410c}.mark{fill:#57606a}
.line{fill:none;stroke:#57606a;stroke-width:1.5}.head{fill:#57606a}"""
DARK = """\
text{fill:#e6edf3}.quiet{fill:#9da7b1}.on{fill:#fff}
.ground{fill:#161b22}.panel{fill:#0d1117;stroke:#3d444d}
.first{fill:#14304f;stroke:#6cb0f2}.second{fill:#12351f;stroke:#5fbf86}.third{fill:#33204a;stroke:#b78be0}
.empty{stroke:#6cb0f2}.own{fill:#4c94dd}.other{fill:#6e7781}.this{fill:#f0743e}
.line{stroke:#9da7b1}.head{fill:#9da7b1}"""
HEAD = ('<defs><marker id="head" viewBox="0 0 8 8" refX="7" refY="4" markerWidth="7" markerHeight="7" orient="auto">'
        '<path class="head" d="M0 0L8 4L0 8Z"/></marker></defs>')


@dataclass
class Box:
    """A rectangle by its left upper corner and its size."""
    x: float
    y: float
    width: float
    height: float

    @property
    def middle(self):
        return self.x + self.width / 2


def escaped(words):
    return words.replace("&", "&amp;").replace("<", "&lt;").replace(">", "&gt;")


def number(value):
    return f"{value:.1f}".removesuffix(".0")


def text(x, y, words, kind=""):
    named = f' class="{kind}"' if kind else ""
    return f'<text x="{number(x)}" y="{number(y)}"{named}>{escaped(words)}</text>'


def lines(x, y, words, kind=""):
    """Words below one another."""
    return "\n".join(text(x, y + 17 * i, line, kind) for i, line in enumerate(words))


def rectangle(box, kind, corner=6):
    place = f'x="{number(box.x)}" y="{number(box.y)}"'
    size = f'width="{number(box.width)}" height="{number(box.height)}"'
    return f'<rect class="{kind}" {place} {size} rx="{corner}"/>'


def path(steps, kind="line", headed=False):
    """A line by the letters and numbers of an SVG path."""
    ending = ' marker-end="url(#head)"' if headed else ""
    return f'<path class="{kind}" d="{steps}"{ending}/>'


def page(width, height, title, description, parts):
    size = f'width="{width}" height="{number(height)}" viewBox="0 0 {width} {number(height)}"'
    opening = f'<svg xmlns="http://www.w3.org/2000/svg" {size} role="img" aria-labelledby="title description">'
    named = f'<title id="title">{escaped(title)}</title>\n<desc id="description">{escaped(description)}</desc>'
    style = f"<style>\n{LIGHT}\n@media (prefers-color-scheme: dark) {{\n{DARK}\n}}\n</style>"
    ground = rectangle(Box(0, 0, width, height), "ground", corner=10)
    return "\n".join([opening, named, style, HEAD, ground, *parts, "</svg>\n"])
