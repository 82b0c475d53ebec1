#!/usr/bin/env python3
"""Whether each link and each image of a document that names a file of this repository leads to one, and each link to a
heading, of the page itself or of another document, to one that is there.

Prints each that doesn't, and how many there are. The exit status is 1 where one leads nowhere.
"""
import argparse
import functools
import pathlib
import re
import subprocess
import sys

TOP = pathlib.Path(__file__).resolve().parent.parent
# What stands behind a link's or an image's words, also where an image is the words of a link; or in an image's tag.
TARGET = re.compile(r"""\]\(([^)\s]+)|<img\b[^>]*\bsrc="([^"]+)""")
CODE = re.compile(r"^```.*?^```", re.M | re.S)
HEADING = re.compile(r"^#+ +(.*?) *$", re.M)
LINK = re.compile(r"\[([^\]]*)\]\([^)]*\)")


def targets(text):
    """What the links and images lead to."""
    return [found.group(1) or found.group(2) for found in TARGET.finditer(text)]


@functools.lru_cache(maxsize=None)
def anchors(page):
    """By which names a link finds the headings of a document: in small letters, with hyphens for spaces, and without
    all else but letters, digits, hyphens and underscores. A heading that stands there again has a number behind it."""
    names = []
    for heading in HEADING.findall(CODE.sub("", page.read_text())):
        name = re.sub(r"[^\w\- ]", "", LINK.sub(r"\1", heading).lower()).replace(" ", "-")
        again = names.count(name)
        names.append(f"{name}-{again}" if again else name)
    return frozenset(names)


def is_there(page, link):
    """Whether this link of the page leads to a file, and to a heading where it names one of a document."""
    path, _, anchor = link.partition("#")
    file = (page.parent / path).resolve() if path else page
    return file.exists() and (not anchor or file.suffix != ".md" or anchor in anchors(file))


def main():
    argparse.ArgumentParser(description=__doc__, formatter_class=argparse.RawDescriptionHelpFormatter).parse_args()
    listed = subprocess.run(["git", "ls-files", "*.md"], cwd=TOP, stdout=subprocess.PIPE, text=True, check=True).stdout
    pages = [(TOP / page).resolve() for page in listed.split()]
    links = [(page, link) for page in pages for link in targets(page.read_text()) if "://" not in link]
    lost = [(page, link) for page, link in links if not is_there(page, link)]
    for page, link in lost:
        print(f"{page.relative_to(TOP)}: {link} is not there")
    print(f"{len(links)} links and images, {len(lost)} lead nowhere")
    return 1 if lost else 0


if __name__ == "__main__":
    sys.exit(main())
