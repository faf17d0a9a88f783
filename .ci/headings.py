#!/usr/bin/env python3
"""Tells of headings that stand twice on one page: a link or a citation couldn't say which is meant."""

import collections
import pathlib
import sys

TOP = pathlib.Path(__file__).resolve().parent.parent
PAGES = ["*.md", "docs/*.md", "cases/*.md", "editors/*.md", "examples/*.md", "view/*.md"]


def headings(page):
    """The headings of a page, in lower case, as links name them. Lines of code blocks are none."""
    is_code = False
    for line in page.read_text(encoding="utf-8").splitlines():
        if line.lstrip().startswith("```"):
            is_code = not is_code
        elif line.startswith("#") and not is_code:
            yield line.lstrip("#").strip().lower()


def main():
    found = 0
    for page in sorted(page for pages in PAGES for page in TOP.glob(pages)):
        for heading, count in collections.Counter(headings(page)).items():
            if count > 1:
                print(f"{page.relative_to(TOP)}: the heading \"{heading}\" stands {count} times")
                found += 1
    print(f"headings that stand twice on a page: {found}")
    return 1 if found else 0


if __name__ == "__main__":
    sys.exit(main())
