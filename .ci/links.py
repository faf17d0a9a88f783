#!/usr/bin/env python3
"""Tells of links, files and headings that the pages name and that aren't there.

- The target of a link stands beside its page, with the heading that it names.
- A code that looks like a file of this repository, as `docs/REPORT.md`, is the end of some file's path.
  What is built (out/), and words in capitals for any name, aren't asked.
- A file of a crate without the crate's name, as `Machine.antt`, is one of a crate that its line names,
  or the heading of its section, or a folder `crates/NAME/specs` in the introduction of its page. If none
  of these names a crate, only one file of the repository is called so.
- A heading in quotes after a page, as in `REPORT.md`, "An instant", stands on that page."""

import collections
import pathlib
import re
import sys

from headings import PAGES, TOP, headings

LINK = re.compile(r"\]\(([^)\s]+)\)")
CODE = re.compile(r"`([^`\n]+)`")
FILE = re.compile(r"[\w.-]+(/[\w.-]+)*\.(antt|args|css|html|js|loft|md|mjs|py|rt|sh|stdout|svg|tsv|txt)")
FOLDER = re.compile(r"(\.ci|cases|crates|docs|editors|examples|loft_\w+|scripts|view)/[\w./-]+")
CITED = re.compile(r'`((?:\w+/)?[A-Z]+\.md)`((?:,| and| or)(?: )?"[^"]+")+')
QUOTED = re.compile(r'"([^"]+)"')
OF_CRATE = re.compile(r"(?!(?:crates|loft_\w+)/).*\.(antt|rt)")
CRATE = re.compile(r"\bloft_\w+")
HOME = re.compile(r"`crates/(loft_\w+)/specs`")
ANY_NAME = re.compile(r"(^|/)[A-Z]+(\.(?!md)|/|$)")


def paths():
    """The path of each file and each folder, after a slash, by its last part."""
    found = collections.defaultdict(list)
    for path in TOP.rglob("*"):
        parts = path.relative_to(TOP).parts
        if parts[0] != ".git" and "out" not in parts:
            found[parts[-1]].append("/" + "/".join(parts))
    return found


def prose(page):
    """The text of a page without its fenced blocks."""
    return re.sub(r"^```.*?^```$", "", page.read_text(encoding="utf-8"), flags=re.M | re.S)


def anchor(heading):
    """How a link names a heading."""
    return re.sub(r"[^\w\- ]", "", heading).replace(" ", "-")


def crates_in(line):
    """The crates that a line names."""
    return {name for name in CRATE.findall(line) if (TOP / "crates" / name).is_dir()}


def wrong_links(page, text):
    """The links of a page that lead nowhere."""
    for link in LINK.findall(CODE.sub("", text)):
        target, _, heading = link.partition("#")
        file = page.parent / target if target else page
        if ":" in target:
            continue
        if not file.exists():
            yield f"the link {link} leads nowhere"
        elif heading and heading not in map(anchor, headings(file)):
            yield f"the link {link} names no heading there"


def wrong_files(text, known):
    """The files that a page names and that aren't there, or aren't in a crate that is named with them."""
    homes = set(HOME.findall(text.partition("\n## ")[0]))
    titled = set()
    for line in text.splitlines():
        if line.startswith("#"):
            titled = crates_in(line)
        for code in CODE.findall(line):
            is_asked = FILE.fullmatch(code) or FOLDER.fullmatch(code)
            if not is_asked or "/out/" in f"{code}/" or ANY_NAME.search(code):
                continue
            code = code.rstrip("/")
            found = [path for path in known[code.split("/")[-1]] if path.endswith("/" + code)]
            crates = crates_in(line) | titled | homes
            if not found:
                yield f"there is no {code}"
            elif OF_CRATE.fullmatch(code) and crates and not any(path.split("/")[2] in crates for path in found):
                yield f"there is no {code} in {' or '.join(sorted(crates))}"
            elif OF_CRATE.fullmatch(code) and not crates and len(found) > 1:
                yield f"there are {len(found)} files {code}: name the crate"


def wrong_headings(text):
    """The headings that a page cites and that aren't on the page that they are cited from."""
    for cited in CITED.finditer(text):
        pages = [page for page in (TOP / cited[1], TOP / "docs" / cited[1]) if page.is_file()]
        there = {heading for page in pages for heading in headings(page)}
        for heading in QUOTED.findall(cited[0]):
            if heading.lower() not in there:
                yield f'{cited[1]} has no heading "{heading}"'


def main():
    known = paths()
    found = 0
    for page in sorted(page for pages in PAGES for page in TOP.glob(pages)):
        text = prose(page)
        for wrong in [*wrong_links(page, text), *wrong_files(text, known), *wrong_headings(text)]:
            print(f"{page.relative_to(TOP)}: {wrong}")
            found += 1
    print(f"links, files and headings that aren't there: {found}")
    return 1 if found else 0


if __name__ == "__main__":
    sys.exit(main())
