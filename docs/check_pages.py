#!/usr/bin/env python3
"""Compares pages with the tree: status 1, with what is wrong, unless all of this is so.

    python3 docs/check_pages.py [--write]

- Each crate of crates.txt stands once in the table of docs/ARCHITECTURE.md, below those that stand on it, with what it stands on: but for what is below another crate that
  it names, and then the kit's crates in italics. With --write that column is written. Each crate has a README.md.
- The picture of the layers, and the map of subjects, name each crate but those of tests, the picture once.
- Each wrong body (crates/CRATE/must-fail, bench/edits/CRATE) is named in docs/PROMISES.md, and each that is named in its third column is there.
- Each link of a page to a file of the repository leads to one.

Run at the top of the repository. Needs Python 3.8 and no package.
"""
import glob
import os
import re
import sys

PAGE = os.path.join("docs", "ARCHITECTURE.md")
SECTION = "## The crates, bottom to top"
ROW = re.compile(r"^\| `(\w+)` \| ([^|]*) \|[^|]*\|$")


def wrong_pictures(text, names):
    """Crates that the picture of the layers doesn't have once, or the map of subjects not at all; names of none."""
    parts = {part.split("\n", 1)[0]: part for part in text.split("\n## ")}
    drawn = re.findall(r"\b(?:cw_\w+|capweave)\b", parts["The layers"].split("```")[1])
    mapped = re.findall(r"`(cw_\w+|capweave)`", parts["Where a subject stands"])
    wanted = {name for name in names if not name.endswith("_tests")}
    wrong = [f"{name} stands in the picture {drawn.count(name)} times" for name in sorted(wanted | set(drawn)) if drawn.count(name) != (name in wanted)]
    return wrong + [f"{name} isn't in the map of subjects" for name in sorted(wanted - set(mapped))]


def wrong_edits():
    """Wrong bodies that docs/PROMISES.md doesn't name, and names of none."""
    page = os.path.join("docs", "PROMISES.md")
    there = {os.path.basename(path)[: -len(".edit")] for path in glob.glob("crates/*/must-fail/*.edit") + glob.glob("bench/edits/*/*.edit")}
    with open(page, encoding="utf-8") as lines:
        rows = [line.split(" | ") for line in lines if line.startswith("| ") and not line.startswith("| Call")]
    named = {name for row in rows if len(row) > 2 for name in re.findall(r"`(\w+)`", row[2])}
    return [f"{page}: no edit {name}" for name in sorted(named - there)] + [f"{page}: {name} isn't named" for name in sorted(there - named)]


def wrong_links():
    """Links of pages that lead to no file."""
    wrong = []
    for page in sorted(glob.glob("*.md") + glob.glob("docs/*.md") + glob.glob("bench/*.md") + glob.glob("examples/*.md") + glob.glob("crates/*/README.md")):
        with open(page, encoding="utf-8") as text:
            for target in re.findall(r"\]\(([^)#]+)(?:#[^)]*)?\)", text.read()):
                if "://" not in target and not os.path.exists(os.path.join(os.path.dirname(page), target)):
                    wrong.append(f"{page}: no file {target}")
    return wrong


def main():
    uses = {}
    with open("crates.txt", encoding="utf-8") as lines:
        for line in lines:
            name, colon, rest = line.split("#")[0].partition(":")
            if colon:
                uses[name.split()[0]] = rest.split()

    def below(name, found):
        for use in uses.get(name, ()):
            if use in uses and use not in found:
                found.add(use)
                below(use, found)
        return found

    def stands_on(name):
        mine = [use for use in uses[name] if use in uses]
        direct = sorted(use for use in mine if not any(use in below(other, set()) for other in mine if other != use))
        kit = sorted(use for use in uses[name] if use not in uses)
        return ", ".join([f"`{use}`" for use in direct] + [f"*{use}*" for use in kit])

    with open(PAGE, encoding="utf-8") as page:
        lines = page.read().splitlines()
    wrong, seen = [], []
    inside = False
    for number, line in enumerate(lines):
        if line.startswith("## "):
            inside = line == SECTION
        match = ROW.match(line) if inside else None
        if not match:
            continue
        name = match[1]
        if name not in uses:
            wrong.append(f"{name} isn't in crates.txt")
            continue
        if name in seen:
            wrong.append(f"{name} stands there twice")
        early = [use for use in uses[name] if use in uses and use not in seen]
        wrong += [f"{name} stands above {use}, on which it stands" for use in early if any(line.startswith(f"| `{use}` |") for line in lines[number:])]
        seen.append(name)
        lines[number] = f"| `{name}` | {match[2]} | {stands_on(name)} |"
        if lines[number] != line and "--write" not in sys.argv[1:]:
            wrong.append(f"{name} stands on {stands_on(name)}")
    wrong += [f"{name} isn't there" for name in sorted(uses) if name not in seen]
    wrong += wrong_pictures("\n".join(lines), uses)
    wrong += [f"{name} has no README.md" for name in sorted(uses) if not os.path.exists(os.path.join("crates", name, "README.md"))]
    if "--write" in sys.argv[1:]:
        with open(PAGE, "w", encoding="utf-8") as page:
            page.write("\n".join(lines) + "\n")
    wrong = [f"{PAGE}: {one}" for one in wrong] + wrong_edits() + wrong_links()
    for one in wrong:
        print(one, file=sys.stderr)
    return 1 if wrong else 0


if __name__ == "__main__":
    sys.exit(main())
