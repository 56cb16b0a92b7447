#!/usr/bin/env python3
"""Lists what a reader must believe: every definition that the contract of the top call, `capweave`, reaches.

    python3 bench/believed.py            the list as docs/SEMANTICS.md has it
    python3 bench/believed.py --check    nothing, with status 0; or status 1 where docs/SEMANTICS.md says something else
    python3 bench/believed.py --write    puts the list into docs/SEMANTICS.md
    python3 bench/believed.py --all      files reached from a contract of any function, and those reached from none
    python3 bench/believed.py --why FILE from which definition a file of specs/ is reached, up to the contract

It begins with the words of the contract of `capweave` (crates/cw_cli/src/command.rt) and of the traits that it is generic over. A word is
followed to the words of its own definition alone, through the `use` lines of its file: also one of a definition in a `module` or a `mutual`,
and one behind a name that a module was given (`use .. as name`). A constructor leads to its data type. Where a word can't be told from a
variable of the same name it is followed, so the list may be too long and is never too short. Lines are counted without blank ones,
comments and `use` lines. Run at the top of the repository. Needs Python 3.8 and no package.
"""
import argparse
import os
import re
import sys

PAGE = os.path.join("docs", "SEMANTICS.md")
TOP = ("cw_cli", os.path.join("crates", "cw_cli", "src", "command.rt"), "capweave")
HEAD = "| Crate | Definitions (`specs/`), with their lines | Types of its code that they name |"

WORD = re.compile(r"[^\W\d][\w'-]*(?:\.[^\W\d][\w'-]*)?|◌[^\s,{}()]*◌|[^\w\s,{}().◌]+")
USE = re.compile(r"^[ \t]*(?:ghost )?(?:pub )?use Rattle\.(\w+)\.(?:specs|proofs)\.([\w.'-]+?)(?:\.\{([^}]*)\}| as ([\w'-]+))?;?[ \t]*(?:--.*)?$", re.M)
DEFINED = re.compile(r"(?:abbrev |unfoldable )?(?:pub )?(?:(data|record) )?(◌[^\s,{}()]*◌|[^\W\d][\w'-]*)(?=\s|:|$)")
GROUP = re.compile(r"(?:abbrev |unfoldable )?(?:mutual\s*$|module\b)")


def uses_of(text):
    """The words that a file brings in, by their names here, and the modules that it gives a name."""
    words, modules = {}, {}
    for crate, module, names, alias in USE.findall(text):
        if alias:
            modules[alias] = (crate, module)
        for name in names.split(","):
            there, _, here = name.strip().partition(" as ")
            if there:
                words[(here or there).strip()] = (crate, module, there.strip())
    return words, modules


def words_in(code):
    return set(WORD.findall(code))


class Definitions:
    """A file of specs/: its definitions by name, each with the words that stand in it."""

    def __init__(self, path):
        self.path = path
        text = open(path, encoding="utf-8").read()
        self.words, self.modules = uses_of(text)
        self.defined = {}
        self.lines = 0
        groups = [(0, set())]
        current, opened = None, False
        for line in re.sub(r"^(?:pub )?use [^{\n]*(?:\{[^}]*\})?.*$", "", text, flags=re.M).splitlines():
            code = line.split("--")[0].rstrip()
            stripped = code.strip()
            if not stripped:
                continue
            self.lines += 1
            indent = len(code) - len(code.lstrip())
            if opened:
                groups.append((indent, opened))
                opened = False
            while indent < groups[-1][0]:
                groups.pop()
            words = words_in(stripped)
            if indent == groups[-1][0]:
                if GROUP.match(stripped):
                    # what a module is over belongs to each definition in it
                    opened = words | groups[-1][1] | {"mutual"}
                    current = None
                    continue
                match = DEFINED.match(stripped)
                if match:
                    current = self.defined.setdefault(match[2], set())
                    current |= groups[-1][1]
            elif current is not None:
                match = DEFINED.match(stripped)
                if match and re.match(r"[^=→]*\s:\s", stripped[len(match[0]):] + " ") and not stripped.startswith("pub "):
                    # a constructor leads to its data type
                    self.defined.setdefault(match[2], current)
            if current is not None:
                current |= words


def crates():
    return sorted(name for name in os.listdir("crates") if os.path.isdir(os.path.join("crates", name)))


def files():
    found = {}
    for crate in crates():
        folder = os.path.join("crates", crate, "specs")
        for path, _, names in os.walk(folder):
            for name in sorted(names):
                if name.endswith(".antt") and name != "Lib.antt":
                    full = os.path.join(path, name)
                    found[(crate, os.path.relpath(full, folder)[:-5].replace(os.sep, "."))] = Definitions(full)
    return found


class Code:
    """A contract in a file of src/: what stands from a line on up to the body, without comments."""

    def __init__(self, path, start):
        text = open(path, encoding="utf-8").read()
        self.path = path
        self.words, self.modules = uses_of(text)
        lines = text.splitlines()
        at = next(number for number, line in enumerate(lines) if re.match(start, line))
        part = []
        for line in lines[at:]:
            if line in ("{", "}"):
                break
            code = line.split("//")[0].rstrip()
            if code.strip():
                part.append(code)
        self.text = "\n".join(part)
        self.lines = len(part) + (lines[at].rstrip().endswith("{"))


def resolve(place, word):
    """Where a word of a file leads: (crate, module, name), or nothing."""
    if word in place.words:
        return place.words[word]
    front, dot, rest = word.partition(".")
    if dot and front in place.modules:
        crate, module = place.modules[front]
        return crate, module, rest
    if dot:
        return resolve(place, front)
    return None


def traits():
    """The traits of the crates, by name: where each is declared."""
    found = {}
    for crate in crates():
        folder = os.path.join("crates", crate, "src")
        for path, _, names in os.walk(folder):
            for name in sorted(names):
                if name.endswith(".rt"):
                    full = os.path.join(path, name)
                    for match in re.finditer(r"^pub trait (\w+)", open(full, encoding="utf-8").read(), re.M):
                        found.setdefault(match[1], (crate, full))
    return found


def seeds_of_the_top():
    crate, path, name = TOP
    top = Code(path, rf"pub fn {name}\b")
    parts, taken = [top], []
    declared = traits()
    for bound in sorted(set(re.findall(r"\b\w+: (\w+)", top.text))):
        if bound in declared:
            crate, path = declared[bound]
            trait = Code(path, rf"pub trait {bound}\b")
            parts.append(trait)
            taken.append((crate, bound, trait.lines))
    seeds = {}
    for part in parts:
        for word in words_in(part.text):
            target = resolve(part, word)
            if target:
                seeds[target] = part.path
    return seeds, taken


def seeds_of_all():
    seeds = {}
    for crate in crates():
        for folder, _, names in os.walk(os.path.join("crates", crate, "src")):
            for name in names:
                if name.endswith(".rt"):
                    path = os.path.join(folder, name)
                    text = open(path, encoding="utf-8").read()
                    words, modules = uses_of(text)
                    for target in words.values():
                        seeds[target] = path
                    for alias, (there, module) in modules.items():
                        for word in re.findall(rf"\b{re.escape(alias)}\.([\w'-]+)", text):
                            seeds[(there, module, word)] = path
    return seeds


def reach(all_files, seeds):
    """All definitions that are reached, each with the one that led to it."""
    seen = {}
    todo = [(target, source) for target, source in seeds.items()]
    while todo:
        target, source = todo.pop()
        if target in seen:
            continue
        seen[target] = source
        crate, module, name = target
        file = all_files.get((crate, module))
        if file is None:
            continue
        for word in file.defined.get(name, set(file.words) | set(file.defined)):
            found = resolve(file, word)
            if found is None:
                front = word.partition(".")[0]
                found = (crate, module, front) if front in file.defined else None
            if found:
                todo.append((found, target))
    return seen


def listing(all_files, seen, taken):
    mine = {}
    types = {}
    kit = {}
    for crate, module, name in seen:
        if (crate, module) in all_files:
            mine.setdefault(crate, set()).add(module)
        elif module.startswith("declared."):
            types.setdefault(crate, set()).add(module.split(".")[1])
        elif module.startswith("contracts."):
            types.setdefault(crate, set()).add(module.split(".")[1])
        elif crate not in crates():
            kit.setdefault(crate, {}).setdefault(module, set()).add(name)
    ours = {crate: names for crate, names in types.items() if crate in crates()}
    rows, count, lines = [], 0, 0
    for crate in sorted(set(mine) | set(ours)):
        cells = []
        for module in sorted(mine.get(crate, ())):
            size = all_files[(crate, module)].lines
            cells.append(f"{module} {size}")
            count += 1
            lines += size
        for owner, name, size in taken:
            if owner == crate:
                cells.append(f"trait `{name}` {size}")
                count += 1
                lines += size
        rows.append(f"| `{crate}` | {', '.join(cells)} | {', '.join(sorted(ours.get(crate, ())))} |")
    text = [HEAD, "|---|---|---|"] + rows + ["", f"Together {count} places, {lines} lines, without blank ones, comments and imports."]
    for crate in sorted(kit):
        if crate != "std":
            words = sorted({f"`{module}.{name}`" for module, names in kit[crate].items() for name in names})
            text.append(f"Of the kit's `{crate}`: {', '.join(words)}.")
    modules = sorted({module.split(".")[0] if not module.startswith("declared.") else module for module in kit.get("std", {}) if not module.startswith("declared.")})
    text.append(f"Of its `std` words of {', '.join(f'`{module}`' for module in modules)}.")
    return text


def on_the_page():
    """The lines of the page before the list, the list, and those behind it."""
    lines = open(PAGE, encoding="utf-8").read().splitlines()
    first = lines.index(HEAD) if HEAD in lines else None
    if first is None:
        return lines, [], []
    last = max(number for number, line in enumerate(lines) if line.startswith("Of its `std` words of "))
    return lines[:first], lines[first:last + 1], lines[last + 1:]


def main():
    parser = argparse.ArgumentParser(description=__doc__.splitlines()[0])
    group = parser.add_mutually_exclusive_group()
    group.add_argument("--all", action="store_true", help="from a contract of any function")
    group.add_argument("--check", action="store_true", help="compare with docs/SEMANTICS.md")
    group.add_argument("--write", action="store_true", help="put the list into docs/SEMANTICS.md")
    group.add_argument("--why", metavar="FILE", help="from where a file is reached")
    arguments = parser.parse_args()
    all_files = files()
    if arguments.all:
        seen = reach(all_files, seeds_of_all())
        reached = {(crate, module) for crate, module, _ in seen if (crate, module) in all_files}
        for key in sorted(reached):
            print(f"{all_files[key].path} {all_files[key].lines}")
        print(f"{len(reached)} files, {sum(all_files[key].lines for key in reached)} lines")
        print("reached from no contract:")
        for key in sorted(set(all_files) - reached):
            print(f"{all_files[key].path} {all_files[key].lines}")
        return 0
    seeds, taken = seeds_of_the_top()
    seen = reach(all_files, seeds)
    if arguments.why:
        wanted = os.path.normpath(arguments.why)
        for target in seen:
            file = all_files.get(target[:2])
            if file and os.path.normpath(file.path) == wanted:
                way, at = [], target
                while isinstance(at, tuple):
                    way.append(f"{at[0]} {at[1]}.{at[2]}")
                    at = seen[at]
                print(" <- ".join(way + [at]))
        return 0
    text = listing(all_files, seen, taken)
    if arguments.check:
        _, page, _ = on_the_page()
        for old, new in zip(page + [""] * len(text), text + [""] * len(page)):
            if old != new:
                print(f"{PAGE} says\n  {old}\nand not\n  {new}", file=sys.stderr)
        return 0 if page == text else 1
    if arguments.write:
        before, page, behind = on_the_page()
        if not page:
            print(f"{PAGE} has no line {HEAD}", file=sys.stderr)
            return 1
        with open(PAGE, "w", encoding="utf-8") as file:
            file.write("\n".join(before + text + behind) + "\n")
        return 0
    print("\n".join(text))
    return 0


if __name__ == "__main__":
    sys.exit(main())
