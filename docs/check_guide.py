#!/usr/bin/env python3
"""Follows the pages from their first line: runs their commands and compares what each prints, and tries each row of C-SUBSET's table.

    python3 docs/check_guide.py [CAPWEAVE [PAGE]] [--write]

CAPWEAVE is the program; without it that of the environment's variable CAPWEAVE is taken, and else crates/capweave/out/capweave. PAGE is one page, as
docs/GUIDE.md. With --write the pages are written anew with what the commands print. The status is 0 where nothing differs, else 1, with what does.

Each page is followed in an empty folder of its own. A block of c, toml or make whose first line is a comment with a file's name is that file. A block of
console has commands behind `$ ` (a here-document goes on to its end), each with what it prints below. README and PACKAGING are followed in a folder with
the tree's files and CAPWEAVE as the built program. Where this system lets no stand-in enforce, the sections with woven tools run and aren't compared, and
where clang isn't there those with outlines aren't; that is told.

In C-SUBSET the tables with the columns `Source`, `Told`, `Write` have code in the first and the last column, in code marks: of the first `capweave graph`
(or `weave`, in the table of descriptors, and `procs` in that of detached functions) tells what the second says, the last it takes; and a C compiler takes
both, but for what breaks C's rules too.

Needs bash, a C compiler as `cc`, Python 3.8 and no package.
"""
import argparse
import concurrent.futures
import os
import re
import shutil
import subprocess
import sys
import tempfile

ROOT = os.path.dirname(os.path.dirname(os.path.abspath(__file__)))
GUIDES = ("docs/GUIDE.md", "docs/COOKBOOK.md", "docs/COMPANION.md", "docs/POLICIES.md")   # followed in an empty folder
TREES = ("README.md", "docs/PACKAGING.md")                            # followed in a folder like the tree
SUBSET = "docs/C-SUBSET.md"
PART = re.compile(r"^## [^\n]*\n|^```(c|toml|make|console)\n(.*?)^```\n", re.S | re.M)
BLOCK = re.compile(r"```console\n(.*?)```\n", re.S)           # for companion/outline_tests.py, which follows its own page
ENFORCED = re.compile(r"-DCW_ENFORCE|^\$ (?:\w+=\S+ )*\./", re.M)     # a woven tool that is compiled over the stand-in, or run
OUTLINES = shutil.which(os.environ.get("CAPWEAVE_CLANG") or "clang") is not None     # whether real C can be outlined here
NAMED = re.compile(r"(?:/\* (\S+) \*/|# (\S+))\n")
COMMANDS_OF = {"descriptor": ("weave", "fd.toml"), "detaches": ("procs", "own.toml")}     # what tells of a row, and by which policy
HEADERS = "".join("#include <%s>\n" % name for name in (
    "assert.h", "ctype.h", "err.h", "errno.h", "fcntl.h", "getopt.h", "inttypes.h", "limits.h", "signal.h", "stdarg.h", "stdbool.h", "stddef.h", "stdint.h", "stdio.h",
    "pwd.h", "stdlib.h", "string.h", "sys/stat.h", "sys/types.h", "unistd.h"))
SYSTEM = '#include "system.h"\n'                       # for what a BSD's headers have


def commands(block):
    """Each command of a block, with its lines and what it prints."""
    found, lines, place = [], block.splitlines(), 0
    while place < len(lines):
        command = [lines[place][2:]]
        place += 1
        if "<<'END'" in command[0]:
            while command[-1] != "END":
                command.append(lines[place])
                place += 1
        printed = []
        while place < len(lines) and not lines[place].startswith("$ "):
            printed.append(lines[place])
            place += 1
        found.append((command, printed))
    return found


def make_folder(program, like_tree):
    """A folder to follow a page in, and the environment of its commands."""
    top = tempfile.mkdtemp(prefix="pages-")
    paths, work = os.path.join(top, "bin"), os.path.join(top, "work")
    os.mkdir(paths)
    os.mkdir(work)
    os.symlink(program, os.path.join(paths, "capweave"))
    for name in ("capweave-tell", "capweave-outline"):
        os.symlink(os.path.join(ROOT, "companion", name), os.path.join(paths, name))
    if like_tree:
        crates = os.path.join(ROOT, "crates")
        os.makedirs(os.path.join(work, "crates", "capweave", "out"))
        os.symlink(program, os.path.join(work, "crates", "capweave", "out", "capweave"))
        there = [name for name in os.listdir(ROOT) if name not in (".git", "crates")] + ["crates/" + name for name in os.listdir(crates) if name != "capweave"]
        for name in there + ["crates/capweave/" + name for name in os.listdir(os.path.join(crates, "capweave")) if name != "out"]:
            os.symlink(os.path.join(ROOT, name), os.path.join(work, name))
    return top, work, dict(os.environ, PATH=paths + ":" + os.environ["PATH"], CAPWEAVE=program, LC_ALL="C",
                           EXAMPLES=os.path.join(ROOT, "examples"), SAMPLES=os.path.join(ROOT, "companion", "samples"))


def follow(page, program, enforces, like_tree, write):
    """Follows a page: what differs, a line each, and how many commands there were."""
    path = os.path.join(ROOT, page)
    with open(path, encoding="utf-8") as file:
        text = file.read()
    top, work, environment = make_folder(program, like_tree)
    wrong, count, made, place = [], 0, "", 0
    is_compared = True
    for part in PART.finditer(text):
        made, place = made + text[place:part.start()], part.end()
        kind, block = part[1], part[2]
        if kind is None:
            end = text.find("\n## ", part.end())
            section = text[part.end():end if end >= 0 else len(text)]
            is_compared = (enforces or not ENFORCED.search(section)) and (OUTLINES or "capweave-outline" not in section)
            made += part[0]
            continue
        if kind != "console":
            named = NAMED.match(block)
            if named:
                with open(os.path.join(work, named[1] or named[2]), "w", encoding="utf-8") as file:
                    file.write(block)
            made += part[0]
            continue
        made += "```console\n"
        for command, printed in commands(block):
            try:
                run = subprocess.run(["bash", "-c", "\n".join(command)], cwd=work, env=environment, stdin=subprocess.DEVNULL, stdout=subprocess.PIPE,
                                     stderr=subprocess.STDOUT, timeout=60)
                told = run.stdout.decode(errors="replace").splitlines()
            except subprocess.TimeoutExpired:
                told = ["no end within a minute"]
            count += 1
            if told != printed and is_compared:
                wrong.append("%s: $ %s\n  page:    %s\n  command: %s" % (page, "\n    ".join(command), "\n           ".join(printed), "\n           ".join(told)))
            made += "$ " + "\n".join(command) + "\n" + "".join(line + "\n" for line in (told if is_compared else printed))
        made += "```\n"
    made += text[place:]
    shutil.rmtree(top, ignore_errors=True)
    if write and made != text:
        with open(path, "w", encoding="utf-8") as file:
            file.write(made)
        return [], count
    return wrong, count


def subset_rows():
    """Each row of C-SUBSET's tables of what is told and what to write: the number of its line, its columns, and where its code stands: `file`, `function`
    `descriptor` or `detaches`."""
    inside, where = False, ""
    with open(os.path.join(ROOT, SUBSET), encoding="utf-8") as file:
        for number, line in enumerate(file, 1):
            if line.startswith("#"):
                where = next((word for word in ("file", "descriptor", "detaches") if word in line), "function")
            if line.startswith("| Source | Told | Write |"):
                inside = True
            elif not line.startswith("|"):
                inside = False
            elif inside and not line.startswith("|---"):
                yield number, [cell.strip().replace("\\|", "|") for cell in re.split(r"(?<!\\)\|", line)[1:-1]], where


def as_program(code, where):
    """A program with the code of a row in it."""
    if where == "file":
        return HEADERS + (SYSTEM if "__FBSDID" in code else "") + code + "\nint main(void) { return 0; }\n"
    return HEADERS + "static int fd = -1;\nint own(int x) { return x; }\nint known(int x);\nint main(int argc, char **argv)\n{\n" \
        "    int a, b, c, i, n;\n    long size;\n    char *p;\n" + code + "\n    return 0;\n}\n"


def try_row(row, program, folder):
    """What is wrong with a row."""
    number, cells, where = row
    wrong = []
    place = "%s:%d: " % (SUBSET, number)
    code = [re.findall(r"`([^`]+)`", cell) for cell in cells]
    if len(cells) != 3 or not code[0] or len(code[1]) != 1:
        return [place + "a row has code, what is told, and what to write"]
    for column in (0, 2):
        texts = [text for text in code[column] if re.search(r"[;{]|^#\w+ |^#endif", text)]     # other code marks are words
        if not texts:
            continue
        name = os.path.join(folder, "row%d.%d.c" % (number, column))
        with open(name, "w", encoding="utf-8") as file:
            file.write(as_program("\n".join(texts), where))
        command, policy = COMMANDS_OF.get(where, ("graph", None))
        words = [command] + ([os.path.join(folder, policy)] if policy else []) + [name]
        run = subprocess.run([program] + words, stdout=subprocess.DEVNULL, stderr=subprocess.PIPE, universal_newlines=True)
        told = run.stderr.strip()
        if column == 0 and not (run.returncode == 3 and told.endswith(": " + code[1][0])):
            wrong.append(place + "told is `%s`, with status %d" % (told, run.returncode))
        if column == 2 and run.returncode != 0:
            wrong.append(place + "what is to be written isn't taken: `%s`" % told)
        run = subprocess.run(["cc", "-std=gnu11", "-w", "-D_GNU_SOURCE", "-fsyntax-only", name], stdin=subprocess.DEVNULL, stdout=subprocess.PIPE,
                             stderr=subprocess.STDOUT, universal_newlines=True)
        if run.returncode != 0 and not (column == 0 and code[1][0] in ("arity", "jump")):
            wrong.append(place + "no C: " + next((line for line in run.stdout.splitlines() if "error" in line), ""))
    return wrong


def can_enforce(program):
    """Whether a woven tool runs here over the stand-in that enforces."""
    folder = tempfile.mkdtemp(prefix="pages-")
    try:
        examples = os.path.join(ROOT, "examples")
        with open(os.path.join(folder, "woven.c"), "wb") as file:
            subprocess.run([program, "weave", os.path.join(examples, "lines.toml"), os.path.join(examples, "lines.c")], stdout=file, check=True)
        subprocess.run(["cc", "-std=c11", "-w", "-D_DEFAULT_SOURCE", "-DCW_STANDIN", "-DCW_ENFORCE", "-I", examples, "-o", os.path.join(folder, "woven"),
                        os.path.join(folder, "woven.c"), os.path.join(examples, "capweave.c")], check=True, stderr=subprocess.DEVNULL)
        return subprocess.run([os.path.join(folder, "woven"), os.path.join(folder, "woven.c")], stdout=subprocess.DEVNULL, stderr=subprocess.DEVNULL).returncode == 0
    except (OSError, subprocess.CalledProcessError):
        return False
    finally:
        shutil.rmtree(folder, ignore_errors=True)


def main():
    words = argparse.ArgumentParser(description="Follows the pages, and compares what their commands print.")
    words.add_argument("program", nargs="?", metavar="CAPWEAVE",
                       default=os.environ.get("CAPWEAVE") or os.path.join(ROOT, "crates", "capweave", "out", "capweave"))
    words.add_argument("page", nargs="?", metavar="PAGE")
    words.add_argument("--write", action="store_true")
    words = words.parse_args()
    program = os.path.abspath(words.program)
    if not os.access(program, os.X_OK):
        print("no program %s" % program)
        return 1
    enforces = can_enforce(program)
    if not enforces:
        print("no stand-in enforces here: the sections with woven tools run and aren't compared")
    if not OUTLINES:
        print("clang isn't here: the sections with outlines run and aren't compared")
    pages = [page for page in GUIDES + TREES if os.path.exists(os.path.join(ROOT, page))]

    def is_asked(page):
        return words.page is None or os.path.basename(words.page) == os.path.basename(page)

    wrong, count = [], 0
    with concurrent.futures.ThreadPoolExecutor(max_workers=os.cpu_count() or 1) as pool, tempfile.TemporaryDirectory() as folder:
        followed = [pool.submit(follow, page, program, enforces, page in TREES, words.write) for page in pages if is_asked(page)]
        for name, text in (("tool.h", "#define BLOCK 4096\n"), ("system.h", "#define __FBSDID(text) extern int own_id\n"), ("fd.toml", 'format = 1\n[[descriptor]]\nname = "fd"\n'),
                           ("own.toml", 'format = 2\ndetached = ["own"]\n')):
            with open(os.path.join(folder, name), "w", encoding="utf-8") as file:
                file.write(text)
        tried = [pool.submit(try_row, row, program, folder) for row in subset_rows()] if is_asked(SUBSET) else []
        for one in followed:
            found, commands_there = one.result()
            wrong += found
            count += commands_there
        for one in tried:
            wrong += one.result()
    for one in wrong:
        print(one)
    print("%d commands, %d rows: %s" % (count, len(tried), "the pages are right" if not wrong else "%d are wrong" % len(wrong)))
    return 1 if wrong else 0


if __name__ == "__main__":
    sys.exit(main())
