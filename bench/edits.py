#!/usr/bin/env python3
"""Tries the wrong bodies that the gate leaves out: the prover has to refuse each.

    python3 bench/edits.py [--quick] [CRATE ..]

`bench/edits/CRATE/NAME.edit` is an edit like those in `crates/CRATE/must-fail`. The repository, as it stands, is copied into a temporary folder, where these
edits stand in the place of the gate's own, and `rt must-fail CRATE` tries them, a crate after the other: those that are named, or all. From nothing each
crate's libraries are proved first; a checkout on this machine that has them built is used. Prints what was refused; the exit status is 1 where one was not.

With `--quick` a crate's edits are tried several at once, at most one in a function, by a check of these functions alone: as long as one check of the
crate at most, where the other way takes one for each edit. An edit is refused there where its function has no proof any more, and not just because one that it calls has none. What isn't an
edit of bodies alone is told and left to the other way, and so is what calls a function that another edit changes, doesn't compile, or ends at a limit of the prover.

Needs the toolchain and Python 3.8.
"""
import argparse
import os
import re
import shutil
import subprocess
import sys
import tempfile

ROOT = os.path.dirname(os.path.dirname(os.path.abspath(__file__)))
EDITS = f"{ROOT}/bench/edits"
FUNCTION = re.compile(r"^( *)(?:pub(?:\([a-z]+\))? )?(?:const )?fn (\w+)", re.M)
IMPL = re.compile(r"^impl\b(?:<.*?>)? *(?:([\w:]+)(?:<.*>)? for )?(\w+)", re.M)
HANDED_ON = "not judged: it calls a function that another edit changes"
UNPROVED = re.compile(r"^fn \w+::(\S+): (?:no proof|not proved)(.*)$", re.M)


def lines_of(edit):
    """The changes of an edit: file, old text, new text."""
    changes, file, old = [], None, None
    with open(edit, encoding="utf-8") as lines:
        for line in lines:
            word, _, rest = line.rstrip("\n").partition(": ")
            if word == "file":
                file = rest
            elif word == "old":
                old = rest
            elif word == "new":
                changes.append((file, old, rest))
    return changes


def function_at(file, text, at):
    """The function around a place, as `rt check --only` takes it: the end of its name, with its module or the type which it is implemented for. None outside of a
    function."""
    head = text[: text.find("\n", at)]
    found = list(FUNCTION.finditer(head))
    if not found or not file.startswith("src/"):
        return None
    owner = os.path.basename(file)[:-3]
    if found[-1][1]:
        impls = list(IMPL.finditer(head[: found[-1].start()]))
        if not impls:
            return None
        owner = impls[-1][2] + (impls[-1][1] or "").split("::")[-1]
    return found[-1][2] if owner == "lib" else f"{owner}::{found[-1][2]}"


def functions_of(folder, edit):
    """The functions that an edit changes, and why it can't be tried quickly, if so."""
    functions = set()
    for file, old, _ in lines_of(edit):
        with open(f"{folder}/{file}", encoding="utf-8") as source:
            text = source.read()
        if text.count(old) != 1:
            return functions, f"its line stands {text.count(old)} times"
        function = function_at(file, text, text.index(old))
        if function is None:
            return functions, "it changes no body"
        functions.add(function)
    return functions, None


def grouped(folder, edits):
    """Edits in groups, none with two of one function, and those that can't be tried quickly, with the reason."""
    groups, others = [], {}
    for edit in edits:
        functions, why = functions_of(folder, edit)
        if why:
            others[edit] = why
            continue
        for group in groups:
            if not any(functions & taken for taken in group.values()):
                group[edit] = functions
                break
        else:
            groups.append({edit: functions})
    return groups, others


def has_own_cause(name, why, alone):
    """Whether a function has no proof by itself: not just since one that it calls, or an answer of that one, has none. Functions that call one another have their answers
    in one file, `+NAME`, so of these it is told only where one edit is tried alone."""
    path = name.replace("::", ".")
    # A line without a reason is of a function whose own answers don't fit.
    if not why.strip(":; ") or f".{path}.Answers." in why or (alone and f".{path.rpartition('.')[0]}.+" in why):
        return True
    return any(part and not part.startswith(("it calls `", "it stands on `")) for part in why.lstrip(":; ").split("; "))


def tried(folder, group):
    """What a check says of each edit of a group, which are made together and taken back."""
    kept = {}
    try:
        for edit in group:
            for file, old, new in lines_of(edit):
                path = f"{folder}/{file}"
                with open(path, encoding="utf-8") as source:
                    text = source.read()
                kept.setdefault(path, text)
                with open(path, "w", encoding="utf-8") as source:
                    source.write(text.replace(old, new))
        words = ["rt", "check", "--jobs", "1", "--allow-holes"]
        for function in sorted({function for functions in group.values() for function in functions}):
            words += ["--only", function]
        done = subprocess.run(words, cwd=folder, stdout=subprocess.PIPE, stderr=subprocess.STDOUT, universal_newlines=True)
    finally:
        for path, text in kept.items():
            with open(path, "w", encoding="utf-8") as source:
                source.write(text)
    unproved = UNPROVED.findall(done.stdout)
    own, handed_on = ([name for name, why in unproved if has_own_cause(name, why, len(group) == 1) == is_own] for is_own in (True, False))
    are = lambda names, functions: any(name == function or name.endswith(f"::{function}") for name in names for function in functions)
    answer = {}
    for edit, functions in group.items():
        if are(own, functions):
            answer[edit] = "refused"
        elif are(handed_on, functions):
            answer[edit] = HANDED_ON
        elif "only=" in done.stdout:
            answer[edit] = "NOT REFUSED"
        else:
            answer[edit] = "not judged: " + next((line for line in done.stdout.splitlines() if "error" in line), f"status {done.returncode}")[:200]
    return answer


def try_quickly(copy, name):
    """Tries a crate's edits several at once; whether each was refused."""
    folder = f"{copy}/crates/{name}"
    edits = sorted(f"{EDITS}/{name}/{file}" for file in os.listdir(f"{EDITS}/{name}") if file.endswith(".edit"))
    groups, others = grouped(folder, edits)
    answers = {edit: f"left out: {why}" for edit, why in others.items()}
    for group in groups:
        answers.update(tried(folder, group))
        for edit in group:
            if answers[edit] == HANDED_ON:
                answers.update(tried(folder, {edit: group[edit]}))
    for edit in edits:
        print(f"{name}/{os.path.basename(edit)}: {answers[edit]}", flush=True)
    return all(answer == "refused" for answer in answers.values())


def try_each(copy, name):
    """Has `rt must-fail` try a crate's edits; whether each was refused."""
    edits = f"{copy}/crates/{name}/must-fail"
    shutil.rmtree(edits, ignore_errors=True)
    shutil.copytree(f"{EDITS}/{name}", edits)
    # (`rt check` first, since the edits begin with what it kept)
    return all(subprocess.run(words, cwd=f"{copy}/crates/{name}").returncode == 0 for words in (["rt", "check"], ["rt", "must-fail", name]))


def main():
    parser = argparse.ArgumentParser(description="Tries the wrong bodies of bench/edits.")
    parser.add_argument("--quick", action="store_true", help="several at once, by a check of their functions alone")
    parser.add_argument("crates", nargs="*", metavar="CRATE")
    words = parser.parse_args()
    crates = words.crates or sorted(os.listdir(EDITS))
    lacking = [name for name in crates if not os.path.isdir(f"{EDITS}/{name}")]
    if lacking:
        sys.exit(f"no edits of {', '.join(lacking)} stand in bench/edits")
    with tempfile.TemporaryDirectory() as folder:
        copy = f"{folder}/capweave"
        shutil.copytree(ROOT, copy, ignore=shutil.ignore_patterns(".git", "out"))
        failed = [name for name in crates if not (try_quickly if words.quick else try_each)(copy, name)]
    print(f"{len(crates) - len(failed)} crates passed, {len(failed)} failed", *failed)
    return 1 if failed else 0


if __name__ == "__main__":
    sys.exit(main())
