#!/usr/bin/env python3
"""crates.txt names what a crate's own files name: writes it so (`--write`), or tells where it differs (status 1)."""
import os
import re
import sys

KIT = ["itoa", "thiserror", "memchr", "clap", "toml", "indexmap"]


def text_of(folder):
    found = []
    for base, folders, names in os.walk(folder):
        folders[:] = [name for name in folders if name != "out"]
        for name in names:
            if name.endswith((".rt", ".antt")):
                with open(os.path.join(base, name), encoding="utf-8") as file:
                    found.append(file.read())
    return "\n".join(found)


def line_of(crate, crates):
    text = text_of(os.path.join("crates", crate))
    named = set(re.findall(r"\bRattle\.(cw_[a-z_]+)\.", text)) | set(re.findall(r"\b(cw_[a-z_]+)::", text))
    own = sorted((named & set(crates)) - {crate})
    kit = [name for name in KIT if re.search(rf"\b{name}::|Rattle\.{name}\.", text)]
    return f"{crate}: {' '.join(own + kit)}".rstrip()


def main():
    os.chdir(os.path.join(os.path.dirname(os.path.abspath(__file__)), ".."))
    crates = sorted(name for name in os.listdir("crates") if os.path.isdir(os.path.join("crates", name, "src")))
    wanted = "\n".join(line_of(crate, crates) for crate in crates) + "\n"
    with open("crates.txt", encoding="utf-8") as file:
        held = file.read()
    if sys.argv[1:] == ["--write"]:
        with open("crates.txt", "w", encoding="utf-8") as file:
            file.write(wanted)
        return 0
    if held == wanted:
        return 0
    lines = set(held.splitlines())
    for line in wanted.splitlines():
        if line not in lines:
            print(f"crates.txt: {line}")
    return 1


sys.exit(main())
