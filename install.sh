#!/bin/sh
# Installs the program, its companions, the example of the header, the example tools, pages, man pages and completion; or takes them away again.
#
#     [PREFIX=/usr/local] [DESTDIR=] [CAPWEAVE=PROGRAM] ./install.sh [--remove]
#
# PREFIX is where it will be used, DESTDIR a folder that stands before it while a package is made. CAPWEAVE is the built program; without it
# crates/capweave/out/capweave is taken, as ./weave builds it. Nothing is built here, and nothing is fetched.
set -eu
here=$(cd "$(dirname "$0")" && pwd)
root=${DESTDIR:-}${PREFIX:-/usr/local}
program=${CAPWEAVE:-$here/crates/capweave/out/capweave}

# put MODE FOLDER FILE [NAME]: installs a file, or takes it away
put() {
    to=$root/$2/${4:-$(basename "$3")}
    if [ "$remove" = yes ]; then
        rm -f "$to"
        return
    fi
    mkdir -p "$root/$2"
    cp "$3" "$to.new"
    chmod "$1" "$to.new"
    mv -f "$to.new" "$to"
}

remove=no
case ${1-} in
"") ;;
--remove) remove=yes ;;
*)
    echo "usage: [PREFIX=FOLDER] [DESTDIR=FOLDER] [CAPWEAVE=PROGRAM] install.sh [--remove]" >&2
    exit 2
    ;;
esac
if [ $remove = no ] && [ ! -x "$program" ]; then
    echo "install.sh: no program $program; build it by ./weave, or name it by CAPWEAVE" >&2
    exit 1
fi

put 755 bin "$program" capweave
for file in "$here"/companion/capweave-*; do
    put 755 bin "$file"
done
for file in "$here"/examples/capweave*.h; do
    put 644 include "$file"
done
put 644 share/capweave "$here/examples/capweave.c"
for file in "$here"/examples/*.[ch] "$here"/examples/*.toml "$here"/examples/Makefile "$here"/examples/README.md; do
    case $file in
    *.woven.c) ;;
    *) put 644 share/capweave/examples "$file" ;;
    esac
done
for file in "$here"/companion/samples/*; do
    put 644 share/capweave/samples "$file"
done
for file in "$here"/companion/*.schema.json; do
    put 644 share/capweave "$file"
done
for file in "$here"/docs/*.md; do
    put 644 share/doc/capweave "$file"
done
put 644 share/doc/capweave "$here/LICENSE"
for file in "$here"/man/*.1; do
    put 644 share/man/man1 "$file"
done
# one file has the completion of every word, and bash looks it up by the name of the command
for name in capweave capweave-tell capweave-outline; do
    put 644 share/bash-completion/completions "$here/completion/capweave.sh" "$name"
done
if [ $remove = yes ]; then
    for folder in share/doc/capweave share/capweave/examples share/capweave/samples share/capweave; do
        rmdir "$root/$folder" 2>/dev/null || true
    done
else
    echo "installed in $root: bin/capweave, bin/capweave-tell, bin/capweave-outline, include/capweave.h, share/capweave, share/doc/capweave, man pages, completion"
fi
