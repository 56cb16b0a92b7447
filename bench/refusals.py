#!/usr/bin/env python3
"""Makes each allocation of runs of every command fail in turn, and looks for any answer but want of memory.

    python3 bench/refusals.py crates/capweave/out/capweave [COMMAND]

A small library in C, compiled into a temporary folder and loaded before the C library, refuses one allocation and lets all others through: the
first, then the second, and so on until a run asks for no more. Each run that is refused one has to end with status 8 and the line `memory`, having
written nothing or a front of what the run writes with all memory; or, where it can do without (room that would have been given back, a buffer of
the C library), as with all memory. What differs is printed, and the exit status is then 1. Needs Linux, cc, Python 3.8 and no package.
"""
import os
import subprocess
import sys
import tempfile

from running import written

LIBRARY = r"""
#define _GNU_SOURCE
#include <dlfcn.h>
#include <errno.h>
#include <stddef.h>
#include <stdlib.h>
#include <sys/syscall.h>
#include <unistd.h>

static long left = -1;

__attribute__((constructor)) static void begin(void) {
    const char *at = getenv("REFUSED");
    left = at ? atol(at) : -1;
}

static int is_refused(void) {
    if (left > 0 && --left == 0) {
        errno = ENOMEM;
        return 1;
    }
    return 0;
}

__attribute__((destructor)) static void end(void) {
    if (left > 0) write(9, "all", 3);
}

void _exit(int status) {
    end();
    for (;;) syscall(SYS_exit_group, status);
}

#define NEXT(name, kind) static kind next; if (!next) next = (kind)dlsym(RTLD_NEXT, name)

typedef void *(*allocates)(size_t);
typedef void *(*grows)(void *, size_t);
typedef int (*aligns)(void **, size_t, size_t);

void *malloc(size_t size) { NEXT("malloc", allocates); return is_refused() ? NULL : next(size); }
void *realloc(void *old, size_t size) { NEXT("realloc", grows); return is_refused() ? NULL : next(old, size); }
int posix_memalign(void **to, size_t step, size_t size) { NEXT("posix_memalign", aligns); return is_refused() ? ENOMEM : next(to, step, size); }
"""

POLICY = 'format = 1\n[[at]]\nlabel = "served"\nnever = ["amb"]\n[[at]]\nlabel = "opened"\nmust = ["amb"]\n'
BODY = "int f(int a){while(a<3)a=a+1;return a;}int main(void){int i;%sfor(i=0;i<2;i++){if(g(i,1))continue;x[i]=-i*(2+3);}do h(\"t\"\"u\");while(i);%sreturn 0;}"
GOOD = "int main(void){opened:g();if(a){b();}else while(c)d(1);served:;return 0;}"
BAD = "int main(void){served:;opened:;return 0;}"
SPLITS = 'format = 2\nrefusable = ["limit"]\nsplit = ["f"]\n[[descriptor]]\nname = "fd"\n[[limit]]\ndescriptor = "fd"\nkeep = ["CAP_READ"]\n'
SPLITS += '[[at]]\nlabel = "l"\nnever = ["amb"]\n[[at]]\nlabel = "m"\nmust = ["amb"]\n'
OPENS = "int fd;int f(int x){l:;return x;}int main(void){int y;fd=o();y=f(1);m:;close(fd);return 0;}"
STOPS = POLICY.replace("1\n", '1\nrefusable = ["enter"]\non_refusal = "stop"\n', 1)
MOVES = "on on on left on grant on on on on"
CALLS = "int k;int f(int x){l:;put(x,k);return x+1;}int main(int argc){int y=argc*2;int a[3]={1,2};y=f(y);m:;put(y,a[2],\"t\");return 0;}"
ANSWERS = "capweave answers 1\nname argc 3\ntry grant\ntry grant\ncall 7\ncall -1\nend\n"
DETACHED = 'format = 2\ndetached = ["f"]\n[[at]]\nlabel = "l"\nnever = ["amb"]\n[[at]]\nlabel = "m"\nmust = ["amb"]\n'
LEAVES = "void f(int x){l:;}int main(void){f(1);m:;f(2);return 0;}"
STEPS = "0 on\n0 fork\n0 on\n0 fork\n1 on\n1 on\n1 grant\n2 on\n"
# A command, its policy and source, and for the others the last file and an edit of what `weave` writes for them (`procs` for `world`, `audit` for `reaudit`).
RUNS = [
    ("weave", POLICY, GOOD),
    ("weave", POLICY, BAD),
    ("weave", POLICY, BODY % ("opened:;", "served:;")),
    ("weave", POLICY, GOOD.replace("served:;", "served:break;")),
    ("weave", POLICY, GOOD + "}"),
    ("weave", POLICY + '[[rule]]\nname = "n"\nbad = "(served | opened)* @amb"\n', GOOD),
    ("weave", SPLITS, OPENS),
    ("weave", STOPS, GOOD),
    ("graph", None, BODY % ("opened:f(2);", "served:;")),
    ("graph", None, GOOD + "}"),
    ("check", POLICY, GOOD, "", ("", "")),
    ("check", SPLITS, OPENS, "", ("", "")),
    ("check", POLICY, GOOD, "", ("CW_LIVE(0,0)\n", "")),
    ("check", POLICY, GOOD, "", ("CW_LIVE(0,0)", "CW_LIVE(00,0)")),
    ("check", POLICY, GOOD, "", ("return", "return+")),
    ("run", POLICY, GOOD, MOVES, ("", "")),
    ("run", STOPS, GOOD, "on on on left on refuse", ("", "")),
    ("run", SPLITS, OPENS, "on on opened grant on on grant on on on on on on on on on", ("", "")),
    ("run", POLICY, GOOD, "on off", ("", "")),
    ("refute", POLICY, BAD, "", ("", "")),
    ("refute", POLICY, BAD, "", (" bad", " out")),
    ("refute", POLICY, BAD, "", ("states 4", "states 04")),
    ("refute", SPLITS.replace("limit", "split", 1), OPENS, "", ("", "")),
    ("play", POLICY, BAD, "skip try skip try skip try skip try", ("", "")),
    ("play", SPLITS.replace("limit", "split", 1), OPENS, "try " * 12, ("", "")),
    ("play", POLICY, BAD, "try\ntry\ngrant", ("", "")),
    ("values", POLICY, GOOD, ANSWERS, ("", "")),
    ("values", SPLITS.replace('refusable = ["limit"]\n', "").replace('[[descriptor]]\nname = "fd"\n[[limit]]\ndescriptor = "fd"\nkeep = ["CAP_READ"]\n', ""), CALLS, ANSWERS, ("", "")),
    ("values", POLICY, GOOD, ANSWERS.replace("call 7", "call 07"), ("", "")),
    ("procs", DETACHED, LEAVES),
    ("procs", DETACHED.replace("never", "must", 1).replace("must = [\"amb\"]\n", "never = [\"amb\"]\n", 1), LEAVES.replace("m:;", "m:;fork();")),
    ("world", DETACHED, LEAVES, STEPS, ("", "")),
    ("world", DETACHED, LEAVES, STEPS + "9 on\n", ("", "")),
    ("world", DETACHED, LEAVES, STEPS + "9 off\n", ("", "")),
    ("audit", POLICY, GOOD),
    ("audit", SPLITS, OPENS),
    ("audit", POLICY.replace("never", "must", 1), BODY % ("opened:f(2);", "served:;")),
    ("reaudit", POLICY, GOOD, "", ("", "")),
    ("reaudit", SPLITS, OPENS, "", ("", "")),
    ("reaudit", POLICY, GOOD, "", ("at 2 0 0", "at 2 0 1")),
    ("reaudit", POLICY, GOOD, "", ("at 2 0 0", "at 2 0 00")),
]


def files_of(program, folder, policy, source, more):
    """The names of the files of a run, written."""
    texts = {name: text for name, text in (("policy.toml", policy), ("source.c", source)) if text is not None}
    written(folder, texts)
    if not more:
        return list(texts)
    command, tape, (old, new) = more
    maker = {"world": "procs", "reaudit": "audit"}.get(command, "weave")
    woven = subprocess.run([program, maker, "policy.toml", "source.c"], cwd=folder, stdout=subprocess.PIPE).stdout
    written(folder, {"text": woven.replace(old.encode(), new.encode(), 1), "tape": tape})
    names = ["policy.toml"] + (["source.c"] if command in ("refute", "play", "reaudit") else []) + ["text"]
    return names + (["tape"] if command in ("run", "play", "values", "world") else [])


def ran(library, words, refused):
    """The status of a run, what it wrote, and whether it asked for fewer allocations than the one that was to be refused."""
    reader, writer = os.pipe()
    os.dup2(writer, 9)
    os.set_inheritable(9, True)
    environment = dict(os.environ, LD_PRELOAD=library, REFUSED=str(refused))
    run = subprocess.run(words, env=environment, stdout=subprocess.PIPE, stderr=subprocess.PIPE, close_fds=False)
    os.close(9)
    os.close(writer)
    with os.fdopen(reader, "rb") as told:
        all_given = told.read().startswith(b"all")
    return run.returncode, run.stdout, run.stderr, all_given


def main():
    if len(sys.argv) not in (2, 3) or sys.argv[1].startswith("-"):
        sys.exit(__doc__)
    program, wrong = os.path.abspath(sys.argv[1]), 0
    with tempfile.TemporaryDirectory() as folder:
        library, code = os.path.join(folder, "refuse.so"), os.path.join(folder, "refuse.c")
        with open(code, "w") as file:
            file.write(LIBRARY)
        subprocess.run(["cc", "-O1", "-shared", "-fPIC", "-o", library, code, "-ldl"], check=True)
        for number, (command, policy, source, *more) in enumerate(RUNS):
            usage = subprocess.run([program, command], stderr=subprocess.PIPE).stderr
            if command not in (sys.argv[2:] or command) or usage.startswith(b"usage: capweave COMMAND"):
                continue
            names = files_of(program, folder, policy, source, [command] + more if more else [])
            words = [program, command] + [os.path.join(folder, name) for name in names]
            whole = subprocess.run(words, stdout=subprocess.PIPE, stderr=subprocess.PIPE)
            answer = (whole.returncode, whole.stdout, whole.stderr)
            refused, told = 1, 0
            while True:
                status, out, note, all_given = ran(library, words, refused)
                if all_given:
                    break
                if status == 8 and note == b"memory\n" and whole.stdout.startswith(out):
                    told += 1
                elif (status, out, note) != answer:
                    wrong += 1
                    print(f"run {number}, allocation {refused}: status {status}, note {note!r}, {len(out)} bytes")
                refused += 1
            if (status, out, note) != answer:
                wrong += 1
                print(f"run {number} with all memory: status {status} in place of {whole.returncode}")
            line = (whole.stderr or whole.stdout).split(b"\n")[0].decode()
            print(f"run {number}: {command}, status {whole.returncode} ({line}); of {refused - 1} allocations {told} end it with status 8 where they are refused", flush=True)
    sys.exit(wrong > 0)


if __name__ == "__main__":
    main()
