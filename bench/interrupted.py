#!/usr/bin/env python3
"""Cuts the reads and writes of the program short, makes each of them fail in turn, and gives it odd files and outputs.

    python3 bench/interrupted.py crates/capweave/out/capweave

A small library in C, compiled into a temporary folder and loaded before the C library, lets each read or write take a few bytes alone, and makes one of
them fail: the first, then the second, and so on until a run makes no more. With short ones each command has to answer as with whole ones. A read that fails has
to end it with status 6, the line `read: NAME` and nothing on the output; a write to the output with status 7, the line `write` and a front of what it
writes otherwise, but for an interrupted one, which is made again; a write to the note changes nothing but the note, which keeps a front of its line. The same is asked of a full disk, a closed output, a pipe
whose reader ends after a byte, a folder, a missing file, an endless one and a pipe that comes byte by byte. What differs is printed, and the exit status
is then 1. Needs Linux, cc, Python 3.8 and no package.
"""
import errno
import os
import shlex
import subprocess
import sys
import tempfile
import threading

from nonsense import FILES, OF_WOVEN, PLAIN, known
from running import prepared, written

LIBRARY = r"""
#define _GNU_SOURCE
#include <dlfcn.h>
#include <errno.h>
#include <stdlib.h>
#include <sys/syscall.h>
#include <sys/types.h>
#include <unistd.h>

static long most, failing, half, code;
static int kind;

static long number(const char *name) {
    const char *at = getenv(name);
    return at ? atol(at) : 0;
}

__attribute__((constructor)) static void begin(void) {
    most = number("MOST");
    failing = number("FAILING");
    half = number("HALF");
    code = number("CODE");
    kind = (int)number("KIND");
}

__attribute__((destructor)) static void end(void) {
    if (failing > 0) syscall(SYS_write, 9, "all", 3);
}

void _exit(int status) {
    end();
    for (;;) syscall(SYS_exit_group, status);
}

/* What a call of this kind is to do: 0 all of it, 1 half of it and the next time fail, 2 fail. */
static int due(int which, size_t size) {
    if (which != kind || failing <= 0) return 0;
    if (failing == 1 && half && size > 1) {
        half = 0;
        return 1;
    }
    return --failing == 0 ? 2 : 0;
}

static ssize_t failed(void) {
    if (code == 0) return 0;
    errno = (int)code;
    return -1;
}

typedef ssize_t (*reads)(int, void *, size_t);
typedef ssize_t (*writes)(int, const void *, size_t);

ssize_t read(int file, void *to, size_t size) {
    static reads next;
    if (!next) next = (reads)dlsym(RTLD_NEXT, "read");
    int what = due(0, size);
    if (what == 2) return failed();
    if (what == 1) size /= 2;
    return next(file, to, most && size > (size_t)most ? (size_t)most : size);
}

ssize_t write(int file, const void *from, size_t size) {
    static writes next;
    if (!next) next = (writes)dlsym(RTLD_NEXT, "write");
    int what = due(file, size);
    if (what == 2) return failed();
    if (what == 1) size /= 2;
    return next(file, from, most && size > (size_t)most ? (size_t)most : size);
}
"""

READ, OUT, NOTE = 0, 1, 2


class Program:
    def __init__(self, command, folder):
        self.command, self.folder, self.wrong = command, folder, 0
        self.known = known(command, folder)
        self.library = os.path.join(folder, "cut.so")
        written(folder, {"cut.c": LIBRARY})
        subprocess.run(["cc", "-O1", "-shared", "-fPIC", "-o", self.library, os.path.join(folder, "cut.c"), "-ldl"], check=True)

    def ran(self, words, **asked):
        """Status, output and note of a run with the library told what is asked, and whether it made fewer calls than the one that was to fail."""
        reader, writer = os.pipe()
        os.dup2(writer, 9)
        os.set_inheritable(9, True)
        environment = dict(os.environ, LD_PRELOAD=self.library, **{name: str(value) for name, value in asked.items()})
        run = subprocess.run(self.command + words, cwd=self.folder, env=environment, stdout=subprocess.PIPE, stderr=subprocess.PIPE, close_fds=False, timeout=600)
        os.close(9)
        os.close(writer)
        with os.fdopen(reader, "rb") as told:
            return run.returncode, run.stdout, run.stderr, told.read().startswith(b"all")

    def tell(self, good, *what):
        if not good:
            self.wrong += 1
            print("WRONG:", *what)


def failures(program, words, answer, kind, **asked):
    """Each call of a kind fails in turn; the number of calls."""
    status, out, note = answer
    failing = 1
    while True:
        told, taken, line, is_over = program.ran(words, KIND=kind, FAILING=failing, **asked)
        if is_over:
            program.tell((told, taken, line) == answer, words, "with all calls", told, line)
            return failing - 1
        if kind == READ:
            good = (told, taken) == (6, b"") and line in [b"read: %s\n" % name.encode() for name in words[1:]]
        elif kind == OUT and asked["CODE"] == errno.EINTR:
            good = (told, taken, line) == answer
        elif kind == OUT:
            good = told == 7 and line == b"write\n" and out.startswith(taken)
        else:
            good = (told, taken) == (status, out) and note.startswith(line)
        program.tell(good, words, "call", failing, "of kind", kind, asked, "status", told, line[:60], len(taken), "bytes")
        failing += 1


def cut_short(program, words, answer):
    for most in (1, 2, 3, 7, 100):
        program.tell(program.ran(words, MOST=most)[:3] == answer, words, "with at most", most, "bytes a call")


def outputs(program, words, answer):
    """A full disk, a closed output and pipes that nobody reads."""
    line = " ".join(shlex.quote(word) for word in program.command + words)
    for text in ("%s >/dev/full", "%s >&-"):
        run = subprocess.run(["sh", "-c", text % line], cwd=program.folder, stdout=subprocess.PIPE, stderr=subprocess.PIPE)
        program.tell((run.returncode, run.stderr) == (7, b"write\n"), words, text, run.returncode, run.stderr[:60])
    for text in ("%s 2>/dev/full", "%s 2>&-"):
        run = subprocess.run(["sh", "-c", text % line], cwd=program.folder, stdout=subprocess.PIPE, stderr=subprocess.PIPE)
        program.tell((run.returncode, run.stdout) == answer[:2], words, text, run.returncode)


def closed_pipe(program):
    """A reader that ends after one byte of a text longer than a pipe holds."""
    written(program.folder, {"source": "int main(void){" + ";" * 8_000 + "return 0;}"})
    for words in (["graph", "source"], ["weave", "policy", "source"]):
        written(program.folder, {"policy": "format = 1\n"})
        run = subprocess.Popen(program.command + words, cwd=program.folder, stdout=subprocess.PIPE, stderr=subprocess.PIPE, bufsize=0)
        run.stdout.read(1)
        run.stdout.close()
        note = run.stderr.read()
        program.tell((run.wait(), note) == (7, b"write\n"), words, "| head -c 1", run.returncode, note[:60])


def odd_files(program):
    """Names that hold no file of bytes, and files that never end."""
    folder = program.folder
    os.makedirs(os.path.join(folder, "folder"), exist_ok=True)
    written(folder, dict(FILES, policy=PLAIN, empty=""))
    for name in ("folder", "missing", "", "folder/x", "n" * 300, "n" * 5_000, "two\nlines", "policy/x"):
        for command, roles in program.known.items():
            for role in roles:
                words = [command] + [name if one == role else one for one in roles]
                told, out, note, _ = program.ran(words)
                program.tell((told, out, note) == (6, b"", b"read: %s\n" % name.encode()), words[:1], role, name[:20], told, note[:60])
    quantities = {"policy": "policy bytes", "source": "source bytes"}
    for command, roles in program.known.items():
        for role in roles:
            words = [command] + ["/dev/zero" if one == role else one for one in roles]
            told, out, note, _ = program.ran(words)
            wanted = b"limit: %s\n" % quantities.get(role, "file bytes").encode()
            program.tell((told, out, note) == (5, b"", wanted), words, told, note[:60])
            same = [program.ran([command] + [name if one == role else one for one in roles])[:3] for name in ("/dev/null", "empty")]
            program.tell(same[0] == same[1], command, role, "/dev/null", same)
    pipe = os.path.join(folder, "pipe")
    os.mkfifo(pipe)

    def feed():
        with open(pipe, "wb", buffering=0) as file:
            for byte in FILES["source"].encode():
                file.write(bytes([byte]))

    thread = threading.Thread(target=feed)
    thread.start()
    slow = program.ran(["weave", "policy", "pipe"])[:3]
    thread.join()
    program.tell(slow == program.ran(["weave", "policy", "source"])[:3], "a pipe that comes byte by byte", slow[0], slow[2][:60])


def main():
    if len(sys.argv) != 2 or sys.argv[1].startswith("-"):
        sys.exit(__doc__)
    prepared()
    with tempfile.TemporaryDirectory() as folder:
        program = Program(shlex.split(sys.argv[1]), folder)
        for command, roles in program.known.items():
            policy = PLAIN if command in OF_WOVEN else FILES["policy"]
            written(folder, dict(FILES, policy=policy, tape="skip try" if command == "play" else FILES["tape"]))
            for last in ("", "missing"):
                words = [command] + list(roles[:-1]) + [last or roles[-1]]
                answer = program.ran(words)[:3]
                cut_short(program, words, answer)
                calls = [failures(program, words, answer, READ, CODE=code) for code in (errno.EIO, errno.EINTR)]
                for kind in (OUT, NOTE):
                    calls += [failures(program, words, answer, kind, CODE=code, HALF=half) for code in (errno.ENOSPC, errno.EINTR, errno.EPIPE, 0) for half in (0, 1)]
                if answer[0] < 2:
                    outputs(program, words, answer)
                print(command, last, "status", answer[0], "calls that fail in turn:", calls, flush=True)
        closed_pipe(program)
        odd_files(program)
        print(program.wrong or "none", "wrong")
    return 1 if program.wrong else 0


if __name__ == "__main__":
    sys.exit(main())
