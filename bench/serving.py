"""Starts a command once and has it answer many runs. Used by `fuzz.py`; needs Linux, cc, Python 3.8 and no package.

Most of a short run is its start. So a small library in C, loaded before the C library, stops a program at its `main`, and calls that for one run after the other: with the words of the run, also for what is done before `main`, the program's variables
as they were before the first one, memory from one piece that is given back all at once, and `exit` as the way back. Where a run is lost (a signal, too long, too much memory) the process as it was at
`main` is copied (fork), and the copy makes that run alone; so the answer is that of a start by itself. A program that is linked statically can't be stopped: a small program in C starts it for each run. A script of Python is run again and again in one
process too, with its modules as they are after the run before.
"""
import collections
import os
import re
import shlex
import shutil
import signal
import struct
import subprocess
import sys

SERVER = r"""
#define _GNU_SOURCE
#include <dlfcn.h>
#include <errno.h>
#include <fcntl.h>
#include <link.h>
#include <malloc.h>
#include <setjmp.h>
#include <stdint.h>
#include <stdio.h>
#include <stdlib.h>
#include <string.h>
#include <sys/mman.h>
#include <sys/resource.h>
#include <sys/wait.h>
#include <unistd.h>

enum { MOST_BYTES = 1 << 16, MOST_WORDS = 64, FIRST_OWN = 60, ASKED = 60, TOLD, OUT, NOTE, RUNS = 5000 };

/* What a copy that makes many runs shares with the process that started it: the run that is asked for, and whether it is still to be answered. */
static struct shared {
    volatile int is_open, goes_on;
    uint32_t size;
    char bytes[MOST_BYTES];
} *shared;
static char *words[MOST_WORDS + 1];
static rlim_t seconds;

static long number(const char *name) {
    const char *at = getenv(name);
    return at ? atol(at) : 0;
}

static void take(void *to, size_t size) {
    for (size_t done = 0; done < size;) {
        ssize_t got = read(ASKED, (char *)to + done, size - done);
        if (got < 0 && errno == EINTR) continue;
        if (got <= 0) _Exit(0);
        done += (size_t)got;
    }
}

static void give(const void *from, size_t size) {
    for (size_t done = 0; done < size;) {
        ssize_t put = write(TOLD, (const char *)from + done, size - done);
        if (put < 0 && errno == EINTR) continue;
        if (put <= 0) _Exit(1);
        done += (size_t)put;
    }
}

/* Takes what is asked for next, its words behind `first` ones. */
static int asked(char **first) {
    take(&shared->size, sizeof shared->size);
    if (shared->size >= MOST_BYTES) _Exit(1);
    take(shared->bytes, shared->size);
    shared->is_open = 1;
    int count = 0;
    while (first[count] && count < MOST_WORDS) words[count] = first[count], count++;
    for (char *at = shared->bytes; at < shared->bytes + shared->size && count < MOST_WORDS; at += strlen(at) + 1) words[count++] = at;
    words[count] = NULL;
    return count;
}

static void cleared(void) {
    for (int file = OUT; file <= NOTE; file++)
        if (ftruncate(file, 0) || lseek(file, 0, SEEK_SET)) _Exit(1);
}

/* Tells the status, and what stands in both files. */
static void answer(int status) {
    static char part[1 << 16];
    int32_t head[3] = {status, (int32_t)lseek(OUT, 0, SEEK_END), (int32_t)lseek(NOTE, 0, SEEK_END)};
    size_t full = sizeof head;
    memcpy(part, head, full);
    for (int which = 1; which < 3; which++)
        for (off_t done = 0; done < head[which];) {
            ssize_t got = pread(OUT + which - 1, part + full, sizeof part - full, done);
            if (got <= 0) _Exit(1);
            done += got;
            full += (size_t)got;
            if (full == sizeof part) give(part, full), full = 0;
        }
    give(part, full);
    shared->is_open = 0;
}

static int waited(pid_t child) {
    int code;
    while (waitpid(child, &code, 0) < 0)
        if (errno != EINTR) _Exit(1);
    return WIFEXITED(code) ? WEXITSTATUS(code) : -WTERMSIG(code);
}

/* Makes the run that is asked for in a copy; comes back there. */
static int is_copy(void) {
    cleared();
    pid_t child = fork();
    if (child < 0) _Exit(1);
    if (child) {
        answer(waited(child));
        return 0;
    }
    struct rlimit most = {seconds, seconds + 1};
    setrlimit(RLIMIT_CPU, &most);
    alarm((unsigned)(20 * seconds));
    if (dup2(OUT, 1) < 0 || dup2(NOTE, 2) < 0) _Exit(1);
    for (int file = ASKED; file <= NOTE; file++) close(file);
    return 1;
}

static void opened(void) {
    int from[4] = {(int)number("SERVE_ASKED"), (int)number("SERVE_TOLD"), memfd_create("out", 0), memfd_create("note", 0)};
    for (int which = 0; which < 4; which++) {
        if (dup2(from[which], ASKED + which) < 0) _Exit(1);
        close(from[which]);
    }
    seconds = (rlim_t)number("SERVE_SECONDS");
    shared = mmap(NULL, sizeof *shared, PROT_READ | PROT_WRITE, MAP_SHARED | MAP_ANONYMOUS, -1, 0);
    if (shared == MAP_FAILED) _Exit(1);
}

#ifdef ALONE
int main(int argc, char **argv) {
    (void)argc;
    opened();
    do asked(argv + 1);
    while (!is_copy());
    execvp(words[0], words);
    return 127;
}
#else
typedef int (*mains)(int, char **, char **);
typedef int (*starts)(mains, int, char **, void (*)(void), void (*)(void), void (*)(void), void *);
#define NEXT(name) static __typeof__(name) *next; if (!next) next = (__typeof__(name) *)dlsym(RTLD_NEXT, #name)

static mains real;
static jmp_buf over;
static int is_many;

/* The memory of a run: it is taken from one piece, and given back all at once. Before each block stands its size. */
enum { ARENA = 1 << 30, STAYS = 1 << 26, STEP = 16 };
static char *arena, *top;

static int is_ours(const void *block) { return (const char *)block >= arena && (const char *)block < arena + ARENA && arena; }

static void *taken(size_t step, size_t size) {
    uintptr_t at = ((uintptr_t)top + STEP + step - 1) & ~(uintptr_t)(step - 1);
    size_t full = (size + STEP - 1) & ~(size_t)(STEP - 1);
    if (size > ARENA || at + full > (uintptr_t)arena + ARENA) _Exit(1);
    ((size_t *)at)[-1] = size;
    top = (char *)at + full;
    return (void *)at;
}

void *malloc(size_t size) {
    NEXT(malloc);
    return is_many ? taken(STEP, size) : next(size);
}

void free(void *block) {
    NEXT(free);
    if (!is_ours(block)) next(block);
}

void *calloc(size_t count, size_t size) {
    static char first[4096];
    static int is_looking;
    if (is_looking) return first;
    is_looking = 1;
    NEXT(calloc);
    is_looking = 0;
    size_t whole;
    if (!is_many) return next(count, size);
    if (__builtin_mul_overflow(count, size, &whole)) return NULL;
    return memset(taken(STEP, whole), 0, whole);
}

void *realloc(void *block, size_t size) {
    NEXT(realloc);
    if (!is_many && !is_ours(block)) return next(block, size);
    if (!block) return malloc(size);
    size_t old = is_ours(block) ? ((size_t *)block)[-1] : malloc_usable_size(block);
    if (is_ours(block) && (char *)block + ((old + STEP - 1) & ~(size_t)(STEP - 1)) == top) {
        top = (char *)block - STEP;
        return taken(STEP, size);
    }
    void *made = malloc(size);
    return made ? memcpy(made, block, old < size ? old : size) : NULL;
}

int posix_memalign(void **to, size_t step, size_t size) {
    NEXT(posix_memalign);
    if (!is_many) return next(to, step, size);
    *to = taken(step < STEP ? STEP : step, size);
    return 0;
}

void *aligned_alloc(size_t step, size_t size) {
    NEXT(aligned_alloc);
    return is_many ? taken(step < STEP ? STEP : step, size) : next(step, size);
}

/* Ends of a run. */
static void ended(int status) {
    if (is_many) longjmp(over, (status & 255) + 1);
}

__attribute__((noreturn)) void exit(int status) {
    ended(status);
    NEXT(exit);
    next(status);
    abort();
}

__attribute__((noreturn)) void _exit(int status) {
    ended(status);
    _Exit(status);
}

int __cxa_atexit(void (*)(void *), void *, void *);

int __cxa_atexit(void (*what)(void *), void *of, void *whose) {
    NEXT(__cxa_atexit);
    return is_many ? 0 : next(what, of, whose);
}

/* The variables of the program, as they are before a run. */
static struct { char *at, *kept; size_t size; } parts[8];
static int part_count;

/* What the program does before its `main`, as to keep its words. */
typedef void (*firsts)(int, char **, char **);
static firsts *before;
static size_t before_count;

static int noted(struct dl_phdr_info *object, size_t size, void *unused) {
    (void)size, (void)unused;
    uintptr_t fixed = 0, fixed_end = 0;
    for (int n = 0; n < object->dlpi_phnum; n++)
        if (object->dlpi_phdr[n].p_type == PT_DYNAMIC)
            for (const ElfW(Dyn) *at = (const ElfW(Dyn) *)(object->dlpi_addr + object->dlpi_phdr[n].p_vaddr); at->d_tag != DT_NULL; at++) {
                if (at->d_tag == DT_INIT_ARRAY) before = (firsts *)(object->dlpi_addr + at->d_un.d_ptr);
                if (at->d_tag == DT_INIT_ARRAYSZ) before_count = at->d_un.d_val / sizeof(firsts);
            }
    for (int n = 0; n < object->dlpi_phnum; n++)
        if (object->dlpi_phdr[n].p_type == PT_GNU_RELRO) {
            fixed = object->dlpi_addr + object->dlpi_phdr[n].p_vaddr;
            fixed_end = (fixed + object->dlpi_phdr[n].p_memsz) & ~(uintptr_t)4095;
        }
    for (int n = 0; n < object->dlpi_phnum && part_count < 8; n++) {
        const ElfW(Phdr) *part = &object->dlpi_phdr[n];
        uintptr_t at = object->dlpi_addr + part->p_vaddr, end = at + part->p_memsz;
        if (part->p_type != PT_LOAD || !(part->p_flags & PF_W)) continue;
        if (at <= fixed_end && fixed < end) at = fixed_end;
        if (at >= end) continue;
        parts[part_count].at = (char *)at;
        parts[part_count].size = end - at;
        parts[part_count].kept = malloc(end - at);
        if (!parts[part_count].kept) _Exit(1);
        memcpy(parts[part_count].kept, (char *)at, end - at);
        part_count++;
    }
    return 1;
}

/* The program from the start, but for what the system and the C library do. */
static int whole(int count, char **environment) {
    for (size_t n = 0; n < before_count; n++) before[n](count, words, environment);
    return real(count, words, environment);
}

/* Makes one run after the other in this process, each over memory as it was before. */
static void many(char **first, char **environment) {
    if (dup2(OUT, 1) < 0 || dup2(NOTE, 2) < 0) _Exit(1);
    static char buffer[1 << 16];
    setvbuf(stdout, buffer, _IOFBF, sizeof buffer);
    for (int run = 0; run < RUNS; run++) {
        int count = asked(first);
        cleared();
        alarm((unsigned)seconds);
        top = arena;
        is_many = 1;
        int status = setjmp(over);
        if (status == 0) status = whole(count, environment) + 1;
        fflush(stdout);
        is_many = 0;
        alarm(0);
        for (int part = 0; part < part_count; part++) memcpy(parts[part].at, parts[part].kept, parts[part].size);
        if (top - arena > STAYS) madvise(arena + STAYS, (size_t)(top - arena) - STAYS, MADV_DONTNEED);
        close_range(3, FIRST_OWN - 1, 0);
        lseek(0, 0, SEEK_SET);
        answer((status - 1) & 255);
    }
    shared->goes_on = 1;
    _Exit(0);
}

static int stopped(int argc, char **argv, char **environment) {
    (void)argc;
    argv[1] = NULL;
    unsetenv("LD_PRELOAD");
    opened();
    arena = mmap(NULL, ARENA, PROT_READ | PROT_WRITE, MAP_PRIVATE | MAP_ANONYMOUS | MAP_NORESERVE, -1, 0);
    if (arena == MAP_FAILED) _Exit(1);
    dl_iterate_phdr(noted, NULL);
    for (int lost = 0; lost < 100;) {
        shared->goes_on = shared->is_open = 0;
        pid_t child = fork();
        if (child < 0) _Exit(1);
        if (child == 0) many(argv, environment);
        waited(child);
        if (!shared->is_open && !shared->goes_on) _Exit(0);
        if (!shared->is_open) continue;
        /* The copy was lost in the middle of a run, so another one makes this run alone. */
        lost++;
        int count = 0;
        while (argv[count]) words[count] = argv[count], count++;
        for (char *at = shared->bytes; at < shared->bytes + shared->size && count < MOST_WORDS; at += strlen(at) + 1) words[count++] = at;
        words[count] = NULL;
        if (is_copy()) return whole(count, environment);
    }
    for (;;) {
        int count = asked(argv);
        if (is_copy()) return whole(count, environment);
    }
}

int __libc_start_main(mains program, int argc, char **argv, void (*init)(void), void (*fini)(void), void (*unload)(void), void *stack) {
    starts next = (starts)dlsym(RTLD_NEXT, "__libc_start_main");
    real = program;
    return next(stopped, argc, argv, init, fini, unload, stack);
}
#endif
"""

TOO_LONG = (-signal.SIGXCPU, -signal.SIGALRM, -signal.SIGKILL)


def words_of(command):
    """The words of a command as it is written, good for every folder."""
    return [os.path.abspath(word) if "/" in word and os.path.exists(word) else word for word in shlex.split(command)]


def built(folder):
    """Compiles what serves programs into a folder, for `Served`."""
    code = os.path.join(folder, "serve.c")
    with open(code, "w", encoding="ascii") as file:
        file.write(SERVER)
    subprocess.run(["cc", "-O1", "-shared", "-fPIC", "-o", os.path.join(folder, "serve.so"), code, "-ldl"], check=True)
    subprocess.run(["cc", "-O1", "-DALONE", "-o", os.path.join(folder, "serve"), code], check=True)


def is_linked_at_start(program):
    """Whether it is a program into which a library can be loaded."""
    with open(program, "rb") as file:
        head = file.read(4096)
    return head.startswith(b"\x7fELF") and re.search(rb"/ld[-\w.]*\.so", head) is not None


class Served:
    """A command that answers runs in a folder, one after the other."""

    def __init__(self, command, tools, folder, seconds):
        program = shutil.which(command[0]) or command[0]
        self.environment, self.folder = dict(os.environ, SERVE_SECONDS=str(seconds)), folder
        if len(command) == 1 and is_linked_at_start(program):
            self.words = [os.path.abspath(program)]
            self.environment.update(LD_PRELOAD=os.path.join(tools, "serve.so"), LD_BIND_NOW="1")
        elif len(command) == 2 and command[1].endswith(".py"):
            self.words = [program, os.path.abspath(__file__), os.path.abspath(command[1])]
        else:
            self.words = [os.path.join(tools, "serve"), os.path.abspath(program)] + command[1:]
        self.open = collections.deque()
        self.start()

    def start(self):
        asked, self.asked = os.pipe()
        told_from, told = os.pipe()
        self.told = os.fdopen(told_from, "rb")
        environment = dict(self.environment, SERVE_ASKED=str(asked), SERVE_TOLD=str(told))
        self.process = subprocess.Popen(self.words, cwd=self.folder, env=environment, stdin=subprocess.DEVNULL, pass_fds=(asked, told))
        os.close(asked)
        os.close(told)

    def ask(self, words):
        """Begins a run with these words; `answer` has to follow."""
        self.open.append(words)
        text = b"".join(os.fsencode(word) + b"\0" for word in words)
        try:
            os.write(self.asked, struct.pack("I", len(text)) + text)
        except BrokenPipeError:
            pass

    def answer(self):
        """Status, output and note of the run that was asked for first; None for the status where it took too long, minus the number of a signal that ended it."""
        head = self.told.read(12)
        self.open.popleft()
        if len(head) < 12:
            self.again()
            return None, b"", b""
        status, out, note = struct.unpack("iii", head)
        return (None if status in TOO_LONG else status), self.told.read(out), self.told.read(note)

    def again(self):
        """A start anew, where the process was lost with a run; the others that were asked for are asked for once more."""
        self.close()
        waiting, self.open = list(self.open), collections.deque()
        self.start()
        for words in waiting:
            self.ask(words)

    def said(self, words):
        self.ask(words)
        return self.answer()

    def close(self):
        os.close(self.asked)
        self.process.wait()
        self.told.close()


class Ended(BaseException):
    """The end of a script's run, by `os._exit`."""


def ended(code):
    raise Ended(code)


def serve_script(script):
    """What the C code does for a program, for a script of Python: one run after the other in this process. One that takes too long ends it."""
    asked, told, seconds = (int(os.environ[name]) for name in ("SERVE_ASKED", "SERVE_TOLD", "SERVE_SECONDS"))
    sys.path[0] = os.path.dirname(script)
    with open(script, "rb") as file:
        code = compile(file.read(), script, "exec")
    source, answers = os.fdopen(asked, "rb"), os.fdopen(told, "wb")
    for file in (1, 2):
        os.dup2(os.memfd_create("told"), file)
    os._exit = ended
    while True:
        head = source.read(4)
        if not head:
            return
        sys.argv = [script] + [os.fsdecode(word) for word in source.read(struct.unpack("I", head)[0]).split(b"\0")[:-1]]
        for file in (1, 2):
            os.ftruncate(file, 0)
            os.lseek(file, 0, os.SEEK_SET)
        signal.alarm(20 * seconds)
        try:
            exec(code, {"__name__": "__main__", "__file__": script})
            status = 0
        except (SystemExit, Ended) as end:
            status = (end.args or (0,))[0]
            status = status if isinstance(status, int) else int(status is not None)
        except Exception:
            status = 1
        signal.alarm(0)
        sys.stdout.flush()
        sys.stderr.flush()
        texts = [os.pread(file, 1 << 28, 0) for file in (1, 2)]
        answers.write(struct.pack("iii", status & 255, *map(len, texts)) + b"".join(texts))
        answers.flush()


if __name__ == "__main__":
    serve_script(sys.argv[1])
