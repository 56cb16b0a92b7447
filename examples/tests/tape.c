/*
 * tape.c - what model.py's programs run on: a kernel that knows of capability mode and of each descriptor's rights, and takes its answers, and those of
 * branches and opens, from a tape. It keeps its own state, and knows nothing of tables. A line is written for each thing that happens; those that begin
 * with a dot are no lines of a trace.
 */
#include <errno.h>
#include <stdarg.h>
#include <stdio.h>
#include <stdlib.h>
#include <string.h>
#include <sys/mman.h>
#include <sys/wait.h>
#include <unistd.h>
#include "tape_programs.h"

#ifndef MAP_ANONYMOUS
#define MAP_ANONYMOUS MAP_ANON
#endif

enum { ENTER = 1, LIMIT = 2, SPLIT = 4, SPENT = 99, LONG = 98, ROOM = 1 << 16, LONGEST = 400 };

int tape_enter(void);
int tape_limit(int descriptor, unsigned mask);
int tape_fork(void);
void tape_told(unsigned seam, const char *primitive, unsigned index, int answer);

/* what all processes of a run share: the place on the tape, and what was written */
static struct shared {
    unsigned at, length, lines;
    int value, error;
    char text[ROOM];
} *shared;

static const struct tape_program *program;
static const char *tape;

/* this process's own: a fork copies it */
static int entered, just_split, next_number;
static struct { int number; unsigned rights; } held[TAPE_DESCRIPTORS];

static void line(const char *form, ...)
{
    va_list parts;
    if (++shared->lines > LONGEST)
        _exit(LONG);
    va_start(parts, form);
    shared->length += (unsigned)vsnprintf(shared->text + shared->length, ROOM - shared->length, form, parts);
    va_end(parts);
}

/* the next digit of the tape; where it is at its end the run is over */
static int answer(void)
{
    if (tape[shared->at] == 0)
        _exit(SPENT);
    return tape[shared->at++] - '0';
}

static int refused(unsigned kind)
{
    return (program->refusable & kind) != 0 && answer() < 3;
}

int tape_enter(void)
{
    if (refused(ENTER)) {
        errno = ENOSYS;
        return -1;
    }
    entered = 1;
    return 0;
}

int tape_limit(int descriptor, unsigned mask)
{
    int place = 0;
    while (place < program->descriptors && (descriptor < 0 || held[place].number != descriptor))
        place++;
    if (place == program->descriptors)
        errno = EBADF;
    else if ((mask & ~held[place].rights) != 0)
        errno = EPERM;
    else if (refused(LIMIT))
        errno = ENOSYS;
    else {
        held[place].rights = mask;
        return 0;
    }
    return -1;
}

int tape_fork(void)
{
    if (refused(SPLIT)) {
        errno = EAGAIN;
        return -1;
    }
    pid_t child = fork();
    if (child == 0)
        just_split = 1;
    return child;
}

void tape_told(unsigned seam, const char *primitive, unsigned index, int answer)
{
    if (strcmp(primitive, "limit") == 0)
        line("try %u limit%u %s\n", seam, index, answer == 0 ? "granted" : "refused");
    else
        line("try %u %s %s\n", seam, primitive, answer == 0 ? "granted" : "refused");
}

static int place_of(const char *name)
{
    for (int place = 0; place < program->descriptors; place++)
        if (strcmp(program->names[place], name) == 0)
            return place;
    abort();
}

int tape_open(const char *name)
{
    int place = place_of(name);
    int failed = answer() < 3;
    held[place].number = failed ? -1 : next_number++;
    held[place].rights = program->rights[place];
    line("open %s %s\n", name, failed ? "failed" : "opened");
    errno = 0;
    return held[place].number;
}

void tape_close(const char *name, int number)
{
    int place = place_of(name);
    if (number >= 0 && held[place].number >= 0 && held[place].number != number)
        line("the variable %s has another number\n", name);
    held[place].number = -1;
    line("close %s\n", name);
}

void tape_label(const char *name)
{
    line("label %s %s", name, entered ? "cap" : "amb");
    for (int place = 0; place < program->descriptors; place++)
        if (held[place].number < 0)
            line(" %s=closed", program->names[place]);
        else
            line(" %s=%03x", program->names[place], held[place].rights);
    line("\n");
}

void tape_call(const char *name)
{
    line("call %s%s\n", name, just_split ? " split" : "");
    just_split = 0;
}

/* a function's end; what it gives and errno are to be seen by whoever called it, from wherever it ran */
int tape_return(const char *name, int value)
{
    line("return %s\n", name);
    shared->value = value;
    shared->error = errno = 1 + (int)(shared->at + shared->lines) % 90;
    return value;
}

void same(long value)
{
    if (value != shared->value || errno != shared->error)
        line("the result is %ld with errno %d, not %d with %d\n", value, errno, shared->value, shared->error);
}

int branch(void)
{
    int left = answer() < 5;
    line(left ? ".left\n" : ".right\n");
    return left;
}

void tick(void)
{
    answer();
    line(".tick\n");
}

/* an open of a variable that the policy doesn't name */
int open_it(void)
{
    return next_number++;
}

int given(int value)
{
    return value * 7 - 1000;
}

static int run(FILE *notes)
{
    int status;
    fflush(stdout);
    pid_t child = fork();
    if (child == 0) {
        dup2(fileno(notes), STDERR_FILENO);
        next_number = 200;
        for (int place = 0; place < program->descriptors; place++) {
            held[place].number = program->numbers[place];
            held[place].rights = program->rights[place];
        }
        exit(program->run() & 0x3f);
    }
    waitpid(child, &status, 0);
    return WIFEXITED(status) ? WEXITSTATUS(status) : -WTERMSIG(status);
}

/* each line of the input is the number of a program and a tape */
int main(void)
{
    char words[4096], read_tape[4096], note[512];
    unsigned number;
    FILE *notes = tmpfile();
    shared = mmap(NULL, sizeof *shared, PROT_READ | PROT_WRITE, MAP_SHARED | MAP_ANONYMOUS, -1, 0);
    while (fgets(words, sizeof words, stdin) != NULL && sscanf(words, "%u %4000s", &number, read_tape) == 2) {
        memset(shared, 0, sizeof *shared - ROOM);
        program = &tape_programs[number];
        tape = read_tape;
        if (ftruncate(fileno(notes), 0) < 0)
            abort();
        int status = run(notes);
        ssize_t size = pread(fileno(notes), note, sizeof note - 1, 0);
        note[size < 0 ? 0 : size] = 0;
        if (lseek(fileno(notes), 0, SEEK_SET) < 0)
            abort();
        shared->text[shared->length] = 0;
        printf("%d %u\n%s", status, shared->at, shared->text);
        printf(".note %s%s", note, size > 0 ? "" : "\n");
        printf(".end\n");
    }
    return 0;
}
