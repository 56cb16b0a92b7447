/* wc_count.c - what wc.c calls: not in CapWeave's subset, and not seen by it */
#include <ctype.h>
#include <errno.h>
#include <fcntl.h>
#include <stdbool.h>
#include <stdio.h>
#include <stdlib.h>
#include <string.h>
#include <unistd.h>

int open_inputs(int count, char **names);
int more_inputs(void);
int next_input(void);
int count_input(int descriptor);
int print_totals(void);

struct counts {
    unsigned long lines, words, bytes;
};

static struct input {
    const char *name;
    int descriptor;
} *inputs;
static size_t number, next;
static struct counts all;

static void print(const struct counts *some, const char *name)
{
    printf("%7lu %7lu %7lu %s\n", some->lines, some->words, some->bytes, name);
}

int open_inputs(int count, char **names)
{
    int bad = 0;
    inputs = calloc((size_t)count, sizeof *inputs);
    if (inputs == NULL) {
        perror("wc");
        exit(2);
    }
    for (; number < (size_t)count; number++) {
        inputs[number].name = names[number];
        inputs[number].descriptor = open(names[number], O_RDONLY);
        if (inputs[number].descriptor < 0) {
            fprintf(stderr, "wc: %s: %s\n", names[number], strerror(errno));
            bad = 1;
        }
    }
    return bad;
}

int more_inputs(void)
{
    return next < number;
}

int next_input(void)
{
    return inputs[next++].descriptor;
}

int count_input(int descriptor)
{
    struct counts some = { 0, 0, 0 };
    bool inside = false;
    char bytes[4096];
    ssize_t size;
    while ((size = read(descriptor, bytes, sizeof bytes)) > 0) {
        for (const char *at = bytes; at < bytes + size; at++) {
            switch (*at) {
            case '\n':
                some.lines++;
                inside = false;
                break;
            case ' ':
            case '\t':
                inside = false;
                break;
            default:
                some.words += !inside;
                inside = true;
            }
        }
        some.bytes += (unsigned long)size;
    }
    const char *name = inputs[next - 1].name;
    if (size < 0)
        fprintf(stderr, "wc: %s: %s\n", name, strerror(errno));
    print(&some, name);
    all.lines += some.lines;
    all.words += some.words;
    all.bytes += some.bytes;
    return size < 0;
}

int print_totals(void)
{
    if (number > 1)
        print(&all, "total");
    return 0;
}
