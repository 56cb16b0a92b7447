/*
 * find - prints the lines of a file that have a fixed string in them, with their numbers.
 * Options: -i (letters of either case are the same), -c (only the count), -v (the lines without it).
 */
#include <ctype.h>
#include <fcntl.h>
#include <stdio.h>
#include <string.h>
#include <unistd.h>

static int in = -1;
static char buf[8192];
static char line[1024];
static long kept, numbers, found;
static int ignore, counting, inverted;

static int same(int a, int b)
{
    int x, y;

    if (!ignore)
        return a == b;
    x = tolower(a);
    y = tolower(b);
    return x == y;
}

/* whether the wanted text stands in the line at this place */
static int stands(char *wanted, long at)
{
    long i;
    int equal;

    for (i = 0; wanted[i] != 0; i++) {
        if (at + i >= kept)
            return 0;
        equal = same(wanted[i], line[at + i]);
        if (!equal)
            return 0;
    }
    return 1;
}

static int matches(char *wanted)
{
    long at;
    int there;

    for (at = 0; at <= kept; at++) {
        there = stands(wanted, at);
        if (there)
            return 1;
    }
    return 0;
}

static void judge(char *wanted)
{
    int there;

    numbers++;
    there = matches(wanted);
    if (there != inverted) {
        found++;
        line[kept] = 0;
        if (!counting)
            printf("%ld:%s\n", numbers, line);
    }
    kept = 0;
}

static void search(char *wanted, long n)
{
    long i;

    for (i = 0; i < n; i++) {
        if (buf[i] == '\n') {
            judge(wanted);
        } else if (kept < 1023) {
            line[kept] = buf[i];
            kept++;
        }
    }
}

static void option(char *word)
{
    long i;

    for (i = 1; word[i] != 0; i++) {
        if (word[i] == 'i')
            ignore = 1;
        if (word[i] == 'c')
            counting = 1;
        if (word[i] == 'v')
            inverted = 1;
    }
}

int main(int argc, char **argv)
{
    int at = 1;
    long n;

    while (at < argc && argv[at][0] == '-') {
        option(argv[at]);
        at++;
    }
    if (argc - at != 2) {
        fprintf(stderr, "usage: find [-civ] TEXT FILE\n");
        return 2;
    }
ready:
    in = open(argv[at + 1], O_RDONLY);
    if (in < 0) {
        perror(argv[at + 1]);
        return 2;
    }
    n = read(in, buf, sizeof buf);
    while (n > 0) {
parse:
        search(argv[at], n);
        n = read(in, buf, sizeof buf);
    }
    close(in);
    if (kept > 0)
        judge(argv[at]);
    if (counting)
        printf("%ld\n", found);
    return found == 0;
}
