/* tee - copies standard input to standard output and to at most two files; -a writes behind what they hold */
#include <fcntl.h>
#include <stdio.h>
#include <string.h>
#include <unistd.h>

static int first = -1;
static int second = -1;
static char buf[4096];
static int bad;

static void put(int descriptor, long size)
{
    long done = 0, count;

    while (done < size) {
        count = write(descriptor, buf + done, size - done);
        if (count < 0) {
            perror("tee");
            bad = 1;
            return;
        }
        done += count;
    }
}

int main(int argc, char **argv)
{
    int at = 1, how = O_WRONLY | O_CREAT;
    long n;

    if (argc > 1 && strcmp(argv[1], "-a") == 0) {
        how |= O_APPEND;
        at = 2;
    } else {
        how |= O_TRUNC;
    }
    if (argc - at > 2) {
        fprintf(stderr, "usage: tee [-a] [FILE [FILE]]\n");
        return 2;
    }
prepare:
    if (at < argc) {
        first = open(argv[at], how, 0644);
        if (first < 0) {
            perror(argv[at]);
            bad = 1;
        }
    }
    if (at + 1 < argc) {
        second = open(argv[at + 1], how, 0644);
        if (second < 0) {
            perror(argv[at + 1]);
            bad = 1;
        }
    }
    n = read(0, buf, sizeof buf);
    while (n > 0) {
copy:
        put(1, n);
        if (first >= 0)
            put(first, n);
        if (second >= 0)
            put(second, n);
        n = read(0, buf, sizeof buf);
    }
done:
    return bad || n < 0;
}
