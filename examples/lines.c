/* lines - counts the lines, words and bytes of a file */
#include <fcntl.h>
#include <stdio.h>
#include <unistd.h>

static int in = -1;
static char buf[4096];
static long lines, words, bytes;
static int inside;

static void tally(long n)
{
    long i;
    for (i = 0; i < n; i++) {
        bytes++;
        if (buf[i] == '\n')
            lines++;
        if (buf[i] == ' ' || buf[i] == '\t' || buf[i] == '\n') {
            inside = 0;
        } else if (!inside) {
            inside = 1;
            words++;
        }
    }
}

int main(int argc, char **argv)
{
    long n;

    if (argc != 2) {
        fprintf(stderr, "usage: lines FILE\n");
        return 2;
    }
begin:
    in = open(argv[1], O_RDONLY);
    if (in < 0) {
        perror(argv[1]);
        return 1;
    }
    n = read(in, buf, sizeof buf);
    while (n > 0) {
parse:
        tally(n);
        n = read(in, buf, sizeof buf);
    }
    close(in);
    printf("%ld %ld %ld %s\n", lines, words, bytes, argv[1]);
    return 0;
}
