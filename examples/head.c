/* head - prints the first lines of files: ten of each, or the number behind -n */
#include <fcntl.h>
#include <stdio.h>
#include <stdlib.h>
#include <string.h>
#include <unistd.h>

static int in = -1;

/* the first lines of the file that is open; whether something failed. It changes nothing here, so it can run in a process of its own. */
static int top(long lines)
{
    char buf[4096];
    long n, i, put;

    n = 1;
    while (lines > 0 && n > 0) {
show:
        n = read(in, buf, sizeof buf);
        i = 0;
        while (i < n && lines > 0) {
            if (buf[i] == '\n')
                lines--;
            i++;
        }
        put = write(1, buf, i);
        if (put != i)
            return 1;
    }
    return n < 0;
}

int main(int argc, char **argv)
{
    int at = 1, bad = 0;
    int failed, many;
    long lines = 10;

    if (argc > 2 && strcmp(argv[1], "-n") == 0) {
        lines = strtol(argv[2], 0, 10);
        at = 3;
    }
    if (at >= argc) {
        fprintf(stderr, "usage: head [-n LINES] FILE ..\n");
        return 2;
    }
    many = argc - at > 1;
    while (at < argc) {
        if (many) {
            printf("==> %s <==\n", argv[at]);
            fflush(stdout);
        }
openfile:
        in = open(argv[at], O_RDONLY);
        if (in < 0) {
            perror(argv[at]);
            bad = 1;
        } else {
            failed = top(lines);
            if (failed)
                bad = 1;
            close(in);
        }
        at++;
    }
    return bad;
}
