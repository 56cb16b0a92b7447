/*
 * split - reads log lines from standard input; errors go to the file errors.log and all others to others.log. A line's first byte tells which, as
 * `classify` reads it; that function sees bytes of strangers, so it runs in a process of its own, which can't change anything here.
 */
#include <ctype.h>
#include <fcntl.h>
#include <stdio.h>
#include <unistd.h>

static int errors = -1;
static int others = -1;
static char line[4096];
static long kept, wrong, right;
static int failed;

/* 1 for an error, 0 for any other line, -1 for a line that is none */
static int classify(int first, int second)
{
judge:
    if (!isprint(first))
        return -1;
    if (first == '<')
        return second == '0' || second == '1' || second == '2' || second == '3';
    if (first == 'E' || first == 'F')
        return second == ' ';
    return 0;
}

static int more(void)
{
    int c;

    kept = 0;
    c = getchar();
    while (c >= 0 && c != '\n' && kept < 4095) {
        line[kept] = c;
        kept++;
        c = getchar();
    }
    line[kept] = '\n';
    return c >= 0 || kept > 0;
}

static void sort(void)
{
    int kind;

    line[kept + 1] = 0;
    kind = classify(line[0], line[1]);
    if (kind > 0) {
        wrong++;
        failed |= write(errors, line, kept + 1) < 0;
    } else if (kind == 0) {
        right++;
        failed |= write(others, line, kept + 1) < 0;
    }
}

int main(void)
{
    int c;

prepare:
    errors = open("errors.log", O_WRONLY | O_CREAT | O_TRUNC, 0644);
    if (errors < 0) {
        perror("errors.log");
        return 1;
    }
    others = open("others.log", O_WRONLY | O_CREAT | O_TRUNC, 0644);
    if (others < 0) {
        perror("others.log");
        close(errors);
        return 1;
    }
    c = more();
    while (c) {
        sort();
        c = more();
    }
report:
    close(errors);
    close(others);
    printf("%ld errors, %ld others\n", wrong, right);
    return failed;
}
