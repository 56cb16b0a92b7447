/*
 * wc - counts the lines, words and bytes of files. Here is main alone, with the phases of the tool, in the C that CapWeave takes; the rest is in
 * wc_count.c, in any C. `next_input` has the form of an open: it hands out one of the files that `open_inputs` has opened.
 */
#include <stdio.h>
#include <unistd.h>

int open_inputs(int count, char **names);
int more_inputs(void);
int next_input(void);
int count_input(int descriptor);
int print_totals(void);

static int in = -1;

int main(int argc, char **argv)
{
    int bad, more;

    if (argc < 2) {
        fprintf(stderr, "usage: wc FILE ..\n");
        return 2;
    }
start:
    bad = open_inputs(argc - 1, argv + 1);
    more = more_inputs();
    while (more) {
        in = next_input();
        if (in >= 0) {
count:
            bad |= count_input(in);
            close(in);
        }
        more = more_inputs();
    }
    bad |= print_totals();
    return bad;
}
