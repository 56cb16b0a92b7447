/*cw{*/
#include "capweave.h"
#define CW_LIMITS(X) X(0,0,0x0) X(1,in,0x1)
CW_TABLE(1,24,0)
CW_MEM(0,1,0xffffff)
CW_MEM(1,12,0xffffff)
CW_MEM(2,13,0xffffff)
CW_MEM(3,14,0xffffff)
CW_MEM(4,16,0xffffff)
CW_MEM(5,17,0xffffff)
CW_MEM(6,18,0xffffff)
CW_MEM(7,20,0xffffff)
CW_MEM(8,22,0xffffff)
CW_LIVE(0,0)
CW_LIVE(2,0)
CW_LIVE(4,0)
CW_LIVE(6,0)
CW_LIVE(7,0)
CW_LIVE(8,0)
CW_LIVE(9,0)
CW_LIVE(10,0)
CW_LIVE(11,0)
CW_LIVE(13,0)
CW_LIVE(15,0)
CW_LIVE(17,0)
CW_LIVE(18,2)
CW_LIVE(19,2)
CW_LIVE(20,2)
CW_LIVE(20,5)
CW_LIVE(20,6)
CW_LIVE(20,8)
CW_LIVE(21,2)
CW_LIVE(21,5)
CW_LIVE(21,6)
CW_LIVE(21,8)
CW_LIVE(22,2)
CW_LIVE(22,5)
CW_LIVE(22,6)
CW_LIVE(22,8)
CW_LIVE(23,2)
CW_LIVE(23,5)
CW_LIVE(23,6)
CW_LIVE(23,8)
CW_LIVE(24,2)
CW_LIVE(24,5)
CW_LIVE(25,1)
CW_LIVE(25,4)
CW_LIVE(25,6)
CW_LIVE(25,8)
CW_LIVE(26,4)
CW_LIVE(26,8)
CW_LIVE(27,1)
CW_LIVE(27,3)
CW_LIVE(27,6)
CW_LIVE(27,7)
CW_LIVE(28,1)
CW_LIVE(28,3)
CW_LIVE(29,6)
CW_LIVE(29,7)
CW_LIVE(30,6)
CW_LIVE(30,7)
CW_LIVE(31,6)
CW_LIVE(31,7)
CW_LIVE(32,2)
CW_LIVE(32,5)
CW_LIVE(32,6)
CW_LIVE(32,8)
CW_LIVE(33,2)
CW_LIVE(33,5)
CW_LIVE(33,6)
CW_LIVE(33,8)
CW_LIVE(34,2)
CW_LIVE(34,5)
CW_LIVE(34,6)
CW_LIVE(34,8)
CW_LIVE(35,0)
CW_LIVE(35,2)
CW_LIVE(35,5)
CW_LIVE(35,6)
CW_LIVE(35,8)
CW_TRY(3,0,2,1,CW_NONE)
CW_TRY(3,0,5,4,CW_NONE)
CW_TRY(3,1,4,3,CW_NONE)
CW_TRY(3,1,8,7,CW_NONE)
CW_TRY(3,2,1,6,CW_NONE)
CW_TRY(3,2,3,7,CW_NONE)
CW_AT(1,0,2)
CW_AT(3,6,6)
CW_AT(3,7,7)
CW_OPENED(2,2,5,2)
CW_OPENED(2,5,5,2)
CW_OPENED(2,6,8,6)
CW_OPENED(2,8,8,6)
CW_CLOSED(4,6,6)
CW_CLOSED(4,7,6)
CW_DONE
/*}cw*//*
 * wc - counts the lines, words and bytes of files. Here is main alone, with the phases of the tool, in the C that CapWeave takes; the rest is in
 * wc_count.c, in any C. `next_input` has the form of an open: it hands out one of the files that `open_inputs` has opened.
 */
#include <stdio.h>
#include <unistd.h>

int open_inputs(int count, char **names);
int more_inputs(void);
int next_input(void);
int count_input(int descriptor);
int print_totals(void);

static int in = -1;

int main(int argc, char **argv)
{/*cw{*/CW_ENTRY(0);/*}cw*/
    int bad, more;

    if (argc < 2) {
        fprintf(stderr, "usage: wc FILE ..\n");
        return 2;
    }
start:/*cw{*/CW_LABEL(1)/*}cw*/
    bad = open_inputs(argc - 1, argv + 1);
    more = more_inputs();
    while (more) {
        /*cw{*/CW_OPEN(2,in)/*}cw*/in = next_input();
        if (in >= 0) {
count:/*cw{*/CW_LABEL(3)/*}cw*/
            bad |= count_input(in);
            /*cw{*/CW_CLOSE(4)/*}cw*/close(in);
        }
        more = more_inputs();
    }
    bad |= print_totals();
    return bad;
}
