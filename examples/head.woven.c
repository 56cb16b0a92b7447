/*cw{*/
#include "capweave.h"
#define CW_LIMITS(X) X(0,in,0x1)
CW_TABLE(1,12,0)
CW_MEM(0,0,0xfff)
CW_MEM(1,6,0x1c7)
CW_MEM(2,6,0xfff)
CW_MEM(3,7,0x1c7)
CW_MEM(4,7,0xfff)
CW_MEM(5,8,0x1c7)
CW_MEM(6,8,0xfff)
CW_LIVE(0,1)
CW_LIVE(0,5)
CW_LIVE(2,1)
CW_LIVE(2,5)
CW_LIVE(4,1)
CW_LIVE(4,5)
CW_LIVE(5,1)
CW_LIVE(5,5)
CW_LIVE(6,1)
CW_LIVE(6,5)
CW_LIVE(7,1)
CW_LIVE(7,5)
CW_LIVE(8,1)
CW_LIVE(8,3)
CW_LIVE(8,5)
CW_LIVE(9,1)
CW_LIVE(9,3)
CW_LIVE(9,5)
CW_LIVE(10,5)
CW_LIVE(11,1)
CW_LIVE(11,3)
CW_LIVE(13,1)
CW_LIVE(13,3)
CW_LIVE(14,1)
CW_LIVE(14,3)
CW_LIVE(15,1)
CW_LIVE(15,3)
CW_LIVE(16,1)
CW_LIVE(16,3)
CW_LIVE(17,1)
CW_LIVE(17,3)
CW_LIVE(18,1)
CW_LIVE(18,3)
CW_LIVE(19,1)
CW_LIVE(19,3)
CW_LIVE(20,1)
CW_LIVE(20,3)
CW_LIVE(21,1)
CW_LIVE(21,3)
CW_LIVE(22,1)
CW_LIVE(22,3)
CW_LIVE(23,1)
CW_LIVE(23,3)
CW_LIVE(23,5)
CW_LIVE(24,1)
CW_LIVE(24,3)
CW_LIVE(24,5)
CW_LIVE(25,0)
CW_LIVE(27,0)
CW_LIVE(29,0)
CW_LIVE(30,0)
CW_LIVE(31,0)
CW_LIVE(32,0)
CW_LIVE(33,0)
CW_LIVE(34,0)
CW_LIVE(35,0)
CW_LIVE(36,0)
CW_LIVE(37,0)
CW_LIVE(38,0)
CW_LIVE(39,0)
CW_LIVE(40,0)
CW_LIVE(40,2)
CW_LIVE(40,6)
CW_LIVE(41,0)
CW_LIVE(41,2)
CW_LIVE(41,6)
CW_LIVE(42,0)
CW_LIVE(42,2)
CW_LIVE(42,6)
CW_LIVE(43,0)
CW_LIVE(43,2)
CW_LIVE(43,6)
CW_LIVE(44,0)
CW_LIVE(44,2)
CW_LIVE(44,6)
CW_LIVE(46,0)
CW_LIVE(46,2)
CW_LIVE(46,6)
CW_LIVE(48,0)
CW_LIVE(48,2)
CW_LIVE(48,6)
CW_LIVE(49,2)
CW_LIVE(49,6)
CW_LIVE(50,2)
CW_LIVE(50,6)
CW_LIVE(51,2)
CW_LIVE(51,6)
CW_LIVE(52,2)
CW_LIVE(52,6)
CW_LIVE(53,2)
CW_LIVE(53,6)
CW_LIVE(55,2)
CW_LIVE(55,6)
CW_LIVE(57,2)
CW_LIVE(57,6)
CW_LIVE(58,2)
CW_LIVE(58,4)
CW_LIVE(58,6)
CW_LIVE(59,2)
CW_LIVE(59,4)
CW_LIVE(59,6)
CW_LIVE(60,2)
CW_LIVE(60,4)
CW_LIVE(60,6)
CW_LIVE(61,2)
CW_LIVE(61,6)
CW_LIVE(62,0)
CW_LIVE(62,2)
CW_LIVE(62,6)
CW_LIVE(63,0)
CW_LIVE(63,2)
CW_LIVE(63,6)
CW_TRY(1,0,5,3,CW_NONE)
CW_AT(1,1,1)
CW_AT(1,3,3)
CW_AT(3,0,2)
CW_AT(3,2,2)
CW_AT(3,6,6)
CW_OPENED(4,2,6,2)
CW_OPENED(4,6,6,2)
CW_CLOSED(6,2,2)
CW_CLOSED(6,4,2)
CW_CLOSED(6,6,2)
CW_INTO(5,0,2,1)
CW_INTO(5,0,6,5)
CW_BACK(5,0,2,6,2)
CW_BACK(5,0,2,7,4)
CW_BACK(5,0,2,8,6)
CW_BACK(5,0,6,6,2)
CW_BACK(5,0,6,7,4)
CW_BACK(5,0,6,8,6)
CW_DONE
/*}cw*//* head - prints the first lines of files: ten of each, or the number behind -n */
#include <fcntl.h>
#include <stdio.h>
#include <stdlib.h>
#include <string.h>
#include <unistd.h>

static int in = -1;

/* the first lines of the file that is open; whether something failed. It changes nothing here, so it can run in a process of its own. */
static int top(long lines)
{/*cw{*/CW_ENTRY(0);/*}cw*/
    char buf[4096];
    long n, i, put;

    n = 1;
    while (lines > 0 && n > 0) {
show:/*cw{*/CW_LABEL(1)/*}cw*/
        n = read(in, buf, sizeof buf);
        i = 0;
        while (i < n && lines > 0) {
            if (buf[i] == '\n')
                lines--;
            i++;
        }
        put = write(1, buf, i);
        if (put != i)
            return 1;
    }
    return n < 0;
}

int main(int argc, char **argv)
{/*cw{*/CW_ENTRY(2);/*}cw*/
    int at = 1, bad = 0;
    int failed, many;
    long lines = 10;

    if (argc > 2 && strcmp(argv[1], "-n") == 0) {
        lines = strtol(argv[2], 0, 10);
        at = 3;
    }
    if (at >= argc) {
        fprintf(stderr, "usage: head [-n LINES] FILE ..\n");
        return 2;
    }
    many = argc - at > 1;
    while (at < argc) {
        if (many) {
            printf("==> %s <==\n", argv[at]);
            fflush(stdout);
        }
openfile:/*cw{*/CW_LABEL(3)/*}cw*/
        /*cw{*/CW_OPEN(4,in)/*}cw*/in = open(argv[at], O_RDONLY);
        if (in < 0) {
            perror(argv[at]);
            bad = 1;
        } else {
            /*cw{*/CW_CALLV(5,failed)/*}cw*/failed = top(lines);
            if (failed)
                bad = 1;
            /*cw{*/CW_CLOSE(6)/*}cw*/close(in);
        }
        at++;
    }
    return bad;
}
