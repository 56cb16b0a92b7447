/*cw{*/
#include "capweave.h"
#define CW_LIMITS(X) X(0,in,0x1)
CW_TABLE(1,12,0)
CW_MEM(0,0,0xfff)
CW_MEM(1,6,0xfff)
CW_MEM(2,7,0xfff)
CW_MEM(3,8,0xfff)
CW_MEM(4,9,0xfff)
CW_MEM(5,10,0xfff)
CW_LIVE(0,4)
CW_LIVE(0,5)
CW_LIVE(2,4)
CW_LIVE(2,5)
CW_LIVE(4,4)
CW_LIVE(4,5)
CW_LIVE(5,4)
CW_LIVE(5,5)
CW_LIVE(6,4)
CW_LIVE(6,5)
CW_LIVE(7,4)
CW_LIVE(7,5)
CW_LIVE(8,4)
CW_LIVE(8,5)
CW_LIVE(9,4)
CW_LIVE(9,5)
CW_LIVE(10,4)
CW_LIVE(10,5)
CW_LIVE(11,4)
CW_LIVE(11,5)
CW_LIVE(12,4)
CW_LIVE(12,5)
CW_LIVE(13,4)
CW_LIVE(13,5)
CW_LIVE(14,4)
CW_LIVE(14,5)
CW_LIVE(15,4)
CW_LIVE(15,5)
CW_LIVE(16,4)
CW_LIVE(16,5)
CW_LIVE(17,4)
CW_LIVE(17,5)
CW_LIVE(18,0)
CW_LIVE(20,0)
CW_LIVE(22,0)
CW_LIVE(23,0)
CW_LIVE(24,0)
CW_LIVE(25,0)
CW_LIVE(26,0)
CW_LIVE(27,0)
CW_LIVE(29,0)
CW_LIVE(31,0)
CW_LIVE(32,1)
CW_LIVE(33,1)
CW_LIVE(33,3)
CW_LIVE(34,1)
CW_LIVE(34,3)
CW_LIVE(35,1)
CW_LIVE(35,3)
CW_LIVE(36,1)
CW_LIVE(36,3)
CW_LIVE(37,1)
CW_LIVE(37,3)
CW_LIVE(37,4)
CW_LIVE(37,5)
CW_LIVE(38,1)
CW_LIVE(38,3)
CW_LIVE(38,4)
CW_LIVE(38,5)
CW_LIVE(39,3)
CW_LIVE(40,1)
CW_LIVE(40,2)
CW_LIVE(40,4)
CW_LIVE(40,5)
CW_LIVE(41,1)
CW_LIVE(41,2)
CW_LIVE(42,4)
CW_LIVE(42,5)
CW_LIVE(43,4)
CW_LIVE(43,5)
CW_LIVE(45,4)
CW_LIVE(45,5)
CW_LIVE(47,4)
CW_LIVE(47,5)
CW_LIVE(48,4)
CW_LIVE(48,5)
CW_LIVE(49,1)
CW_LIVE(49,3)
CW_LIVE(49,4)
CW_LIVE(49,5)
CW_LIVE(50,1)
CW_LIVE(50,4)
CW_LIVE(51,1)
CW_LIVE(51,4)
CW_LIVE(52,0)
CW_LIVE(52,1)
CW_LIVE(52,3)
CW_LIVE(52,4)
CW_TRY(4,0,3,2,CW_NONE)
CW_TRY(4,1,1,4,CW_NONE)
CW_TRY(4,1,2,5,CW_NONE)
CW_AT(2,0,1)
CW_AT(4,4,4)
CW_AT(4,5,5)
CW_OPENED(3,1,3,1)
CW_CLOSED(6,1,1)
CW_CLOSED(6,3,1)
CW_CLOSED(6,4,4)
CW_CLOSED(6,5,4)
CW_INTO(5,0,4,4)
CW_INTO(5,0,5,5)
CW_BACK(5,0,4,9,4)
CW_BACK(5,0,4,10,5)
CW_BACK(5,0,5,9,4)
CW_BACK(5,0,5,10,5)
CW_DONE
/*}cw*//* lines - counts the lines, words and bytes of a file */
#include <fcntl.h>
#include <stdio.h>
#include <unistd.h>

static int in = -1;
static char buf[4096];
static long lines, words, bytes;
static int inside;

static void tally(long n)
{/*cw{*/CW_ENTRY(0);/*}cw*/
    long i;
    for (i = 0; i < n; i++) {
        bytes++;
        if (buf[i] == '\n')
            lines++;
        if (buf[i] == ' ' || buf[i] == '\t' || buf[i] == '\n') {
            inside = 0;
        } else if (!inside) {
            inside = 1;
            words++;
        }
    }
}

int main(int argc, char **argv)
{/*cw{*/CW_ENTRY(1);/*}cw*/
    long n;

    if (argc != 2) {
        fprintf(stderr, "usage: lines FILE\n");
        return 2;
    }
begin:/*cw{*/CW_LABEL(2)/*}cw*/
    /*cw{*/CW_OPEN(3,in)/*}cw*/in = open(argv[1], O_RDONLY);
    if (in < 0) {
        perror(argv[1]);
        return 1;
    }
    n = read(in, buf, sizeof buf);
    while (n > 0) {
parse:/*cw{*/CW_LABEL(4)/*}cw*/
        /*cw{*/CW_CALL(5)/*}cw*/tally(n);
        n = read(in, buf, sizeof buf);
    }
    /*cw{*/CW_CLOSE(6)/*}cw*/close(in);
    printf("%ld %ld %ld %s\n", lines, words, bytes, argv[1]);
    return 0;
}
