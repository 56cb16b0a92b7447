/*cw{*/
#include "capweave.h"
#define CW_LIMITS(X) X(0,reply,0x2)
CW_TABLE(2,12,1)
CW_MEM(0,0,0x1c7)
CW_MEM(1,0,0-11)
CW_MEM(2,6,0x1c7)
CW_MEM(3,6,0-11)
CW_MEM(4,7,0-11)
CW_MEM(5,8,0-11)
CW_MEM(6,9,0-11)
CW_MEM(7,10,0-11)
CW_LIVE(0,0)
CW_LIVE(0,2)
CW_LIVE(2,0)
CW_LIVE(2,2)
CW_LIVE(4,0)
CW_LIVE(4,2)
CW_LIVE(5,0)
CW_LIVE(5,2)
CW_LIVE(6,0)
CW_LIVE(6,2)
CW_LIVE(7,0)
CW_LIVE(7,2)
CW_LIVE(8,0)
CW_LIVE(8,2)
CW_LIVE(9,0)
CW_LIVE(9,2)
CW_LIVE(10,0)
CW_LIVE(10,2)
CW_LIVE(11,0)
CW_LIVE(11,2)
CW_LIVE(12,0)
CW_LIVE(12,2)
CW_LIVE(13,0)
CW_LIVE(13,2)
CW_LIVE(14,3)
CW_LIVE(14,5)
CW_LIVE(16,3)
CW_LIVE(16,5)
CW_LIVE(18,3)
CW_LIVE(18,5)
CW_LIVE(19,3)
CW_LIVE(19,5)
CW_LIVE(20,3)
CW_LIVE(20,5)
CW_LIVE(21,5)
CW_LIVE(22,3)
CW_LIVE(22,4)
CW_LIVE(23,3)
CW_LIVE(23,4)
CW_LIVE(24,6)
CW_LIVE(24,7)
CW_LIVE(25,6)
CW_LIVE(25,7)
CW_LIVE(26,6)
CW_LIVE(26,7)
CW_LIVE(27,6)
CW_LIVE(27,7)
CW_LIVE(28,6)
CW_LIVE(28,7)
CW_LIVE(29,6)
CW_LIVE(29,7)
CW_LIVE(30,6)
CW_LIVE(30,7)
CW_LIVE(31,6)
CW_LIVE(31,7)
CW_LIVE(32,6)
CW_LIVE(32,7)
CW_LIVE(33,1)
CW_LIVE(35,1)
CW_LIVE(37,1)
CW_LIVE(38,1)
CW_LIVE(39,1)
CW_LIVE(41,1)
CW_LIVE(43,1)
CW_LIVE(44,1)
CW_LIVE(44,3)
CW_LIVE(45,1)
CW_LIVE(45,3)
CW_LIVE(46,1)
CW_LIVE(46,3)
CW_LIVE(48,1)
CW_LIVE(48,3)
CW_LIVE(50,1)
CW_LIVE(50,3)
CW_LIVE(51,3)
CW_LIVE(52,3)
CW_LIVE(52,5)
CW_LIVE(53,3)
CW_LIVE(53,5)
CW_LIVE(54,3)
CW_LIVE(54,5)
CW_LIVE(55,3)
CW_LIVE(55,5)
CW_LIVE(57,3)
CW_LIVE(57,5)
CW_LIVE(59,3)
CW_LIVE(59,5)
CW_LIVE(60,6)
CW_LIVE(60,7)
CW_LIVE(61,6)
CW_LIVE(61,7)
CW_LIVE(62,6)
CW_LIVE(62,7)
CW_LIVE(63,3)
CW_LIVE(63,5)
CW_LIVE(64,3)
CW_LIVE(65,3)
CW_LIVE(67,3)
CW_LIVE(69,3)
CW_LIVE(70,1)
CW_LIVE(70,3)
CW_LIVE(71,1)
CW_LIVE(71,3)
CW_LIVE(71,5)
CW_TRY(2,0,5,4,CW_NONE)
CW_TRY(2,1,3,6,CW_NONE)
CW_TRY(2,1,4,7,CW_NONE)
CW_AT(2,6,6)
CW_AT(2,7,7)
CW_AT(5,1,3)
CW_AT(5,3,3)
CW_OPENED(6,3,5,3)
CW_CLOSED(8,3,3)
CW_CLOSED(8,5,3)
CW_INTO(4,0,1,0)
CW_INTO(7,0,3,3)
CW_INTO(7,0,5,5)
CW_INTO(9,0,3,2)
CW_BACK(4,0,1,0,1)
CW_BACK(4,0,1,6,3)
CW_BACK(7,0,3,9,6)
CW_BACK(7,0,3,10,7)
CW_BACK(7,0,5,9,6)
CW_BACK(7,0,5,10,7)
CW_BACK(9,0,3,0,1)
CW_BACK(9,0,3,6,3)
CW_DONE
/*}cw*//*
 * serve - answers requests: each line of standard input is one, and its answer goes into the file reply.N. Whoever asks is a stranger, so the answer is
 * made where nothing can be opened any more; and the next request needn't wait for it, so it is made in a process that nobody waits for.
 */
#include <ctype.h>
#include <fcntl.h>
#include <stdio.h>
#include <unistd.h>

static int reply = -1;
static char line[256];
static char name[32];

/* the length of the next request; 0 at the end */
static int more(void)
{/*cw{*/CW_ENTRY(0);/*}cw*/
    int c, kept;

    kept = 0;
    c = getchar();
    while (c >= 0 && c != '\n' && kept < 255) {
        line[kept] = c;
        kept++;
        c = getchar();
    }
    return kept;
}

static void answer(int length)
{/*cw{*/CW_ENTRY(1);/*}cw*/
    int i;

served:/*cw{*/CW_LABEL(2)/*}cw*/
    for (i = 0; i < length; i++)
        line[i] = toupper(line[i]);
    line[length] = '\n';
    if (write(reply, line, length + 1) < 0)
        return;
}

int main(void)
{/*cw{*/CW_ENTRY(3);/*}cw*/
    int length, count = 0;

    /*cw{*/CW_CALLV(4,length)/*}cw*/length = more();
    while (length > 0) {
        snprintf(name, sizeof name, "reply.%d", count);
asked:/*cw{*/CW_LABEL(5)/*}cw*/
        /*cw{*/CW_OPEN(6,reply)/*}cw*/reply = open(name, O_WRONLY | O_CREAT | O_TRUNC, 0644);
        if (reply < 0)
            return 1;
        {if(!fork()){/*cw{*/CW_CALL(7)/*}cw*/answer(length);_exit(0);for(;;);}}
        /*cw{*/CW_CLOSE(8)/*}cw*/close(reply);
        count++;
        /*cw{*/CW_CALLV(9,length)/*}cw*/length = more();
    }
    return 0;
}
