/*
 * serve - answers requests: each line of standard input is one, and its answer goes into the file reply.N. Whoever asks is a stranger, so the answer is
 * made where nothing can be opened any more; and the next request needn't wait for it, so it is made in a process that nobody waits for.
 */
#include <ctype.h>
#include <fcntl.h>
#include <stdio.h>
#include <unistd.h>

static int reply = -1;
static char line[256];
static char name[32];

/* the length of the next request; 0 at the end */
static int more(void)
{
    int c, kept;

    kept = 0;
    c = getchar();
    while (c >= 0 && c != '\n' && kept < 255) {
        line[kept] = c;
        kept++;
        c = getchar();
    }
    return kept;
}

static void answer(int length)
{
    int i;

served:
    for (i = 0; i < length; i++)
        line[i] = toupper(line[i]);
    line[length] = '\n';
    if (write(reply, line, length + 1) < 0)
        return;
}

int main(void)
{
    int length, count = 0;

    length = more();
    while (length > 0) {
        snprintf(name, sizeof name, "reply.%d", count);
asked:
        reply = open(name, O_WRONLY | O_CREAT | O_TRUNC, 0644);
        if (reply < 0)
            return 1;
        answer(length);
        close(reply);
        count++;
        length = more();
    }
    return 0;
}
