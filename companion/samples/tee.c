/* tee - standard input to standard output and a file. Written in the style of a base tool. */
#include <sys/types.h>
#include <sys/stat.h>

#include <err.h>
#include <errno.h>
#include <fcntl.h>
#include <signal.h>
#include <stdio.h>
#include <stdlib.h>
#include <unistd.h>

#define	BSIZE (8 * 1024)

struct entry {
	int fd;
	const char *name;
	struct entry *next;
};

static int file = -1;

static struct entry *list;

static void
add(int fd, const char *name)
{
	struct entry *p;

	if ((p = malloc(sizeof(struct entry))) == NULL)
		err(1, "malloc");
	p->fd = fd;
	p->name = name;
	p->next = list;
	list = p;
}

static void
usage(void)
{
	(void)fprintf(stderr, "usage: tee [-ai] [file]\n");
	exit(1);
}

int
main(int argc, char *argv[])
{
	char *bp, *buf;
	struct entry *p;
	int append, ch, exitval;
	ssize_t n, rval, wval;

	append = 0;
	while ((ch = getopt(argc, argv, "ai")) != -1)
		switch ((char)ch) {
		case 'a':
			append = 1;
			break;
		case 'i':
			(void)signal(SIGINT, SIG_IGN);
			break;
		case '?':
		default:
			usage();
		}
	argv += optind;
	argc -= optind;
	if ((buf = malloc(BSIZE)) == NULL)
		err(1, "malloc");
	exitval = 0;
	if (argc > 0) {
create:
		file = open(*argv, append ? O_WRONLY | O_CREAT | O_APPEND : O_WRONLY | O_CREAT | O_TRUNC, 0666);
		if (file < 0) {
			warn("%s", *argv);
			exitval = 1;
		} else
			add(file, *argv);
	}
	add(STDOUT_FILENO, "stdout");
copy:
	while ((rval = read(STDIN_FILENO, buf, BSIZE)) > 0)
		for (p = list; p != NULL; p = p->next) {
			n = rval;
			bp = buf;
			do {
				if ((wval = write(p->fd, bp, n)) == -1) {
					warn("%s", p->name);
					exitval = 1;
					break;
				}
				bp += wval;
			} while (n -= wval);
		}
	if (rval < 0)
		err(1, "read");
	exit(exitval);
}
