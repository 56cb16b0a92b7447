/* wc - counts lines, words and bytes. Written in the style of a base tool. */
#include <sys/param.h>
#include <sys/stat.h>

#include <ctype.h>
#include <err.h>
#include <errno.h>
#include <fcntl.h>
#include <stddef.h>
#include <stdint.h>
#include <stdio.h>
#include <stdlib.h>
#include <string.h>
#include <unistd.h>

struct counts {
	uintmax_t	lines;
	uintmax_t	words;
	uintmax_t	bytes;
	uintmax_t	longest;
};

#ifndef MAXBSIZE
#define	MAXBSIZE	65536
#endif
#ifndef nitems
#define	nitems(x)	(sizeof (x) / sizeof (x)[0])
#endif

enum what { LINES = 1, WORDS = 2, BYTES = 4, LONGEST = 8 };

static int fd = -1;

static struct counts total;
static enum what what;
static u_char buf[MAXBSIZE];

static void	show_cnt(const char *file, const struct counts *c);
static int	cnt(const char *file, struct counts *c);
static void	usage(void) __attribute__((__noreturn__));

int
main(int argc, char *argv[])
{
	struct counts one;
	int ch, errors, more, r;

	while ((ch = getopt(argc, argv, "clwL")) != -1) {
		switch (ch) {
		case 'l':
			what |= LINES;
			continue;
		case 'w':
			what |= WORDS;
			continue;
		case 'c':
			what |= BYTES;
			continue;
		case 'L':
			what |= LONGEST;
			break;
		case '?':
		default:
			usage();
		}
		if (what == 0)
			errx(1, "nothing");
	}
	argv += optind;
	argc -= optind;
	if (what == 0)
		what = LINES | WORDS | BYTES;

	errors = 0;
	more = argc > 1;
	do {
		memset(&one, 0, sizeof one);
openfile:
		if (*argv == NULL)
			fd = dup(STDIN_FILENO);
		else
			fd = open(*argv, O_RDONLY);
		if (fd < 0) {
			warn("%s", *argv);
			++errors;
		} else {
			r = cnt(*argv, &one);
			if (r != 0)
				++errors;
			close(fd);
		}
	} while (*argv != NULL && *++argv != NULL);

	if (more)
		show_cnt("total", &total);
	exit(errors == 0 ? 0 : 1);
}

static void
show_cnt(const char *file, const struct counts *c)
{
	static const struct { enum what bit; size_t at; } table[] = {
		{ LINES, offsetof(struct counts, lines) },
		{ WORDS, offsetof(struct counts, words) },
		{ BYTES, offsetof(struct counts, bytes) },
		{ LONGEST, offsetof(struct counts, longest) },
	};

	for (size_t i = 0; i < nitems(table); i++)
		if (what & table[i].bit)
			printf(" %7ju", *(const uintmax_t *)((const char *)c + table[i].at));
	if (file != NULL)
		printf(" %s", file);
	putchar('\n');
}

static int
cnt(const char *file, struct counts *c)
{
	ssize_t len;
	u_char *p;
	int gotsp;
	uintmax_t tmpll;

	gotsp = 1;
	tmpll = 0;
count:
	while ((len = read(fd, buf, sizeof buf)) != 0) {
		if (len < 0) {
			warn("%s: read", file);
			return (1);
		}
		c->bytes += len;
		for (p = buf; len--; ++p) {
			switch (*p) {
			case '\n':
				if (tmpll > c->longest)
					c->longest = tmpll;
				tmpll = 0;
				++c->lines;
				/* FALLTHROUGH */
			case ' ':
			case '\t':
			case '\r':
				gotsp = 1;
				if (*p != '\n')
					tmpll++;
				continue;
			default:
				tmpll++;
				break;
			}
			if (isspace(*p))
				gotsp = 1;
			else if (gotsp) {
				gotsp = 0;
				++c->words;
			}
		}
	}
	total.lines += c->lines;
	total.words += c->words;
	total.bytes += c->bytes;
	total.longest = MAX(total.longest, c->longest);
	show_cnt(file, c);
	return (0);
}

static void
usage(void)
{
	(void)fprintf(stderr, "usage: wc [-Lclw] [file ...]\n");
	exit(1);
}
