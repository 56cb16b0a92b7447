/* cut - selected bytes or fields of each line. Written in the style of a base tool. */
#include <ctype.h>
#include <err.h>
#include <fcntl.h>
#include <limits.h>
#include <stdio.h>
#include <stdlib.h>
#include <string.h>
#include <unistd.h>

#define	MAXPOS	2048
#define	SET(p)	(positions[(p)] = 1)

static int in = -1;

static int	cflag, fflag, sflag;
static char	dchar = '\t';
static char	positions[MAXPOS + 1];
static size_t	maxval, autostop;

static void	get_list(char *);
static void	usage(void);
static int	c_cut(FILE *, const char *);
static int	f_cut(FILE *, const char *);

int
main(int argc, char *argv[])
{
	FILE *fp;
	int (*unused)(const char *);
	int ch, rval, r;

	unused = puts;
	(void)unused;
	while ((ch = getopt(argc, argv, "c:d:f:s")) != -1)
		switch (ch) {
		case 'c':
			get_list(optarg);
			cflag = 1;
			break;
		case 'd':
			dchar = *optarg;
			break;
		case 'f':
			get_list(optarg);
			fflag = 1;
			break;
		case 's':
			sflag = 1;
			break;
		case '?':
		default:
			usage();
		}
	argc -= optind;
	argv += optind;
	if (fflag ? cflag : (!cflag || sflag))
		usage();

	rval = 0;
	if (*argv == NULL) {
		if (fflag)
			r = f_cut(stdin, "stdin");
		else
			r = c_cut(stdin, "stdin");
		exit(r);
	}
	for (; *argv; ++argv) {
input:
		in = open(*argv, O_RDONLY);
		if (in < 0 || !(fp = fdopen(dup(in), "r"))) {
			warn("%s", *argv);
			rval = 1;
			continue;
		}
		switch (fflag) {
		case 0:
			r = c_cut(fp, *argv);
			break;
		default:
			r = f_cut(fp, *argv);
		}
		if (r)
			rval = r;
		(void)fclose(fp);
		(void)close(in);
	}
	exit(rval);
}

static void
get_list(char *list)
{
	size_t start, stop, pos;
	char *p;

	/* a list of numbers and ranges, by commas or blanks */
	for (; (p = strsep(&list, ", \t")) != NULL;) {
		start = stop = 0;
		if (*p == '-') {
			++p;
			start = 1;
		}
		if (isdigit((unsigned char)*p)) {
			start = start ? start : strtoul(p, &p, 10);
			stop = start;
			if (start == 1 && isdigit((unsigned char)*p))
				stop = strtoul(p, &p, 10);
		}
		if (*p == '-') {
			if (isdigit((unsigned char)p[1]))
				stop = strtoul(p + 1, &p, 10);
			if (*p == '-') {
				++p;
				if (!autostop || autostop > start)
					autostop = start;
			}
		}
		if (*p)
			errx(1, "[-cf] list: illegal list value");
		if (!stop || !start)
			errx(1, "[-cf] list: values may not include zero");
		if (stop > MAXPOS || start > MAXPOS)
			errx(1, "[-cf] list: too large");
		if (maxval < stop)
			maxval = stop;
		for (pos = start; pos <= stop; pos++)
			SET(pos);
	}
	if (autostop)
		for (pos = autostop; pos <= MAXPOS; pos++)
			SET(pos);
	if (autostop)
		maxval = MAXPOS;
}

static int
c_cut(FILE *fp, const char *fname)
{
	int ch;
	size_t col;

columns:
	for (;;) {
		for (col = 1; ; col++) {
			if ((ch = getc(fp)) == EOF)
				return (0);
			if (ch == '\n')
				break;
			if (col <= maxval && positions[col])
				(void)putchar(ch);
		}
		(void)putchar('\n');
	}
	(void)fname;
	return (0);
}

static int
f_cut(FILE *fp, const char *fname)
{
	char *lbuf = NULL, *p;
	size_t size = 0, field;
	ssize_t len;
	int isdelim, output;

	(void)fname;
fields:
	while ((len = getline(&lbuf, &size, fp)) > 0) {
		output = 0;
		if (lbuf[len - 1] == '\n')
			lbuf[--len] = '\0';
		for (isdelim = 0, p = lbuf; *p; p++)
			isdelim |= *p == dchar;
		if (!isdelim) {
			if (!sflag)
				(void)printf("%s\n", lbuf);
			continue;
		}
		for (field = 1, p = lbuf; p != NULL; field++) {
			char *q = strchr(p, dchar);
			int n = q != NULL ? (int)(q - p) : (int)strlen(p);

			if (field <= maxval && positions[field]) {
				if (output++)
					(void)putchar(dchar);
				(void)fwrite(p, 1, n, stdout);
			}
			p = q != NULL ? q + 1 : NULL;
		}
		(void)putchar('\n');
	}
	free(lbuf);
	return (0);
}

static void
usage(void)
{
	(void)fprintf(stderr, "%s\n%s\n", "usage: cut -c list [file ...]", "       cut -f list [-s] [-d delim] [file ...]");
	exit(1);
}
