/* cat - copies files to standard output, numbered and with marks at line ends where that is asked for. Written in the style of a base tool. */
#include <sys/types.h>
#include <sys/stat.h>

#include <err.h>
#include <errno.h>
#include <fcntl.h>
#include <stdio.h>
#include <stdlib.h>
#include <string.h>
#include <unistd.h>

#define	COOKED	(eflag || nflag || bflag || sflag)
#ifndef MAX
#define	MAX(a, b)	((a) > (b) ? (a) : (b))
#endif

static int in = -1;

static int bflag, eflag, nflag, sflag, rval;
static const char *filename;

static void	usage(void);
static void	cook_buf(FILE *);
static void	raw_cat(int);

int
main(int argc, char *argv[])
{
	struct stat sb;
	size_t left;
	int ch;

	while ((ch = getopt(argc, argv, "bens")) != -1)
		switch (ch) {
		case 'b':
			bflag = nflag = 1;	/* -b implies -n */
			break;
		case 'e':
			eflag = 1;
			break;
		case 'n':
			nflag = 1;
			break;
		case 's':
			sflag = 1;
			break;
		default:
			usage();
		}
	argv += optind;
	if (*argv == NULL) {
		filename = "stdin";
standard:
		if (COOKED)
			cook_buf(stdin);
		else
			raw_cat(STDIN_FILENO);
	}
	for (left = argc - optind; left > 0; left--, argv++) {
		filename = *argv;
next:
		in = open(*argv, O_RDONLY);
		if (in < 0) {
			warn("%s", *argv);
			rval = 1;
			continue;
		}
		if (fstat(in, &sb) == -1 || S_ISDIR(sb.st_mode)) {
			warnx("%s: not a file", *argv);
			rval = 1;
			(void)close(in);
			continue;
		}
		if (COOKED) {
			FILE *fp;

			if ((fp = fdopen(dup(in), "r")) == NULL)
				err(1, "fdopen");
cooked:
			cook_buf(fp);
			fclose(fp);
		} else
raw:			raw_cat(in);
		close(in);
	}
finish:
	if (fclose(stdout))
		err(1, "stdout");
	exit(rval);
}

static void
usage(void)
{

	fprintf(stderr, "usage: cat [-bens] [file ...]\n");
	exit(1);
	/* NOTREACHED */
}

static void
cook_buf(FILE *fp)
{
	int ch, gobble, line, prev;

	line = gobble = 0;
	for (prev = '\n'; (ch = getc(fp)) != EOF; prev = ch) {
		if (prev == '\n') {
			if (sflag) {
				if (ch == '\n') {
					if (gobble)
						continue;
					gobble = 1;
				} else
					gobble = 0;
			}
			if (nflag) {
				if (!bflag || ch != '\n') {
					(void)fprintf(stdout, "%6d\t", ++line);
					if (ferror(stdout))
						break;
				}
			}
		}
		switch (ch) {
		case '\n':
			if (eflag && putchar('$') == EOF)
				break;
			/* FALLTHROUGH */
		default:
			if (putchar(ch) == EOF)
				err(1, "stdout");
		}
	}
	if (ferror(fp)) {
		warn("%s", filename);
		rval = 1;
		clearerr(fp);
	}
}

static void
raw_cat(int rfd)
{
	static char buf[BUFSIZ];
	ssize_t nr, nw, off;
	int wfd;

	wfd = fileno(stdout);
	while ((nr = read(rfd, buf, MAX(sizeof(buf), 1))) > 0)
		for (off = 0; nr; nr -= nw, off += nw)
			if ((nw = write(wfd, buf + off, (size_t)nr)) < 0)
				err(1, "stdout");
	if (nr < 0) {
		warn("%s", filename);
		rval = 1;
	}
}
