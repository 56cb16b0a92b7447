/* uniq - equal lines that stand together, once. Written in the style of a base tool. */
#include <sys/types.h>

#include <ctype.h>
#include <err.h>
#include <fcntl.h>
#include <stdio.h>
#include <stdlib.h>
#include <string.h>
#include <unistd.h>

static int in = -1;
static int out = -1;

static int cflag, dflag, uflag, iflag;
static int numchars, repeats;

static FILE	*file(int, const char *);
static void	show(FILE *, const char *);
static char	*skip(char *);
static void	usage(void) __attribute__((noreturn));

int
main(int argc, char *argv[])
{
	FILE *ifp = stdin, *ofp = stdout;
	char *prevline, *thisline, *t1, *t2;
	size_t prevbuflen, thisbuflen;
	ssize_t len;
	int ch, comp;

	while ((ch = getopt(argc, argv, "cdiu+:s:")) != -1)
		switch (ch) {
		case 'c':
			cflag = 1;
			break;
		case 'd':
			dflag = 1;
			break;
		case 'i':
			iflag = 1;
			break;
		case 's':
		case '+':
			numchars = (int)strtol(optarg, NULL, 10);
			if (numchars < 0)
				errx(1, "illegal field skip value: %s", optarg);
			break;
		case 'u':
			uflag = 1;
			break;
		case '?':
		default:
			usage();
		}
	argc -= optind;
	argv += optind;
	if (argc > 2)
		usage();
names:
	if (argc > 0 && strcmp(argv[0], "-") != 0) {
		in = open(argv[0], O_RDONLY);
		ifp = file(in, "r");
	}
	if (argc > 1) {
		out = open(argv[1], O_WRONLY | O_CREAT | O_TRUNC, 0666);
		ofp = file(out, "w");
	}
	prevbuflen = thisbuflen = 0;
	prevline = thisline = NULL;
lines:
	if (getline(&prevline, &prevbuflen, ifp) < 0) {
		if (ferror(ifp))
			err(1, "input");
		exit(0);
	}
	while ((len = getline(&thisline, &thisbuflen, ifp)) >= 0) {
		t1 = skip(prevline);
		t2 = skip(thisline);
		comp = iflag ? strcasecmp(t1, t2) : strcmp(t1, t2);
		if (comp) {
			show(ofp, prevline);
			t1 = prevline;
			prevline = thisline;
			thisline = t1;
			repeats = 0;
		} else
			++repeats;
	}
	show(ofp, prevline);
	if (fflush(ofp) != 0)
		err(1, "output");
	exit(0);
}

static void
show(FILE *ofp, const char *str)
{
	if ((dflag && repeats == 0) || (uflag && repeats > 0))
		return;
	if (cflag)
		(void)fprintf(ofp, "%4d %s", repeats + 1, str);
	else
		(void)fprintf(ofp, "%s", str);
}

static char *
skip(char *str)
{
	int n;

	for (n = numchars; n > 0 && *str != '\0'; n--)
		str++;
	return (str);
}

static FILE *
file(int fd, const char *mode)
{
	FILE *fp;

	if (fd < 0 || (fp = fdopen(dup(fd), mode)) == NULL)
		err(1, "open");
	return (fp);
}

static void
usage(void)
{
	(void)fprintf(stderr, "usage: uniq [-cdiu] [-s chars] [input [output]]\n");
	exit(1);
}
