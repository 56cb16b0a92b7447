/* head - the first lines or bytes of files. Written in the style of a base tool. */
#include <err.h>
#include <errno.h>
#include <fcntl.h>
#include <inttypes.h>
#include <stdio.h>
#include <stdlib.h>
#include <string.h>
#include <unistd.h>

static int in = -1;

static void head(FILE *, intmax_t);
static void head_bytes(FILE *, off_t);
static void obsolete(char *[]);
static void usage(void);

static const char *const units[] = { "", "k", "m", NULL };

int
main(int argc, char *argv[])
{
	FILE *fp;
	off_t bytecnt;
	intmax_t linecnt;
	int ch, first, eval;
	char *ep;

	linecnt = -1;
	eval = 0;
	bytecnt = -1;
	obsolete(argv);
	while ((ch = getopt(argc, argv, "n:c:")) != -1) {
		switch (ch) {
		case 'c':
			bytecnt = strtoimax(optarg, &ep, 10);
			for (int u = 0; *ep && units[u] != NULL; u++)
				if (strcmp(units[u], ep) == 0) {
					while (u-- > 0)
						bytecnt *= 1024;
					ep = "";
					break;
				}
			if (*ep || bytecnt <= 0)
				errx(1, "illegal byte count -- %s", optarg);
			break;
		case 'n':
			linecnt = strtoimax(optarg, &ep, 10);
			if (*ep || linecnt <= 0)
				errx(1, "illegal line count -- %s", optarg);
			break;
		case '?':
		default:
			usage();
		}
	}
	argc -= optind;
	argv += optind;

	if (linecnt != -1 && bytecnt != -1)
		errx(1, "can't combine line and byte counts");
	if (linecnt == -1)
		linecnt = 10;
	if (*argv == NULL) {
only:
		if (bytecnt == -1)
			head(stdin, linecnt);
		else
			head_bytes(stdin, bytecnt);
		exit(eval);
	}
	for (first = 1; *argv != NULL; ++argv) {
file:
		in = open(*argv, O_RDONLY);
		if (in < 0 || (fp = fdopen(dup(in), "r")) == NULL) {
			warn("%s", *argv);
			eval = 1;
			continue;
		}
		if (argc > 1) {
			(void)printf("%s==> %s <==\n", first ? "" : "\n", *argv);
			first = 0;
		}
		if (bytecnt == -1)
			head(fp, linecnt);
		else
			head_bytes(fp, bytecnt);
		(void)fclose(fp);
		close(in);
	}
	exit(eval);
}

static void
head(FILE *fp, intmax_t cnt)
{
	char *cp = NULL;
	size_t error, readlen = 0;
	ssize_t len;

lines:
	while (cnt != 0 && (len = getline(&cp, &readlen, fp)) > 0) {
		error = fwrite(cp, sizeof(char), (size_t)len, stdout);
		if (error != (size_t)len)
			err(1, "stdout");
		cnt--;
	}
	free(cp);
}

static void
head_bytes(FILE *fp, off_t cnt)
{
	char buf[4096];
	size_t readlen;

bytes:
	while (cnt) {
		if ((uintmax_t)cnt < sizeof(buf))
			readlen = (size_t)cnt;
		else
			readlen = sizeof(buf);
		readlen = fread(buf, sizeof(char), readlen, fp);
		if (readlen == 0)
			break;
		if (fwrite(buf, sizeof(char), readlen, stdout) != readlen)
			err(1, "stdout");
		cnt -= readlen;
	}
}

/* head -5 is head -n 5 */
static void
obsolete(char *argv[])
{
	char *ap;

	while ((ap = *++argv)) {
		/* Return if "--" or not "-[0-9]*". */
		if (ap[0] != '-' || ap[1] == '-' || !(ap[1] >= '0' && ap[1] <= '9'))
			return;
		if ((ap = malloc(strlen(*argv) + 2)) == NULL)
			err(1, NULL);
		ap[0] = '-';
		ap[1] = 'n';
		(void)strcpy(ap + 2, *argv + 1);
		*argv = ap;
	}
}

static void
usage(void)
{
	(void)fprintf(stderr, "usage: head [-n lines | -c bytes] [file ...]\n");
	exit(1);
}
