/* cmp - compares two files. Written in the style of a base tool. */
#include <sys/types.h>
#include <sys/stat.h>

#include <err.h>
#include <fcntl.h>
#include <stdbool.h>
#include <stdio.h>
#include <stdlib.h>
#include <string.h>
#include <unistd.h>

#define	OK_EXIT		0
#define	DIFF_EXIT	1
#define	ERR_EXIT	2

static int fd1 = -1;
static int fd2 = -1;

bool lflag, sflag, zflag;
static unsigned char one[8192], two[8192];

static void	usage(void);
static int	c_regular(const char *, const char *);
static void	diffmsg(const char *, const char *, off_t, off_t, int, int);

/* reads until the block is full or the file ends */
static ssize_t
fill(int fd, unsigned char *block, size_t size)
{
	size_t have = 0;
	ssize_t n;

	do {
		n = read(fd, block + have, size - have);
		if (n < 0)
			return (-1);
		have += n;
	} while (n > 0 && have < size);
	return (have);
}

int
main(int argc, char *argv[])
{
	struct stat sb1, sb2;
	int ch, result;
	const char *file1, *file2;

	while ((ch = getopt(argc, argv, "lsz")) != -1)
		switch (ch) {
		case 'l':		/* print all differences */
			lflag = true;
			break;
		case 's':		/* silent run */
			sflag = true;
			zflag = true;
			break;
		case 'z':		/* compare size first */
			zflag = true;
			break;
		case '?':
		default:
			usage();
		}
	argv += optind;
	argc -= optind;
	if (lflag && sflag)
		errx(ERR_EXIT, "specifying -s with -l is not permitted");
	if (argc != 2)
		usage();
	file1 = argv[0];
	file2 = argv[1];
begin:
	fd1 = open(file1, O_RDONLY, 0);
	if (fd1 < 0)
		err(ERR_EXIT, "%s", file1);
	fd2 = open(file2, O_RDONLY, 0);
	if (fd2 < 0)
		err(ERR_EXIT, "%s", file2);
	if (fstat(fd1, &sb1) != 0 || fstat(fd2, &sb2) != 0)
		err(ERR_EXIT, "fstat");
	if (zflag && S_ISREG(sb1.st_mode) && S_ISREG(sb2.st_mode) && sb1.st_size != sb2.st_size) {
		if (!sflag)
			printf("%s %s differ: size\n", file1, file2);
		return (DIFF_EXIT);
	}
	result = c_regular(file1, file2);
	close(fd1);
	close(fd2);
	exit(result);
}

static int
c_regular(const char *file1, const char *file2)
{
	off_t byte = 1, line = 1;
	bool dfound = false;
	ssize_t n1, n2;

compare:
	for (;;) {
		n1 = fill(fd1, one, sizeof one);
		n2 = fill(fd2, two, sizeof two);
		if (n1 < 0 || n2 < 0)
			err(ERR_EXIT, "read");
		for (ssize_t i = 0; i < n1 && i < n2; i++, byte++) {
			if (one[i] != two[i]) {
				dfound = true;
				if (lflag)
					(void)printf("%6lld %3o %3o\n", (long long)byte, one[i], two[i]);
				else {
					diffmsg(file1, file2, byte, line, one[i], two[i]);
					return (DIFF_EXIT);
				}
			}
			if (one[i] == '\n')
				++line;
		}
		if (n1 != n2) {
			if (!sflag)
				warnx("EOF on %s", n1 < n2 ? file1 : file2);
			return (DIFF_EXIT);
		}
		if (n1 == 0)
			break;
	}
	return (dfound ? DIFF_EXIT : OK_EXIT);
}

static void
diffmsg(const char *file1, const char *file2, off_t byte, off_t line, int b1, int b2)
{
	if (!sflag)
		(void)printf("%s %s differ: char %lld, line %lld (%o %o)\n", file1, file2, (long long)byte, (long long)line, b1, b2);
}

static void
usage(void)
{
	(void)fprintf(stderr, "usage: cmp [-l | -s | -z] file1 file2\n");
	exit(ERR_EXIT);
}
