/* cksum - a CRC and the size of files. Written in the style of a base tool: a static table, macros, struct stat. */
#include <sys/types.h>
#include <sys/stat.h>

#include <err.h>
#include <fcntl.h>
#include <stdint.h>
#include <stdio.h>
#include <stdlib.h>
#include <string.h>
#include <unistd.h>

#define	POLY		0x04c11db7u
#define	CRC(crc, ch)	((crc) = ((crc) << 8) ^ crctab[((crc) >> 24) ^ (ch)])

struct sum {
	uint32_t	value;
	uint64_t	size;
};

static int in = -1;

static uint32_t crctab[256];
static const char *progname = "cksum";

static void
table(void)
{
	for (uint32_t i = 0; i < 256; i++) {
		uint32_t c = i << 24;
		int k = 8;

		while (k-- > 0)
			c = c & 0x80000000u ? (c << 1) ^ POLY : c << 1;
		crctab[i] = c;
	}
}

static int
crc(int fd, struct sum *sum)
{
	unsigned char buf[16 * 1024], *p;
	uint32_t thecrc;
	uint64_t len;
	ssize_t nr;

	thecrc = 0;
	len = 0;
sums:
	while ((nr = read(fd, buf, sizeof buf)) > 0)
		for (len += nr, p = buf; nr--; ++p)
			CRC(thecrc, *p);
	if (nr < 0)
		return (1);
	sum->size = len;
	for (; len != 0; len >>= 8)
		CRC(thecrc, len & 0xff);
	sum->value = ~thecrc;
	return (0);
}

static void
pr(const char *name, const struct sum *sum)
{
	printf("%lu %llu%s%s\n", (unsigned long)sum->value, (unsigned long long)sum->size, name ? " " : "", name ? name : "");
}

int
main(int argc, char **argv)
{
	struct sum sum = { 0, 0 };
	struct stat st;
	int ch, quiet = 0, rval = 0, bad;

	while ((ch = getopt(argc, argv, "o:q")) != -1) {
		switch (ch) {
		case 'o':
			switch (*optarg) {
			case '1': case '2':
				errx(1, "historic algorithm %s isn't here", optarg);
			case '3':
				break;
			default:
				warnx("illegal argument to -o option");
				fprintf(stderr, "usage: %s [-q] [-o 3] [file ...]\n", progname);
				return (1);
			}
			break;
		case 'q':
			quiet = 1;
			break;
		default:
			fprintf(stderr, "usage: %s [-q] [-o 3] [file ...]\n", progname);
			return (1);
		}
	}
	argv += optind;
	table();
	if (*argv == NULL) {
		bad = crc(STDIN_FILENO, &sum);
		if (bad)
			err(1, "stdin");
		pr(NULL, &sum);
		return (0);
	}
	do {
next:
		in = open(*argv, O_RDONLY);
		if (in == -1) {
			warn("%s", *argv);
			rval = 1;
			continue;
		}
		if (fstat(in, &st) < 0 || S_ISDIR(st.st_mode)) {
			if (!quiet)
				warnx("%s: is a directory", *argv);
			rval = 1;
			close(in);
			continue;
		}
		memset(&sum, 0, sizeof(sum));
		bad = crc(in, &sum);
		if (bad) {
			warn("%s", *argv);
			rval = 1;
		} else
			pr(*argv, &sum);
		close(in);
	} while (*++argv);
	return (rval);
}
