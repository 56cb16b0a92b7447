/* dump - bytes of a file in octal, hexadecimal or as characters, after od. Written in the style of a base tool. */
#include <ctype.h>
#include <err.h>
#include <fcntl.h>
#include <inttypes.h>
#include <stdio.h>
#include <stdlib.h>
#include <string.h>
#include <unistd.h>

#define	WIDTH		16
#define	ADDRESS(n)	printf("%07jo", (uintmax_t)(n))

enum format { OCTAL, HEX, CHARS };

union unit {
	unsigned char	bytes[2];
	uint16_t	word;
};

static int fd = -1;

static enum format format = OCTAL;
static off_t skipped, address;
static struct { const char *name; char c; } const names[] = {
	{ "\\0", '\0' }, { "\\a", '\a' }, { "\\b", '\b' }, { "\\t", '\t' },
	{ "\\n", '\n' }, { "\\v", '\v' }, { "\\f", '\f' }, { "\\r", '\r' },
};

static void
one(int c)
{
	size_t i;

	switch (format) {
	case OCTAL:
		printf(" %03o", c);
		break;
	case HEX:
		printf("  %02x", c);
		break;
	case CHARS:
		for (i = 0; i < sizeof names / sizeof names[0]; i++)
			if (names[i].c == c)
				break;
		if (i < sizeof names / sizeof names[0])
			printf("  %s", names[i].name);
		else if (isprint(c))
			printf("   %c", c);
		else
			printf(" %03o", c);
		break;
	}
}

static void
block(const unsigned char *bytes, size_t count)
{
	union unit u;

	ADDRESS(address);
	for (size_t i = 0; i < count; i++) {
		u.word = 0;
		u.bytes[0] = bytes[i];
		one(u.bytes[0]);
	}
	putchar('\n');
	address += count;
}

static void
usage(void)
{
	fprintf(stderr, "usage: dump [-cox] [-j skip] [file]\n");
	exit(1);
}

int
main(int argc, char *argv[])
{
	unsigned char bytes[WIDTH];
	size_t have = 0;
	int ch;

	while ((ch = getopt(argc, argv, "coxj:")) != -1)
		switch (ch) {
		case 'c': format = CHARS; break;
		case 'o': format = OCTAL; break;
		case 'x': format = HEX; break;
		case 'j': {
			char *end;
			skipped = (off_t)strtol(optarg, &end, 0);
			if (*end != '\0' || skipped < 0)
				errx(1, "%s: bad offset", optarg);
			break;
		}
		default: usage();
		}
	if (argc - optind > 1)
		usage();
open_it: if (optind < argc) fd = open(argv[optind], O_RDONLY); else fd = dup(0);
	if (fd < 0) err(1, "%s", argv[optind]);
	if (skipped > 0 && lseek(fd, skipped, SEEK_SET) < 0) {
		off_t left; unsigned char byte;
		for (left = skipped; left > 0 && read(fd, &byte, 1) == 1; left--) ;
	}
	address = skipped;
bytes:	for (;;) {
		ssize_t n = read(fd, bytes + have, sizeof bytes - have);
		if (n < 0) err(1, "read");
		if (n == 0) break;
		have += n;
		if (have == WIDTH) { block(bytes, have); have = 0; }
	}
	if (have > 0) block(bytes, have);
	ADDRESS(address); putchar('\n');
	close(fd); return 0;
}
