/* logsort - sorts log lines into files by their kind; what looks at strangers' bytes runs in a process of its own. In the style of a base tool. */
#include <sys/types.h>

#include <ctype.h>
#include <err.h>
#include <fcntl.h>
#include <stdbool.h>
#include <stdio.h>
#include <stdlib.h>
#include <string.h>
#include <unistd.h>

enum kind { K_ERROR, K_NOTICE, K_OTHER, K_BAD, K_COUNT };

static int errors = -1;
static int others = -1;

static const char *const kinds[K_COUNT] = { "errors", "notices", "others", "bad" };
static struct totals { unsigned long lines[K_COUNT]; } totals;

/* the kind of a line by its first bytes */
static int
classify(int first, int second, size_t length)
{
	enum kind kind;

judge:
	switch (first) {
	case '<':
		switch (second) {
		case '0': case '1': case '2': case '3':
			kind = K_ERROR;
			break;
		case '4': case '5':
			kind = K_NOTICE;
			break;
		default:
			kind = K_OTHER;
		}
		break;
	case 'E':
	case 'F':
		if (second == ' ' || length < 2) {
			kind = K_ERROR;
			break;
		}
		/* FALLTHROUGH */
	default:
		kind = isprint(first) ? K_OTHER : K_BAD;
	}
	return (kind);
}

static void
put(int fd, const char *line, size_t length)
{
	ssize_t n;

	while (length > 0) {
		n = write(fd, line, length);
		if (n <= 0)
			err(1, "write");
		line += n;
		length -= n;
	}
}

int
main(int argc, char *argv[])
{
	char *line = NULL;
	size_t size = 0, length;
	ssize_t n;
	int ch, kind;
	bool quiet = false;

	while ((ch = getopt(argc, argv, "q")) != -1)
		switch (ch) {
		case 'q': quiet = true; break;
		default:
			fprintf(stderr, "usage: logsort [-q]\n");
			return (1);
		}
prepare:
	errors = open("errors.log", O_WRONLY | O_CREAT | O_TRUNC, 0644);
	if (errors < 0)
		err(1, "errors.log");
	others = open("others.log", O_WRONLY | O_CREAT | O_TRUNC, 0644);
	if (others < 0)
		err(1, "others.log");
	while ((n = getline(&line, &size, stdin)) > 0) {
		length = (size_t)n;
		ch = (unsigned char)line[0];
		n = (unsigned char)line[1];
		kind = classify(ch, (int)n, length);
		totals.lines[kind]++;
		switch (kind) {
		case K_ERROR:
			put(errors, line, length);
			continue;
		case K_BAD:
			if (quiet)
				break;
			warnx("a line that is none");
			/* FALLTHROUGH */
		default:
			put(others, line, length);
			break;
		}
	}
report:
	close(errors);
	close(others);
	for (int k = 0; k < K_COUNT; k++)
		printf("%lu %s\n", totals.lines[k], kinds[k]);
	return (0);
}
