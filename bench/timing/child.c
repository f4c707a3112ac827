/* A child that measures how long the monitor takes to answer.
 *
 * It is started as `child-pre SESSION`, and takes the file plan/SESSION: a byte that says what is measured, and then
 * a byte for each name that it asks for, in this order. The names are the lines of the file names. For each it sends a
 * CHALLENGE, and then an ABANDON ('c') or a wrong REPLY ('r'), and measures the answer to the CHALLENGE or to the
 * REPLY. It looks for an answer without sleeping. The file plan/SESSION.ns has the nanoseconds, four bytes each. */
#include <errno.h>
#include <fcntl.h>
#include <stdint.h>
#include <stdio.h>
#include <string.h>
#include <sys/socket.h>
#include <time.h>
#include <unistd.h>

enum { CHALLENGE = 2, REPLY = 3, ABANDON = 4, FINISH = 13, HEADER = 16 };

static const char wrong[] = "0000 0000 0000 0000";

static uint64_t now(void)
{
	struct timespec at;
	clock_gettime(CLOCK_MONOTONIC, &at);
	return at.tv_sec * 1000000000ull + at.tv_nsec;
}

static int take(unsigned char *to, size_t len)
{
	for (size_t got = 0; got < len;) {
		ssize_t n = recv(0, to + got, len - got, MSG_DONTWAIT);
		if (n > 0)
			got += n;
		else if (n == 0 || (errno != EAGAIN && errno != EINTR))
			return 0;
	}
	return 1;
}

/* The nanoseconds from a request to its answer; 0 where there is none. */
static uint32_t asked(uint32_t kind, const char *body, uint16_t len)
{
	unsigned char frame[512] = { kind }, answer[16384];
	uint16_t all = HEADER + len;
	memcpy(frame + 4, &all, 2);
	memcpy(frame + HEADER, body, len);
	uint64_t start = now();
	if (send(1, frame, all, MSG_NOSIGNAL) != all || !take(answer, HEADER))
		return 0;
	uint64_t end = now();
	memcpy(&all, answer + 4, 2);
	if (!take(answer + HEADER, all - HEADER))
		return 0;
	return end - start;
}

int main(int argc, char **argv)
{
	static char names[64][40];
	static unsigned char plan[8192];
	static uint32_t took[8192];
	char path[64];
	if (argc < 3 || strcmp(argv[1], "child-pre"))
		return 2;
	FILE *list = fopen("names", "r");
	for (int i = 0; list && i < 64 && fscanf(list, "%39s", names[i]) == 1; i++)
		;
	snprintf(path, sizeof path, "plan/%.20s", argv[2]);
	int file = open(path, O_RDONLY);
	ssize_t len = file < 0 ? -1 : read(file, plan, sizeof plan);
	if (!list || len < 1)
		return 3;
	for (ssize_t i = 1; i < len; i++) {
		const char *name = names[plan[i] & 63];
		took[i] = asked(CHALLENGE, name, strlen(name));
		uint32_t next = plan[0] == 'r' ? asked(REPLY, wrong, strlen(wrong)) : asked(ABANDON, "", 0);
		if (plan[0] == 'r')
			took[i] = next;
		if (!took[i] || !next)
			return 4;
	}
	asked(FINISH, "", 0);
	strcat(path, ".ns");
	int kept = open(path, O_WRONLY | O_CREAT | O_TRUNC, 0600);
	ssize_t size = (len - 1) * sizeof took[0];
	return kept < 0 || write(kept, took + 1, size) != size ? 5 : 0;
}
