/* Clients side by side, each of which logs in so many times, one after another.
 *
 *     client SOCKET LOGINS < USERS
 *
 * Each line of USERS is a user's name and passwords in the order in which they are used. A login waits for
 * the banner, the challenge, the welcome, a file and the farewell, and sends each line once the answer to
 * the one before is there. Prints how many seconds all logins took. */
#define _GNU_SOURCE
#include <pthread.h>
#include <signal.h>
#include <stdio.h>
#include <stdlib.h>
#include <string.h>
#include <sys/socket.h>
#include <sys/un.h>
#include <time.h>
#include <unistd.h>

enum { CLIENTS = 64 };

static struct sockaddr_un at = { .sun_family = AF_UNIX };
static int logins;
static pthread_barrier_t gate;
static char *users[CLIENTS];

static void fail(const char *what, const char *got)
{
	fprintf(stderr, "client: %s: %s\n", what, got);
	exit(1);
}

/* Takes what comes until it has so many lines, which begin with a word. */
static void expect(int conn, const char *word, int lines)
{
	char got[8192];
	size_t len = 0;
	int seen = 0;
	while (seen < lines) {
		ssize_t n = recv(conn, got + len, sizeof got - 1 - len, 0);
		if (n <= 0) {
			got[len] = 0;
			fail(word, got);
		}
		for (ssize_t i = 0; i < n; i++)
			seen += got[len + i] == '\n';
		len += n;
	}
	got[len] = 0;
	if (strncmp(got, word, strlen(word)))
		fail(word, got);
}

static void say(int conn, const char *word, const char *text)
{
	char line[400];
	int len = snprintf(line, sizeof line, "%s%s\n", word, text);
	if (send(conn, line, len, MSG_NOSIGNAL) != len)
		fail("send", line);
}

static void *run(void *line)
{
	char *rest, *name = strtok_r(line, " \n", &rest), welcome[64], end;
	snprintf(welcome, sizeof welcome, "welcome %s\n", name);
	pthread_barrier_wait(&gate);
	for (int i = 0; i < logins; i++) {
		int conn = socket(AF_UNIX, SOCK_STREAM | SOCK_CLOEXEC, 0);
		if (connect(conn, (struct sockaddr *)&at, sizeof at))
			fail("connect", name);
		expect(conn, "OTP login\n", 1);
		say(conn, "user ", name);
		expect(conn, "otp-", 1);
		say(conn, "resp ", strtok_r(NULL, " \n", &rest));
		expect(conn, welcome, 1);
		say(conn, "get ", "notes");
		expect(conn, "size 12\n", 2);
		say(conn, "quit", "");
		expect(conn, "bye\n", 1);
		if (recv(conn, &end, 1, 0) != 0)
			fail("end", name);
		close(conn);
	}
	return NULL;
}

int main(int argc, char **argv)
{
	pthread_t threads[CLIENTS];
	struct timespec start, end;
	size_t room = 0;
	int count = 0;
	if (argc < 3)
		return 2;
	snprintf(at.sun_path, sizeof at.sun_path, "%s", argv[1]);
	logins = atoi(argv[2]);
	while (count < CLIENTS && getline(&users[count], &room, stdin) > 0) {
		count++;
		room = 0;
	}
	alarm(300);
	pthread_barrier_init(&gate, NULL, count + 1);
	for (int i = 0; i < count; i++)
		pthread_create(&threads[i], NULL, run, users[i]);
	pthread_barrier_wait(&gate);
	clock_gettime(CLOCK_MONOTONIC, &start);
	for (int i = 0; i < count; i++)
		pthread_join(threads[i], NULL);
	clock_gettime(CLOCK_MONOTONIC, &end);
	printf("%.6f\n", (end.tv_sec - start.tv_sec) + (end.tv_nsec - start.tv_nsec) / 1e9);
	return 0;
}
