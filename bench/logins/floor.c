/* The floor under the monitor's rate of logins: a server that makes the monitor's system calls for a
 * login and decides nothing. Each worker accepts its connections; for each it starts the child before the
 * login and then the user's child by the same launcher, answers whatever is asked as permitted, moves the
 * same bytes and writes the same log lines. It knows no setup but what its words say: user `u7` has the
 * number 1007.
 *
 *     floor SOCKET LAUNCHER VAULT WORKERS CONNECTIONS [wait]
 *
 * With `wait` it waits for a child's end by one call; without, it looks for it after naps that grow, as
 * the monitor does. */
#define _GNU_SOURCE
#include <errno.h>
#include <fcntl.h>
#include <pthread.h>
#include <spawn.h>
#include <stdatomic.h>
#include <stdint.h>
#include <stdio.h>
#include <stdlib.h>
#include <string.h>
#include <sys/socket.h>
#include <sys/stat.h>
#include <sys/time.h>
#include <sys/un.h>
#include <sys/wait.h>
#include <time.h>
#include <unistd.h>

enum { BANNER = 1, CHALLENGE, REPLY, ABANDON, EXPORT, IMPORT, READ, WRITE, OPEN, CLOSE, INFO, NOTE, FINISH };
enum { MOST = 16384, PIECE = 4096, CLIENT_SECONDS = 120, CHILD_SECONDS = 30 };
enum { FIRST_NAP = 50000, LONGEST_NAP = 1000000 }; /* nanoseconds */

extern char **environ;

static const char *launcher, *vault;
static int listener, connections, waits;
static atomic_uint events, sessions;

struct session {
	unsigned worker, number, uid;
	int conn, link;
	pid_t child;
	char user[40], file[80];
	unsigned char state[8192], held[2 * MOST], answer[MOST];
	size_t state_len, held_len;
};

static void fail(const char *what)
{
	perror(what);
	exit(1);
}

static void write_all(int to, const void *bytes, size_t len)
{
	for (size_t at = 0; at < len;) {
		ssize_t n = write(to, (const char *)bytes + at, len - at);
		if (n <= 0)
			fail("log");
		at += n;
	}
}

/* Whether the peer took all bytes. */
static int send_all(int to, const void *bytes, size_t len)
{
	for (size_t at = 0; at < len;) {
		ssize_t n = send(to, (const char *)bytes + at, len - at, MSG_NOSIGNAL);
		if (n < 0 && errno == EINTR)
			continue;
		if (n <= 0)
			return 0;
		at += n;
	}
	return 1;
}

static void tell(struct session *s, const char *what)
{
	char line[256];
	int len = snprintf(line, sizeof line, "%u w%u s%u %s\n", atomic_fetch_add(&events, 1) + 1, s->worker, s->number, what);
	write_all(2, line, len);
}

static void limit(int socket, int seconds)
{
	struct timeval time = { seconds, 0 };
	if (setsockopt(socket, SOL_SOCKET, SO_RCVTIMEO, &time, sizeof time) ||
	    setsockopt(socket, SOL_SOCKET, SO_SNDTIMEO, &time, sizeof time))
		fail("setsockopt");
}

static void start(struct session *s, char *const *words)
{
	int pair[2];
	if (socketpair(AF_UNIX, SOCK_STREAM | SOCK_CLOEXEC, 0, pair))
		fail("socketpair");
	limit(pair[0], CHILD_SECONDS);
	int input = fcntl(pair[1], F_DUPFD_CLOEXEC, 3);
	int quiet = open("/dev/null", O_WRONLY | O_NOCTTY | O_CLOEXEC);
	struct stat found;
	if (stat(launcher, &found))
		fail(launcher);
	posix_spawn_file_actions_t actions;
	posix_spawnattr_t attributes;
	sigset_t restored;
	sigemptyset(&restored);
	sigaddset(&restored, SIGPIPE);
	posix_spawn_file_actions_init(&actions);
	posix_spawn_file_actions_adddup2(&actions, input, 0);
	posix_spawn_file_actions_adddup2(&actions, pair[1], 1);
	posix_spawn_file_actions_adddup2(&actions, quiet, 2);
	posix_spawn_file_actions_addclosefrom_np(&actions, 3);
	posix_spawnattr_init(&attributes);
	posix_spawnattr_setsigdefault(&attributes, &restored);
	posix_spawnattr_setflags(&attributes, POSIX_SPAWN_SETSIGDEF);
	int error = posix_spawn(&s->child, launcher, &actions, &attributes, words, environ);
	posix_spawn_file_actions_destroy(&actions);
	posix_spawnattr_destroy(&attributes);
	if (error)
		fail("posix_spawn");
	close(quiet);
	close(input);
	close(pair[1]);
	s->link = pair[0];
	s->held_len = 0;
}

static void close_socket(int socket)
{
	char piece[PIECE];
	shutdown(socket, SHUT_RD);
	while (recv(socket, piece, sizeof piece, 0) > 0)
		;
	close(socket);
}

static void finish(struct session *s)
{
	struct timespec nap = { 0, FIRST_NAP };
	close_socket(s->link);
	while (waitpid(s->child, NULL, waits ? 0 : WNOHANG) == 0) {
		nanosleep(&nap, NULL);
		nap.tv_nsec = nap.tv_nsec * 2 < LONGEST_NAP ? nap.tv_nsec * 2 : LONGEST_NAP;
	}
}

static void start_pre(struct session *s)
{
	char number[16];
	snprintf(number, sizeof number, "%u", s->number);
	start(s, (char *[]){ "otplogd", "child-pre", number, NULL });
}

static void start_user(struct session *s)
{
	char number[16], uid[16];
	snprintf(number, sizeof number, "%u", s->number);
	snprintf(uid, sizeof uid, "%u", s->uid);
	start(s, (char *[]){ "otplogd", "child-user", number, uid, s->user, NULL });
}

/* Reads a user's file as the monitor does: what it is, and that no link is followed. */
static ssize_t read_file(struct session *s, uint64_t offset, unsigned char *to, size_t most)
{
	struct stat seen, opened;
	char folder[300], path[400];
	size_t got = 0;
	snprintf(folder, sizeof folder, "%s/%u", vault, s->uid);
	snprintf(path, sizeof path, "%s/%s", folder, s->file);
	if (stat(vault, &seen) || lstat(folder, &seen) || lstat(path, &seen))
		return 0;
	int file = open(path, O_RDONLY | O_CLOEXEC);
	if (file < 0 || fstat(file, &opened) || lseek(file, offset, SEEK_SET) < 0)
		return -1;
	while (got < most) {
		ssize_t n = read(file, to + got, most - got);
		if (n <= 0)
			break;
		got += n;
	}
	close(file);
	return got;
}

static uint32_t u32(const unsigned char *at)
{
	return at[0] | at[1] << 8 | at[2] << 16 | (uint32_t)at[3] << 24;
}

static void put32(unsigned char *at, uint32_t value)
{
	for (int i = 0; i < 4; i++)
		at[i] = value >> 8 * i;
}

/* Does what a request asks, and gives the length of the body after the answer's first byte. */
static size_t serve(struct session *s, unsigned kind, const unsigned char *body, size_t len, unsigned char *to)
{
	char line[160];
	ssize_t n = 0;
	struct timespec now;
	switch (kind) {
	case BANNER:
		tell(s, "banner permit");
		memcpy(to, "OTP login", n = 9);
		break;
	case CHALLENGE:
		clock_gettime(CLOCK_MONOTONIC, &now);
		snprintf(s->user, sizeof s->user, "%.*s", (int)len, (const char *)body);
		s->uid = 1000 + atoi(s->user + 1);
		snprintf(line, sizeof line, "challenge %s %ld permit 998", s->user, now.tv_sec % 100000);
		tell(s, line);
		n = sprintf((char *)to, "otp-md5 998 s%u\n", s->uid);
		break;
	case REPLY:
		tell(s, "reply permit 0123456789abcdef");
		break;
	case EXPORT:
		snprintf(line, sizeof line, "export %zu permit 0", len);
		tell(s, line);
		memcpy(s->state, body, s->state_len = len);
		break;
	case IMPORT:
		tell(s, "import permit");
		put32(to, s->uid);
		to[4] = strlen(s->user);
		memcpy(to + 5, s->user, to[4]);
		memcpy(to + 5 + to[4], s->state, s->state_len);
		n = 5 + to[4] + s->state_len;
		break;
	case READ:
		snprintf(line, sizeof line, "read %u %u %u permit", u32(body), u32(body + 4), body[12] | body[13] << 8);
		tell(s, line);
		if (u32(body) == 0)
			n = recv(s->conn, to, body[12] | body[13] << 8, 0);
		else
			n = read_file(s, u32(body + 4), to, body[12] | body[13] << 8);
		break;
	case WRITE:
		snprintf(line, sizeof line, "write %u %u %zu permit", u32(body), u32(body + 4), len - 12);
		tell(s, line);
		send_all(s->conn, body + 12, len - 12);
		break;
	case OPEN:
		snprintf(s->file, sizeof s->file, "%.*s", (int)len - 1, (const char *)body + 1);
		tell(s, "grant 1 6e6f746573 permit 1");
		put32(to, 1);
		n = 4;
		break;
	case CLOSE:
		tell(s, "close 1 permit");
		break;
	default:
		tell(s, kind == FINISH ? "finish permit" : "note permit");
	}
	return n < 0 ? 0 : n;
}

/* One session: both children, until the second finishes. */
static void session(struct session *s)
{
	tell(s, "open permit");
	start_pre(s);
	for (;;) {
		size_t len = s->held_len < 16 ? 0 : s->held[4] | s->held[5] << 8;
		if (len == 0 || s->held_len < len) {
			ssize_t n = recv(s->link, s->held + s->held_len, PIECE, 0);
			if (n <= 0) {
				tell(s, "end link-fault permit");
				break;
			}
			s->held_len += n;
			continue;
		}
		unsigned kind = u32(s->held);
		size_t done = serve(s, kind, s->held + 16, len - 16, s->answer + 17);
		if (kind == EXPORT) {
			finish(s);
			start_user(s);
			continue;
		}
		put32(s->answer, kind + 256);
		s->answer[4] = (17 + done) & 255;
		s->answer[5] = (17 + done) >> 8;
		s->answer[6] = s->answer[7] = 0;
		put32(s->answer + 8, u32(s->held + 8));
		put32(s->answer + 12, s->number);
		s->answer[16] = 0;
		memmove(s->held, s->held + len, s->held_len -= len);
		if (!send_all(s->link, s->answer, 17 + done) || kind == FINISH) {
			tell(s, "end finished permit");
			break;
		}
	}
	finish(s);
	close_socket(s->conn);
}

static void *work(void *number)
{
	struct session *s = malloc(sizeof *s);
	for (int i = 0; i < connections; i++) {
		struct sockaddr_un from;
		socklen_t len = sizeof from;
		s->worker = (uintptr_t)number;
		s->conn = accept4(listener, (struct sockaddr *)&from, &len, SOCK_CLOEXEC);
		if (s->conn < 0)
			fail("accept4");
		limit(s->conn, CLIENT_SECONDS);
		s->number = atomic_fetch_add(&sessions, 1) + 1;
		session(s);
	}
	free(s);
	return NULL;
}

int main(int argc, char **argv)
{
	struct sockaddr_un at = { .sun_family = AF_UNIX };
	pthread_t threads[64];
	if (argc < 6)
		return 2;
	launcher = argv[2];
	vault = argv[3];
	int workers = atoi(argv[4]);
	connections = atoi(argv[5]);
	waits = argc > 6;
	signal(SIGPIPE, SIG_IGN);
	snprintf(at.sun_path, sizeof at.sun_path, "%s", argv[1]);
	unlink(at.sun_path);
	listener = socket(AF_UNIX, SOCK_STREAM | SOCK_CLOEXEC, 0);
	if (workers > 64 || bind(listener, (struct sockaddr *)&at, sizeof at) || listen(listener, 128))
		fail("listen");
	for (uintptr_t i = 0; i < (uintptr_t)workers; i++)
		pthread_create(&threads[i], NULL, work, (void *)i);
	for (int i = 0; i < workers; i++)
		pthread_join(threads[i], NULL);
	return 0;
}
