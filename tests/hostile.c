/* A child that was taken over: it stands for the program in tests/launcher, tries one thing that no
 * child may do, and tells the client how that went.
 *
 * The file `try` of the folder it starts in names the thing, and a number that it may need. It sends the
 * client `done`, or `refused` where the system refused it; where the system ends it, nothing. */
#define _GNU_SOURCE
#include <errno.h>
#include <fcntl.h>
#include <sched.h>
#include <signal.h>
#include <stdint.h>
#include <stdio.h>
#include <stdlib.h>
#include <string.h>
#include <sys/mman.h>
#include <sys/prctl.h>
#include <sys/ptrace.h>
#include <sys/resource.h>
#include <sys/socket.h>
#include <sys/un.h>
#include <sys/wait.h>
#include <time.h>
#include <unistd.h>

extern char **environ;

/* Sends a frame of this kind: kind, length, flags, peer and process. */
static void frame(uint32_t kind, const void *body, uint16_t len)
{
	unsigned char bytes[256] = { 0 };
	uint16_t all = 16 + len;
	memcpy(bytes, &kind, 4);
	memcpy(bytes + 4, &all, 2);
	memcpy(bytes + 16, body, len);
	if (write(1, bytes, all) != all)
		_exit(1);
}

/* Has the monitor write a text to the client, and ends the session. */
static void say(const char *text)
{
	unsigned char body[64] = { 0 }; /* handle 0 and offset 0, and the text */
	memcpy(body + 12, text, strlen(text));
	frame(8, body, 12 + strlen(text));
	frame(13, "", 0);
}

static int can_read(const char *path)
{
	char byte;
	int file = open(path, O_RDONLY | O_NOCTTY);
	return file >= 0 && read(file, &byte, 1) == 1;
}

static int can_write(const char *path, int flags)
{
	int file = open(path, O_WRONLY | flags, 0600);
	return file >= 0 && write(file, "x", 1) == 1;
}

static int can_read_of(long number, const char *what)
{
	char path[64];
	snprintf(path, sizeof path, "/proc/%ld/%s", number, what);
	return can_read(path);
}

static int can_connect(void)
{
	struct sockaddr_un at = { .sun_family = AF_UNIX, .sun_path = "socket" };
	int one = socket(AF_UNIX, SOCK_STREAM, 0);
	return one >= 0 && connect(one, (struct sockaddr *)&at, sizeof at) == 0;
}

static int can_fork(void)
{
	pid_t child = fork();
	if (child == 0)
		_exit(0);
	return child > 0 && waitpid(child, NULL, 0) == child;
}

static int can_trace(long number)
{
	if (ptrace(PTRACE_SEIZE, (pid_t)number, NULL, NULL) != 0)
		return 0;
	return 1;
}

static int can_open_many(void)
{
	for (int i = 0; i < 64; i++)
		if (open("/dev/null", O_RDONLY) < 0)
			return 0;
	return 1;
}

static int can_raise(int kind)
{
	struct rlimit limit;
	if (getrlimit(kind, &limit) != 0 || limit.rlim_max == RLIM_INFINITY)
		return 1;
	limit.rlim_max++;
	return setrlimit(kind, &limit) == 0;
}

static int has_others(void)
{
	for (int number = 3; number < 1024; number++)
		if (lseek(number, 0, SEEK_CUR) >= 0 || errno != EBADF)
			return 1;
	return 0;
}

static int try(const char *what, long number)
{
	if (!strcmp(what, "nothing"))
		return 1;
	if (!strcmp(what, "stay")) {
		frame(13, "", 0);
		sleep(30);
		return 1;
	}
	if (!strcmp(what, "network"))
		return socket(AF_INET, SOCK_STREAM, 0) >= 0;
	if (!strcmp(what, "connect"))
		return can_connect();
	if (!strcmp(what, "fork"))
		return can_fork();
	if (!strcmp(what, "write"))
		return can_write("seen/new", O_CREAT);
	if (!strcmp(what, "append"))
		return can_write("seen/old", O_APPEND);
	if (!strcmp(what, "vault"))
		return can_read("vault/1001/notes") || can_read("setup.toml");
	if (!strcmp(what, "trace"))
		return can_trace(number);
	if (!strcmp(what, "signal"))
		return kill((pid_t)number, SIGTERM) == 0;
	if (!strcmp(what, "proc"))
		return can_read_of(number, "environ") || can_read_of(number, "maps");
	if (!strcmp(what, "terminal"))
		return open("/dev/tty", O_RDONLY) >= 0;
	if (!strcmp(what, "namespace"))
		return unshare(CLONE_NEWUSER) == 0;
	if (!strcmp(what, "memory"))
		return mmap(NULL, (size_t)1 << 30, PROT_READ, MAP_PRIVATE | MAP_ANONYMOUS, -1, 0) != MAP_FAILED;
	if (!strcmp(what, "files"))
		return can_open_many();
	if (!strcmp(what, "time"))
		return can_raise(RLIMIT_CPU);
	if (!strcmp(what, "core"))
		return can_raise(RLIMIT_CORE);
	if (!strcmp(what, "root"))
		return setuid(0) == 0 || setgid(0) == 0;
	if (!strcmp(what, "environment"))
		return *environ != NULL;
	if (!strcmp(what, "descriptors"))
		return has_others();
	_exit(3);
}

int main(void)
{
	char text[64] = { 0 };
	int file = open("try", O_RDONLY);
	if (file < 0 || read(file, text, sizeof text - 1) <= 0)
		return 3;
	close(file);
	signal(SIGXFSZ, SIG_IGN);
	char *number = strchr(text, ' ');
	if (number != NULL)
		*number++ = 0;
	say(try(text, number ? atol(number) : 0) ? "done" : "refused");
	while (read(0, text, sizeof text) > 0)
		;
	return 0;
}
