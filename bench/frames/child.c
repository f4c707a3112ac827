/* A child that sends what stands in a file, and keeps what it is sent.
 *
 * It is started as `child-pre SESSION` or `child-user SESSION UID NAME`, and takes the file
 * child/SESSION.pre or child/SESSION.user: a byte that says how it goes on at the end, two bytes for the
 * length of its pieces, and then what it sends. It reads all the while. At the end it shuts down its sending
 * ('s'), or ends at once ('e'). The same file's name and .sent then has its words in a line, and after that
 * what it was sent. */
#include <fcntl.h>
#include <poll.h>
#include <stdio.h>
#include <stdlib.h>
#include <string.h>
#include <sys/socket.h>
#include <unistd.h>

static unsigned char out[1 << 20], in[1 << 22];

int main(int argc, char **argv)
{
	char name[64], sent[80];
	if (argc < 3)
		return 2;
	snprintf(name, sizeof name, "child/%.20s.%s", argv[2], strcmp(argv[1], "child-pre") ? "user" : "pre");
	snprintf(sent, sizeof sent, "%s.sent", name);
	int file = open(name, O_RDONLY);
	ssize_t len = file < 0 ? -1 : read(file, out, sizeof out);
	if (len < 3)
		return 3;
	char last = out[0];
	ssize_t piece = out[1] | out[2] << 8, at = 3, got = 0;
	fcntl(1, F_SETFL, O_NONBLOCK);
	for (int is_over = 0; !is_over;) {
		if (at == len && last == 'e')
			break;
		if (at == len && last == 's') {
			shutdown(1, SHUT_WR);
			last = 0;
		}
		struct pollfd wait = { 0, POLLIN, 0 };
		if (at < len)
			wait.events |= POLLOUT;
		if (poll(&wait, 1, 30000) <= 0)
			break;
		if (wait.revents & (POLLIN | POLLHUP | POLLERR)) {
			ssize_t n = read(0, in + got, sizeof in - got);
			if (n > 0)
				got += n;
			else
				is_over = 1;
		}
		if (!is_over && wait.revents & POLLOUT && at < len) {
			ssize_t n = send(1, out + at, len - at < piece ? len - at : piece, MSG_NOSIGNAL);
			if (n > 0)
				at += n;
		}
	}
	int kept = open(sent, O_WRONLY | O_CREAT | O_TRUNC, 0600);
	for (int i = 1; kept >= 0 && i < argc; i++)
		dprintf(kept, "%s%c", argv[i], i + 1 < argc ? ' ' : '\n');
	if (kept < 0 || write(kept, in, got) != got)
		return 4;
	return 0;
}
