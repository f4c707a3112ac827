/* The same work as main.rt.txt, with OpenBSD's imsg_get. A piece is copied to where imsg_read receives. */
#include <sys/types.h>
#include <sys/queue.h>
#include <sys/uio.h>
#include <stdint.h>
#include <stdio.h>
#include <stdlib.h>
#include <string.h>
#include <time.h>
#include "imsg.h"

#define ROUND_LEN 196608

static struct imsgbuf buf;
static unsigned char stream[ROUND_LEN];

int
main(int argc, char *argv[])
{
	if (argc != 5)
		return 2;
	size_t frame_len = strtoul(argv[2], NULL, 10), piece_len = strtoul(argv[3], NULL, 10);
	unsigned long rounds = strtoul(argv[4], NULL, 10), frames = 0, sum = 0;
	for (size_t at = 0; at < ROUND_LEN; at += frame_len) {
		struct imsg_hdr hdr = { 8, frame_len, 0, 9, 10 };
		memcpy(stream + at, &hdr, sizeof(hdr));
		memset(stream + at + sizeof(hdr), 7, frame_len - sizeof(hdr));
	}
	imsg_init(&buf, -1);
	struct timespec start, end;
	clock_gettime(CLOCK_MONOTONIC, &start);
	for (unsigned long round = 0; round < rounds; round++) {
		for (size_t at = 0; at < ROUND_LEN;) {
			size_t left = ROUND_LEN - at, room = sizeof(buf.r.buf) - buf.r.wpos;
			size_t taken = piece_len < left ? piece_len : left;
			if (room < taken)
				taken = room;
			memcpy(buf.r.buf + buf.r.wpos, stream + at, taken);
			buf.r.wpos += taken;
			at += taken;
			struct imsg imsg;
			while (imsg_get(&buf, &imsg) > 0) {
				size_t len = imsg.hdr.len - IMSG_HEADER_SIZE;
				frames++;
				sum += imsg.hdr.type + (len > 0 ? ((unsigned char *)imsg.data)[len - 1] : 0);
				imsg_free(&imsg);
			}
		}
	}
	clock_gettime(CLOCK_MONOTONIC, &end);
	printf("%lu %lld %lu\n", frames, (end.tv_sec - start.tv_sec) * 1000000000LL + (end.tv_nsec - start.tv_nsec), sum);
	return 0;
}
