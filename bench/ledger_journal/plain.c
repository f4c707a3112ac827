/* Appends each line of a text to a log, by the calls and with the bytes of the durable log: after the closed gate the
 * length, the line and the next closed gate; fdatasync; the gate; fdatasync. The words: the text's file, and the log's,
 * which has the image of no records. Prints how many lines were appended and the nanoseconds that they took. */
#define _GNU_SOURCE
#include <fcntl.h>
#include <stdint.h>
#include <stdio.h>
#include <stdlib.h>
#include <string.h>
#include <sys/file.h>
#include <sys/stat.h>
#include <time.h>
#include <unistd.h>

enum { MOST = 256 };

static int append(int file, off_t gate, const char *line, size_t size)
{
    char behind[2 + MOST + 1];
    if (size > MOST)
        return -1;
    behind[0] = (char)(size & 255);
    behind[1] = (char)(size >> 8);
    memcpy(behind + 2, line, size);
    behind[2 + size] = 0;
    if (pwrite(file, behind, size + 3, gate + 1) != (ssize_t)(size + 3) || fdatasync(file) != 0)
        return -1;
    return pwrite(file, "\1", 1, gate) == 1 ? fdatasync(file) : -1;
}

static int64_t now(void)
{
    struct timespec time;
    clock_gettime(CLOCK_MONOTONIC, &time);
    return time.tv_sec * INT64_C(1000000000) + time.tv_nsec;
}

int main(int count, char **words)
{
    struct stat found;
    if (count != 3)
        return 2;
    int text = open(words[1], O_RDONLY), file = open(words[2], O_WRONLY | O_CLOEXEC);
    if (text < 0 || file < 0 || fstat(text, &found) != 0 || flock(file, LOCK_EX | LOCK_NB) != 0)
        return 3;
    char *lines = malloc((size_t)found.st_size + 1);
    if (lines == NULL || read(text, lines, (size_t)found.st_size) != found.st_size)
        return 3;
    const char *end = lines + found.st_size;
    off_t gate = 4;
    long appended = 0;
    int64_t start = now();
    for (const char *line = lines; line < end; appended++) {
        const char *newline = memchr(line, '\n', (size_t)(end - line));
        size_t size = (size_t)((newline ? newline + 1 : end) - line);
        if (append(file, gate, line, size) != 0)
            return 4;
        line += size;
        gate += 3 + (off_t)size;
    }
    printf("%ld %lld\n", appended, (long long)(now() - start));
    return 0;
}
