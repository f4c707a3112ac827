/* A library that is loaded in front of the C library's heap and refuses one growth of a program.
 *
 * It counts the calls of malloc, calloc and realloc that the program itself makes; those of the C library,
 * as where it starts a thread, are left alone. A program that is built with a heap of its own for checks never
 * comes to these: there the two functions by which its code takes memory, rattle_alloc and rattle_realloc, are
 * overwritten by a jump to those below. Once so many lines with ` end ` were written to standard error
 * as REFUSE_ENDS says (0: from the start), the call with the number REFUSE_AT is refused (0: none). Into the
 * file REFUSE_MARKS it writes a line for each of these, with the count so far: `accept`, where that is called
 * for the first time, and `refused`, with the calls that lead there. It takes itself out of the environment,
 * so that the program's children run without it. */
#define _GNU_SOURCE
#include <dlfcn.h>
#include <elf.h>
#include <errno.h>
#include <fcntl.h>
#include <link.h>
#include <stdatomic.h>
#include <stdint.h>
#include <stdio.h>
#include <stdlib.h>
#include <string.h>
#include <sys/mman.h>
#include <sys/socket.h>
#include <sys/stat.h>
#include <unistd.h>

extern void *__libc_malloc(size_t), *__libc_calloc(size_t, size_t), *__libc_realloc(void *, size_t);

static uintptr_t from, to, base;
static atomic_long count;
static atomic_int ends_left, has_accepted;
static long refused_at;
static char marks[256];
static __thread int is_marking;
static void *(*own_malloc)(size_t), *(*own_realloc)(void *, size_t);

/* Adds the program's calls that lead here, as far as each keeps the place of its caller's frame. */
static int add_calls(char *line, size_t room)
{
	uintptr_t *frame = __builtin_frame_address(0), *first = frame;
	int len = 0;
	for (int i = 0; i < 64 && len + 20 < (int)room; i++) {
		uintptr_t *next = (uintptr_t *)frame[0];
		if (frame[1] >= from && frame[1] < to)
			len += snprintf(line + len, room - len, " %lx", (unsigned long)(frame[1] - base));
		if (next <= frame || next > first + (1 << 17) || (uintptr_t)next % 8)
			break;
		frame = next;
	}
	return len;
}

static void mark(const char *what, int with_calls)
{
	char line[2048];
	int len = snprintf(line, sizeof line, "%s %ld", what, (long)count);
	is_marking = 1;
	if (with_calls)
		len += add_calls(line + len, sizeof line - len - 1);
	line[len++] = '\n';
	int file = open(marks, O_WRONLY | O_APPEND | O_CREAT | O_CLOEXEC, 0600);
	if (file >= 0 && ((ssize_t (*)(int, const void *, size_t))dlsym(RTLD_NEXT, "write"))(file, line, len) == len)
		close(file);
	is_marking = 0;
}

/* Whether this growth of the program is to be refused. */
static int is_turn(void)
{
	if (ends_left > 0 || atomic_fetch_add(&count, 1) + 1 != refused_at)
		return 0;
	mark("refused", 1);
	errno = ENOMEM;
	return 1;
}

static int is_refused(void *caller)
{
	return !is_marking && (uintptr_t)caller >= from && (uintptr_t)caller < to && !own_malloc && is_turn();
}

void *malloc(size_t size)
{
	return is_refused(__builtin_return_address(0)) ? NULL : __libc_malloc(size);
}

void *calloc(size_t many, size_t size)
{
	return is_refused(__builtin_return_address(0)) ? NULL : __libc_calloc(many, size);
}

void *realloc(void *old, size_t size)
{
	return is_refused(__builtin_return_address(0)) ? NULL : __libc_realloc(old, size);
}

int accept4(int socket, struct sockaddr *at, socklen_t *len, int flags)
{
	if (!atomic_exchange(&has_accepted, 1))
		mark("accept", 0);
	return ((int (*)(int, struct sockaddr *, socklen_t *, int))dlsym(RTLD_NEXT, "accept4"))(socket, at, len, flags);
}

int accept(int socket, struct sockaddr *at, socklen_t *len)
{
	return accept4(socket, at, len, 0);
}

ssize_t write(int to_file, const void *bytes, size_t len)
{
	ssize_t n = ((ssize_t (*)(int, const void *, size_t))dlsym(RTLD_NEXT, "write"))(to_file, bytes, len);
	if (to_file == 2 && memmem(bytes, len, " end ", 5))
		ends_left--;
	return n;
}

/* What takes memory for the program's code: whether there is a block, and where. */
struct block {
	long is_there;
	void *at;
};

static struct block found(void *at)
{
	static char nothing[16];
	return at ? (struct block){ 1, at } : (struct block){ 0, nothing };
}

static struct block alloc(size_t size, size_t align)
{
	return found(is_turn() ? NULL : own_malloc(size ? size : align));
}

static struct block resize(void *old, size_t old_size, size_t size, size_t align)
{
	(void)old_size;
	return found(is_turn() ? NULL : own_realloc(old, size ? size : align));
}

/* Overwrites the beginning of a function of the program by a jump. */
static void lead(uintptr_t function, void *to_function)
{
	unsigned char jump[12] = { 0x48, 0xb8, [10] = 0xff, 0xe0 }; /* mov to_function, %rax; jmp *%rax */
	uintptr_t page = function & ~(uintptr_t)4095;
	memcpy(jump + 2, &to_function, 8);
	if (mprotect((void *)page, 8192, PROT_READ | PROT_WRITE | PROT_EXEC) == 0)
		memcpy((void *)function, jump, sizeof jump);
}

/* Looks for the program's two functions in its file. */
static void lead_all(void)
{
	struct stat about;
	int file = open("/proc/self/exe", O_RDONLY | O_CLOEXEC);
	if (file < 0 || fstat(file, &about))
		return;
	const char *image = mmap(NULL, about.st_size, PROT_READ, MAP_PRIVATE, file, 0);
	close(file);
	const Elf64_Ehdr *head = (const void *)image;
	const Elf64_Shdr *parts = (const void *)(image + head->e_shoff);
	for (int i = 0; i < head->e_shnum; i++) {
		if (parts[i].sh_type != SHT_SYMTAB)
			continue;
		const Elf64_Sym *symbols = (const void *)(image + parts[i].sh_offset);
		const char *names = image + parts[parts[i].sh_link].sh_offset;
		for (size_t k = 0; k < parts[i].sh_size / sizeof *symbols; k++) {
			if (!strcmp(names + symbols[k].st_name, "rattle_alloc"))
				lead(base + symbols[k].st_value, alloc);
			if (!strcmp(names + symbols[k].st_name, "rattle_realloc"))
				lead(base + symbols[k].st_value, resize);
		}
	}
	munmap((void *)image, about.st_size);
}

/* The first object is the program. */
static int find(struct dl_phdr_info *object, size_t size, void *data)
{
	(void)size, (void)data;
	base = object->dlpi_addr;
	for (int i = 0; i < object->dlpi_phnum; i++)
		if (object->dlpi_phdr[i].p_type == PT_LOAD) {
			uintptr_t start = base + object->dlpi_phdr[i].p_vaddr, end = start + object->dlpi_phdr[i].p_memsz;
			from = from && from < start ? from : start;
			to = to > end ? to : end;
		}
	return 1;
}

__attribute__((constructor)) static void begin(void)
{
	const char *at = getenv("REFUSE_AT"), *ends = getenv("REFUSE_ENDS"), *path = getenv("REFUSE_MARKS");
	snprintf(marks, sizeof marks, "%s", path ? path : "marks");
	refused_at = at ? atol(at) : 0;
	ends_left = ends ? atoi(ends) : 0;
	unsetenv("LD_PRELOAD");
	unsetenv("REFUSE_AT");
	unsetenv("REFUSE_ENDS");
	unsetenv("REFUSE_MARKS");
	dl_iterate_phdr(find, NULL);
	void *heap = dlsym(RTLD_DEFAULT, "malloc");
	if ((uintptr_t)heap >= from && (uintptr_t)heap < to) {
		own_realloc = (void *(*)(void *, size_t))dlsym(RTLD_DEFAULT, "realloc");
		own_malloc = (void *(*)(size_t))heap;
		lead_all();
	}
}
