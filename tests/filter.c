/* Tries the filter of the compiled launcher: runs its lines, as the system does, over each number of a call, and ends
 * with how many it judges otherwise than the list of allowed calls does. Built as the launcher is. */
#define launch start_a_child
#include "../examples/launcher.c"
#undef launch
#define NUMBER(name, w) SYS_##name,

/* What the filter answers to a call with these first arguments. */
static uint32_t judged(uint32_t arch, uint32_t number, uint32_t first, uint32_t second, uint32_t third)
{
	enum { NR = offsetof(struct seccomp_data, nr), KIND = offsetof(struct seccomp_data, arch),
	       ARGS = offsetof(struct seccomp_data, args) };
	const uint32_t arguments[] = { first, second, third };
	uint32_t a = 0, x = 0;
	for (const struct sock_filter *line = filter;; line++)
		switch (line->code) {
		case BPF_LD | BPF_W | BPF_ABS: 
			a = line->k == NR ? number : line->k == KIND ? arch : arguments[(line->k - ARGS) / 8];
			break;
		case BPF_LD | BPF_IMM: a = line->k; break;
		case BPF_ALU | BPF_AND | BPF_K: a &= line->k; break;
		case BPF_ALU | BPF_RSH | BPF_K: a >>= line->k; break;
		case BPF_ALU | BPF_RSH | BPF_X: a >>= x; break;
		case BPF_MISC | BPF_TAX: x = a; break;
		case BPF_JMP | BPF_JEQ | BPF_K: line += a == line->k ? line->jt : line->jf; break;
		case BPF_JMP | BPF_JSET | BPF_K: line += a & line->k ? line->jt : line->jf; break;
		case BPF_RET | BPF_K: return line->k;
		default: return 0;
		}
}

__attribute__((used)) _Noreturn void launch(long *stack)
{
	static const int list[] = { ALLOWED(NUMBER, 0) };
	const uint32_t fails = SECCOMP_RET_ERRNO | EACCES, ends = SECCOMP_RET_KILL_PROCESS;
	int wrong = stack == NULL;
	for (uint32_t number = 0; number < 2000; number++) {
		uint32_t right = number == SYS_openat || number == SYS_prlimit64 ? SECCOMP_RET_ALLOW : ends;
#if defined(__x86_64__)
		right = number == SYS_open ? SECCOMP_RET_ALLOW : right;
#endif
		for (unsigned i = 0; i < sizeof list / sizeof *list; i++)
			right = number == (uint32_t)list[i] ? SECCOMP_RET_ALLOW : right;
		wrong += judged(ARCH, number, 0, 0, 0) != right;
		wrong += judged(ARCH + 1, number, 0, 0, 0) != ends;
		wrong += judged(ARCH, 0x40000000 | number, 0, 0, 0) != ends;
	}
	wrong += judged(ARCH, SYS_openat, 0, 0, O_WRONLY) != fails;
	wrong += judged(ARCH, SYS_openat, 0, 0, O_CREAT) != fails;
	wrong += judged(ARCH, SYS_prlimit64, 1, 0, 0) != fails;
	for (;;)
		call(SYS_exit_group, wrong > 100 ? 100 : wrong, 0, 0);
}
