/* Starts a child of otplogd without any privilege: a program for the setup's key `launcher`.
 *
 *     launcher child-pre SESSION               as the unprivileged user
 *     launcher child-user SESSION UID NAME     as the user of that number
 * It does what the script `launcher` beside it does, in one process in place of six, and leaves the child only the
 * system calls that it needs: otplogd(8) says how it is built. The monitor has to be root. OTPLOGD names the program
 * (else /usr/local/sbin/otplogd) and OTPLOGD_USER the unprivileged user of /etc/passwd (else nobody), whose group all
 * children have. It uses no C library, since to start one takes as long as all that is done here. */
#include <errno.h>
#include <fcntl.h>
#include <linux/audit.h>
#include <linux/capability.h>
#include <linux/filter.h>
#include <linux/prctl.h>
#include <linux/seccomp.h>
#include <stddef.h>
#include <stdint.h>
#include <sys/resource.h>
#include <sys/syscall.h>

/* A call of the system with three arguments, and zeros as the others. Below 0 it failed. */
static long call(long number, long a, long b, long c)
{
#if defined(__x86_64__)
	register long r10 __asm__("r10") = 0, r8 __asm__("r8") = 0;
	__asm__ volatile("syscall" : "+a"(number) : "D"(a), "S"(b), "d"(c), "r"(r10), "r"(r8) : "rcx", "r11", "memory");
	return number;
#elif defined(__aarch64__)
	register long x8 __asm__("x8") = number, x0 __asm__("x0") = a, x1 __asm__("x1") = b, x2 __asm__("x2") = c;
	register long x3 __asm__("x3") = 0, x4 __asm__("x4") = 0;
	__asm__ volatile("svc 0" : "+r"(x0) : "r"(x8), "r"(x1), "r"(x2), "r"(x3), "r"(x4) : "memory");
	return x0;
#else
#error "the launcher knows the system calls of x86_64 and aarch64 alone"
#endif
}

static _Noreturn void refuse(const char *why, const char *what)
{
	const char *parts[] = { "launcher: ", why, what, "\n" };
	for (int i = 0; i < 4; i++)
		for (const char *at = parts[i]; *at; at++)
			call(SYS_write, 2, (long)at, 1);
	for (;;)
		call(SYS_exit_group, 2, 0, 0);
}

/* Ends the launcher where a call of the system failed. */
static void need(long outcome, const char *what)
{
	char error[] = { '0' - outcome / 100, '0' - outcome / 10 % 10, '0' - outcome % 10, 0 };
	if (outcome < 0)
		refuse(what, error);
}

/* What follows this front of a text, or NULL where it has another front. */
static const char *after(const char *text, const char *front)
{
	for (; *front; text++, front++)
		if (*text != *front)
			return NULL;
	return text;
}

/* The value of a name of the environment, or this one where it has none. */
static const char *value_of(char **environment, const char *name, const char *otherwise)
{
	for (const char *value; *environment; environment++)
		if ((value = after(*environment, name)) && *value)
			return value;
	return otherwise;
}

/* Reads the number of a user or a group. It answers 0, which no child may get, also where there is no number and for
 * those from 4294967295 on, which stands for no change to the system. */
static uint32_t number(const char **at)
{
	uint64_t value = 0; /* further digits don't count once it is too great */
	for (; **at >= '0' && **at <= '9'; ++*at)
		value = value < UINT32_MAX ? 10 * value + (**at - '0') : value;
	return value < UINT32_MAX ? value : 0;
}

struct ids { uint32_t uid, gid; };
/* The unprivileged user, as a line of /etc/passwd has it: NAME:PASSWORD:UID:GID:.. */
static struct ids unprivileged(const char *name)
{
	static char text[1 << 20];
	struct ids found = { 0, 0 };
	long len = 0, more, file = call(SYS_openat, AT_FDCWD, (long)"/etc/passwd", O_RDONLY | O_CLOEXEC);
	need(file, "/etc/passwd: error ");
	while ((more = call(SYS_read, file, (long)text + len, sizeof text - 1 - len)) > 0)
		len += more;
	for (const char *line = text, *at; line < text + len; line++)
		if ((line == text || line[-1] == '\n') && (at = after(line, name)) && *at++ == ':') {
			while (*at && *at != ':' && *at != '\n')
				at++;
			found.uid = *at == ':' ? at++, number(&at) : 0;
			found.gid = *at == ':' ? at++, number(&at) : 0;
			if (found.uid && found.gid && *at == ':')
				return found;
		}
	refuse("this is no unprivileged user: ", name);
}

/* Gives up root and all capabilities, those of programs that are run later too. */
static void become(struct ids user)
{
	struct __user_cap_header_struct head = { .version = _LINUX_CAPABILITY_VERSION_3 };
	struct __user_cap_data_struct none[2] = { { 0 }, { 0 } };
	long dropped = 0;
	for (int capability = 0; dropped >= 0; capability++)
		dropped = call(SYS_prctl, PR_CAPBSET_DROP, capability, 0);
	need(dropped == -EINVAL ? 0 : dropped, "the bounding set: error "); /* there is no further capability */
	need(call(SYS_prctl, PR_CAP_AMBIENT, PR_CAP_AMBIENT_CLEAR_ALL, 0), "the ambient set: error ");
	need(call(SYS_setgroups, 0, 0, 0), "setgroups: error ");
	need(call(SYS_setresgid, user.gid, user.gid, user.gid), "setresgid: error ");
	need(call(SYS_setresuid, user.uid, user.uid, user.uid), "setresuid: error ");
	need(call(SYS_capset, (long)&head, (long)none, 0), "capset: error ");
	need(call(SYS_prctl, PR_SET_NO_NEW_PRIVS, 1, 0), "no new privileges: error ");
}

/* What a child may have: no further process, no byte in a file, no core. */
static const struct { int kind; struct rlimit most; } limits[] = {
	{ RLIMIT_NPROC, { 0, 0 } }, { RLIMIT_FSIZE, { 0, 0 } }, { RLIMIT_CORE, { 0, 0 } }, { RLIMIT_NOFILE, { 16, 16 } },
	{ RLIMIT_AS, { 256 << 20, 256 << 20 } }, { RLIMIT_CPU, { 60, 60 } }, /* bytes, and seconds */
};

/* The system calls that load and end a program, that read and write what is open, and that get memory. Below: their
 * bits among those of the numbers from 32 w on, and lines that allow these. X has a number's low bits, A the others. */
#define EVERYWHERE(DO, w) \
	DO(read, w) DO(write, w) DO(close, w) DO(exit_group, w) DO(exit, w) DO(execve, w) DO(mmap, w) DO(munmap, w) \
	DO(mprotect, w) DO(mremap, w) DO(madvise, w) DO(brk, w) DO(pread64, w) DO(readv, w) DO(writev, w) DO(lseek, w) \
	DO(fstat, w) DO(newfstatat, w) DO(statx, w) DO(faccessat, w) DO(readlinkat, w) DO(futex, w) DO(rseq, w) \
	DO(set_tid_address, w) DO(set_robust_list, w) DO(getrandom, w) DO(rt_sigaction, w) DO(rt_sigprocmask, w) \
	DO(rt_sigreturn, w) DO(sigaltstack, w) DO(restart_syscall, w) DO(getpid, w) DO(gettid, w) DO(getuid, w) \
	DO(geteuid, w) DO(getgid, w) DO(getegid, w) DO(clock_gettime, w) DO(nanosleep, w) DO(clock_nanosleep, w) \
	DO(sched_yield, w) DO(uname, w)
#if defined(__x86_64__)
enum { ARCH = AUDIT_ARCH_X86_64 };
#define ALLOWED(DO, w) EVERYWHERE(DO, w) DO(access, w) DO(readlink, w) DO(stat, w) DO(lstat, w) DO(arch_prctl, w)
__asm__(".globl _start\n_start: mov %rsp, %rdi\n\tcall launch");
#else
enum { ARCH = AUDIT_ARCH_AARCH64 };
#define ALLOWED EVERYWHERE
__asm__(".globl _start\n_start: mov x0, sp\n\tbl launch");
#endif
#define LOAD(what) BPF_STMT(BPF_LD | BPF_W | BPF_ABS, offsetof(struct seccomp_data, what))
#define BIT(name, w) | (SYS_##name / 32 == (w) ? 1U << SYS_##name % 32 : 0)
#define WORD(w) \
	BPF_JUMP(BPF_JMP | BPF_JEQ | BPF_K, w, 0, 5), BPF_STMT(BPF_LD | BPF_IMM, 0 ALLOWED(BIT, w)), \
	BPF_STMT(BPF_ALU | BPF_RSH | BPF_X, 0), BPF_JUMP(BPF_JMP | BPF_JSET | BPF_K, 1, 0, 1), \
	BPF_STMT(BPF_RET | BPF_K, SECCOMP_RET_ALLOW), BPF_STMT(BPF_RET | BPF_K, SECCOMP_RET_KILL_PROCESS)
/* Allows a call where an argument has none of these bits, and makes it fail with EACCES else. */
#define UNLESS(name, argument, bits) \
	BPF_JUMP(BPF_JMP | BPF_JEQ | BPF_K, SYS_##name, 0, 4), \
	LOAD(args[argument]), BPF_JUMP(BPF_JMP | BPF_JSET | BPF_K, bits, 0, 1), \
	BPF_STMT(BPF_RET | BPF_K, SECCOMP_RET_ERRNO | EACCES), BPF_STMT(BPF_RET | BPF_K, SECCOMP_RET_ALLOW)

/* The flags by which a file is opened to be changed or made; the last is O_TMPFILE's own. */
enum { CHANGES = O_WRONLY | O_RDWR | O_CREAT | O_TRUNC | O_APPEND | 020000000 };

/* The process, and all programs that it runs, may make these calls alone. Another one ends it. */
static struct sock_filter filter[] = {
	LOAD(arch), BPF_JUMP(BPF_JMP | BPF_JEQ | BPF_K, ARCH, 1, 0), BPF_STMT(BPF_RET | BPF_K, SECCOMP_RET_KILL_PROCESS),
	LOAD(nr),
	UNLESS(openat, 2, CHANGES),
#if defined(__x86_64__)
	UNLESS(open, 1, CHANGES),
#endif
	UNLESS(prlimit64, 0, ~0U), /* its own limits, which it can only lower */
	BPF_STMT(BPF_ALU | BPF_AND | BPF_K, 31), BPF_STMT(BPF_MISC | BPF_TAX, 0), LOAD(nr),
	BPF_STMT(BPF_ALU | BPF_RSH | BPF_K, 5),
	WORD(0), WORD(1), WORD(2), WORD(3), WORD(4), WORD(5), WORD(6), WORD(7), WORD(8), WORD(9), WORD(10),
	BPF_STMT(BPF_RET | BPF_K, SECCOMP_RET_KILL_PROCESS),
};

/* The stack has how many arguments there are, they, a 0, and the environment with a 0. */
__attribute__((used)) static _Noreturn void launch(long *stack)
{
	char **argv = (char **)(stack + 1), **environment = argv + stack[0] + 1, *none[] = { NULL };
	const char *pre = stack[0] == 3 ? after(argv[1], "child-pre") : NULL;
	const char *own = stack[0] == 5 ? after(argv[1], "child-user") : NULL, *uid = own ? argv[3] : "";
	if (!(pre && !*pre) && !(own && !*own))
		refuse("call it as launcher child-pre SESSION or launcher child-user SESSION UID NAME", "");
	struct ids user = unprivileged(value_of(environment, "OTPLOGD_USER=", "nobody"));
	if (own && (*uid == '0' || !(user.uid = number(&uid)) || *uid))
		refuse("this is no user's number: ", argv[3]);
	argv[0] = (char *)value_of(environment, "OTPLOGD=", "/usr/local/sbin/otplogd");
	if (call(SYS_getsid, 0, 0, 0) != call(SYS_getpid, 0, 0, 0)) /* a session of its own has no terminal */
		need(call(SYS_setsid, 0, 0, 0), "setsid: error ");
	need(call(SYS_close_range, 3, ~0U, 0), "close_range: error ");
	become(user);
	for (unsigned i = 0; i < sizeof limits / sizeof *limits; i++)
		need(call(SYS_prlimit64, 0, limits[i].kind, (long)&limits[i].most), "setrlimit: error ");
	struct sock_fprog program = { sizeof filter / sizeof *filter, filter };
	need(call(SYS_prctl, PR_SET_SECCOMP, SECCOMP_MODE_FILTER, (long)&program), "the filter: error ");
	call(SYS_execve, (long)argv[0], (long)argv, (long)none);
	refuse("this program can't be run: ", argv[0]);
}
