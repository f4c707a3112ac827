// The same work as main.rt.txt, with a lock around the same object that spins and then parks its thread by a futex.
#define _GNU_SOURCE
#include <linux/futex.h>
#include <pthread.h>
#include <stdatomic.h>
#include <stdint.h>
#include <stdio.h>
#include <stdlib.h>
#include <sys/syscall.h>
#include <time.h>
#include <unistd.h>

enum { FREE, HELD, AWAITED, SPINS = 100, MOST_THREADS = 64 };

struct added {
    uint32_t owner;
    uint8_t call;
    uint64_t total;
};

struct tally {
    atomic_uint lock;
    uint64_t total;
    size_t length;
    struct added *log;
};

struct caller {
    struct tally *tally;
    uint32_t owner, calls;
    pthread_t thread;
};

static void futex(atomic_uint *word, int what, unsigned value)
{
    syscall(SYS_futex, word, what | FUTEX_PRIVATE_FLAG, value, NULL, NULL, 0);
}

static void lock(atomic_uint *word)
{
    for (int spin = 0; spin < SPINS; spin++) {
        unsigned found = FREE;
        if (atomic_compare_exchange_weak_explicit(word, &found, HELD, memory_order_acquire, memory_order_relaxed))
            return;
        if (found == AWAITED)
            break;
        __builtin_ia32_pause();
    }
    while (atomic_exchange_explicit(word, AWAITED, memory_order_acquire) != FREE)
        futex(word, FUTEX_WAIT, AWAITED);
}

static void unlock(atomic_uint *word)
{
    if (atomic_exchange_explicit(word, FREE, memory_order_release) == AWAITED)
        futex(word, FUTEX_WAKE, 1);
}

static void apply(struct tally *tally, uint32_t owner, uint8_t call)
{
    tally->total += call;
    tally->log[tally->length++] = (struct added){ owner, call, tally->total };
}

static void *make_calls(void *given)
{
    struct caller *caller = given;
    for (uint32_t made = 0; made < caller->calls; made++) {
        lock(&caller->tally->lock);
        apply(caller->tally, caller->owner, 3);
        unlock(&caller->tally->lock);
    }
    return NULL;
}

static long long now(void)
{
    struct timespec time;
    clock_gettime(CLOCK_MONOTONIC, &time);
    return time.tv_sec * 1000000000LL + time.tv_nsec;
}

int main(int count, char **words)
{
    unsigned threads = count == 3 ? atoi(words[1]) : 0, calls = count == 3 ? atoi(words[2]) : 0;
    struct caller callers[MOST_THREADS];
    struct tally tally = { .log = malloc(sizeof(struct added) * threads * calls) };
    if (threads < 1 || threads > MOST_THREADS || !tally.log)
        return 2;
    long long start = now();
    for (unsigned owner = 0; owner < threads; owner++) {
        callers[owner] = (struct caller){ &tally, owner, calls, 0 };
        if (pthread_create(&callers[owner].thread, NULL, make_calls, &callers[owner]))
            return 1;
    }
    for (unsigned owner = 0; owner < threads; owner++)
        pthread_join(callers[owner].thread, NULL);
    printf("%zu %llu %lld\n", tally.length, (unsigned long long)tally.total, now() - start);
    return 0;
}
