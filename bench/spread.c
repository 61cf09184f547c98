// Puts each thread of a program on the processor that has the fewest of them. The dynamic linker loads it before
// the C library (LD_PRELOAD). Some kernels of virtual machines leave several threads on one processor while others
// have none; with it a run shows what the program does where that is not so.
#define _GNU_SOURCE
#include <dlfcn.h>
#include <pthread.h>
#include <sched.h>
#include <stdatomic.h>
#include <stdlib.h>
#include <unistd.h>

enum { MOST = 256 };

struct job {
    void *(*run)(void *);
    void *given;
    int processor;
};

static atomic_int threads[MOST];
static int processors;
static _Thread_local int own;

static cpu_set_t only(int processor)
{
    cpu_set_t set;
    CPU_ZERO(&set);
    CPU_SET(processor, &set);
    return set;
}

static void *begin(void *given)
{
    struct job job = *(struct job *)given;
    free(given);
    own = job.processor;
    void *found = job.run(job.given);
    threads[own]--;
    return found;
}

__attribute__((constructor)) static void start(void)
{
    processors = (int)sysconf(_SC_NPROCESSORS_ONLN);
    processors = processors < MOST ? processors : MOST;
    own = sched_getcpu();
    cpu_set_t set = only(own);
    sched_setaffinity(0, sizeof set, &set);
    threads[own]++;
}

int pthread_create(pthread_t *thread, const pthread_attr_t *asked, void *(*run)(void *), void *given)
{
    int (*real)(pthread_t *, const pthread_attr_t *, void *(*)(void *), void *) = dlsym(RTLD_NEXT, "pthread_create");
    struct job *job = malloc(sizeof *job);
    if (!job)
        return real(thread, asked, run, given);
    int least = 0;
    for (int each = 1; each < processors; each++)
        if (threads[each] < threads[least])
            least = each;
    threads[least]++;
    *job = (struct job){run, given, least};
    pthread_attr_t told;
    if (asked)
        told = *asked;
    else
        pthread_attr_init(&told);
    cpu_set_t set = only(least);
    pthread_attr_setaffinity_np(&told, sizeof set, &set);
    return real(thread, &told, begin, job);
}

// A thread that waits for another needs no processor.
int pthread_join(pthread_t thread, void **found)
{
    int (*real)(pthread_t, void **) = dlsym(RTLD_NEXT, "pthread_join");
    threads[own]--;
    int ended = real(thread, found);
    threads[own]++;
    return ended;
}
