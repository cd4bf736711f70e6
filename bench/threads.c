/* Preloaded, it notes in the file that BDD_THREADS names when the threads run that a program's first thread starts together.
 *
 * A line a thread: the milliseconds from its start to its first step, from there to its end, and on a processor, and its page faults.
 * A line for each time that threads are started and joined: the milliseconds on the clock from the first start to the last join, and
 * those that the starting thread was on a processor from there to its first join. Threads that others than the first start are not reported.
 */
#define _GNU_SOURCE
#include <dlfcn.h>
#include <fcntl.h>
#include <pthread.h>
#include <stdio.h>
#include <stdlib.h>
#include <sys/resource.h>
#include <time.h>
#include <unistd.h>

#define MOST 64

struct noted {
    void *(*work)(void *);
    void *given;
    pthread_t thread;
    double created, begun, ended, busy;
    long faults;
};

static struct noted together[MOST];
static int count, left, file = -1;
static double first_start, busy_before, busy_until;

static double milliseconds(clockid_t clock) {
    struct timespec t;
    clock_gettime(clock, &t);
    return t.tv_sec * 1e3 + t.tv_nsec / 1e6;
}

static void *begin(void *note) {
    struct noted *one = note;
    one->begun = milliseconds(CLOCK_MONOTONIC);
    void *answer = one->work(one->given);
    struct rusage used;
    getrusage(RUSAGE_THREAD, &used);
    one->faults = used.ru_minflt;
    one->busy = milliseconds(CLOCK_THREAD_CPUTIME_ID);
    one->ended = milliseconds(CLOCK_MONOTONIC);
    return answer;
}

int pthread_create(pthread_t *thread, const pthread_attr_t *how, void *(*work)(void *), void *given) {
    int (*real)(pthread_t *, const pthread_attr_t *, void *(*)(void *), void *) = dlsym(RTLD_NEXT, "pthread_create");
    if (gettid() != getpid())
        return real(thread, how, work, given);
    if (left == 0) {
        count = 0;
        first_start = milliseconds(CLOCK_MONOTONIC);
        busy_before = milliseconds(CLOCK_THREAD_CPUTIME_ID);
        busy_until = 0;
    }
    if (count == MOST)
        abort();
    struct noted *one = &together[count];
    *one = (struct noted){.work = work, .given = given, .created = milliseconds(CLOCK_MONOTONIC)};
    int answer = real(thread, how, begin, one);
    if (answer == 0) {
        one->thread = *thread;
        count++;
        left++;
    }
    return answer;
}

int pthread_join(pthread_t thread, void **answer) {
    int (*real)(pthread_t, void **) = dlsym(RTLD_NEXT, "pthread_join");
    if (gettid() != getpid())
        return real(thread, answer);
    if (busy_until == 0)
        busy_until = milliseconds(CLOCK_THREAD_CPUTIME_ID);
    int status = real(thread, answer);
    if (file < 0)
        file = open(getenv("BDD_THREADS"), O_WRONLY | O_CREAT | O_APPEND, 0600);
    for (int i = 0; i < count; i++) {
        struct noted *one = &together[i];
        if (one->work && pthread_equal(one->thread, thread)) {
            double ran = one->ended - one->begun;
            dprintf(file, "thread %.4f %.4f %.4f %ld\n", one->begun - one->created, ran, one->busy, one->faults);
            one->work = 0;
        }
    }
    if (--left == 0)
        dprintf(file, "together %.4f %.4f\n", milliseconds(CLOCK_MONOTONIC) - first_start, busy_until - busy_before);
    return status;
}
