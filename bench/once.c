/* Runs a program once and writes what it took: the launcher of measure.py, so small that it adds nothing to a peak of memory.
 *
 * usage: once NOTE PROCESSOR CLOCK MEGABYTES PROGRAM [ARGUMENT ..]
 *
 * The program may take PROCESSOR seconds of processor time, CLOCK seconds on the clock, and MEGABYTES of address space, or any number
 * if that is 0. Its output stays its own. The file NOTE gets one line: microseconds on the clock, microseconds of processor time of
 * all threads, KiB at the peak, and the status, or minus the number of the signal that ended it.
 */
#include <signal.h>
#include <stdio.h>
#include <stdlib.h>
#include <sys/resource.h>
#include <sys/wait.h>
#include <time.h>
#include <unistd.h>

static pid_t child;

static void stop(int signal_number) {
    (void)signal_number;
    kill(child, SIGKILL);
}

static long long microseconds(void) {
    struct timespec now;
    clock_gettime(CLOCK_MONOTONIC, &now);
    return now.tv_sec * 1000000LL + now.tv_nsec / 1000;
}

static long long of(struct timeval time) {
    return time.tv_sec * 1000000LL + time.tv_usec;
}

int main(int count, char **words) {
    if (count < 6) {
        return 2;
    }
    rlim_t seconds = (rlim_t)atoi(words[2]), bytes = (rlim_t)atoi(words[4]) << 20;
    struct rlimit time_limit = {seconds, seconds + 1}, memory_limit = {bytes, bytes};
    signal(SIGALRM, stop);
    long long begun = microseconds();
    child = fork();
    if (child == 0) {
        setrlimit(RLIMIT_CPU, &time_limit);
        if (bytes) {
            setrlimit(RLIMIT_AS, &memory_limit);
        }
        execvp(words[5], words + 5);
        _exit(127);
    }
    alarm((unsigned)atoi(words[3]));
    int status;
    struct rusage used;
    while (wait4(child, &status, 0, &used) != child) {
    }
    long long ended = microseconds();
    FILE *note = fopen(words[1], "w");
    if (!note) {
        return 2;
    }
    fprintf(note, "%lld %lld %ld %d\n", ended - begun, of(used.ru_utime) + of(used.ru_stime), used.ru_maxrss,
            WIFSIGNALED(status) ? -WTERMSIG(status) : WEXITSTATUS(status));
    return fclose(note) ? 2 : 0;
}
