/* Refuses growths of memory and starts of threads of the program that it is preloaded to.
 *
 * REFUSE   what counts: g growths (malloc, calloc, realloc, the aligned forms, anonymous mmap), s starts of threads,
 *          or gs both, counted together
 * AT=N     refuses the N-th that is counted (1 is the first; 0 none)
 * FROM=N   refuses the N-th and all that follow
 * AFTER=S  counts nothing before S threads were started (0 if it is missing)
 * NOTE     a file that gets one line when the program ends: how many were counted, and how many refused
 * MET      a file that is made as soon as something is refused, so that it is there after a crash as well
 *
 * What the C library asks for inside itself counts as well if it calls malloc or calloc for it, as a start of a
 * thread does. Refused growths answer NULL with ENOMEM, refused starts EAGAIN.
 */
#define _GNU_SOURCE
#include <dlfcn.h>
#include <errno.h>
#include <fcntl.h>
#include <pthread.h>
#include <stdatomic.h>
#include <stdio.h>
#include <stdlib.h>
#include <string.h>
#include <sys/mman.h>
#include <sys/syscall.h>
#include <unistd.h>

extern void *__libc_malloc(size_t);
extern void *__libc_calloc(size_t, size_t);
extern void *__libc_realloc(void *, size_t);
extern void *__libc_memalign(size_t, size_t);

static atomic_long counted, refused, started;
static long at = 0, from = 0, after = 0;
static int growths = 0, starts = 0;
static int (*start)(pthread_t *, const pthread_attr_t *, void *(*)(void *), void *);

static long number(const char *name) {
    const char *text = getenv(name);
    return text ? atol(text) : 0;
}

__attribute__((constructor)) static void begin(void) {
    const char *what = getenv("REFUSE");
    start = (int (*)(pthread_t *, const pthread_attr_t *, void *(*)(void *), void *))dlsym(RTLD_NEXT, "pthread_create");
    at = number("AT");
    from = number("FROM");
    after = number("AFTER");
    starts = what && strchr(what, 's');
    growths = what && strchr(what, 'g');
}

/* Notes that something was refused. */
static void note_refusal(void) {
    const char *path = getenv("MET");
    int note = path ? open(path, O_WRONLY | O_CREAT, 0644) : -1;
    if (note >= 0) {
        close(note);
    }
    atomic_fetch_add(&refused, 1);
}

/* Whether this one is refused. */
static int is_refused(int counts) {
    if (!counts || atomic_load(&started) < after) {
        return 0;
    }
    long place = atomic_fetch_add(&counted, 1) + 1;
    if (place == at || (from && place >= from)) {
        note_refusal();
        return 1;
    }
    return 0;
}

static int is_growth_refused(void) {
    if (is_refused(growths)) {
        errno = ENOMEM;
        return 1;
    }
    return 0;
}

void *malloc(size_t size) {
    return is_growth_refused() ? NULL : __libc_malloc(size);
}

void *calloc(size_t count, size_t size) {
    return is_growth_refused() ? NULL : __libc_calloc(count, size);
}

void *realloc(void *old, size_t size) {
    return is_growth_refused() ? NULL : __libc_realloc(old, size);
}

void *reallocarray(void *old, size_t count, size_t size) {
    size_t bytes;
    if (__builtin_mul_overflow(count, size, &bytes)) {
        errno = ENOMEM;
        return NULL;
    }
    return realloc(old, bytes);
}

void *memalign(size_t alignment, size_t size) {
    return is_growth_refused() ? NULL : __libc_memalign(alignment, size);
}

void *aligned_alloc(size_t alignment, size_t size) {
    return memalign(alignment, size);
}

int posix_memalign(void **place, size_t alignment, size_t size) {
    void *made = memalign(alignment, size);
    if (!made) {
        return ENOMEM;
    }
    *place = made;
    return 0;
}

void *mmap(void *place, size_t size, int protection, int flags, int file, off_t offset) {
    if ((flags & MAP_ANONYMOUS) && is_growth_refused()) {
        return MAP_FAILED;
    }
    return (void *)syscall(SYS_mmap, place, size, protection, flags, file, offset);
}

int pthread_create(pthread_t *thread, const pthread_attr_t *how, void *(*body)(void *), void *argument) {
    if (is_refused(starts)) {
        return EAGAIN;
    }
    int fault = start(thread, how, body, argument);
    if (!fault) {
        atomic_fetch_add(&started, 1);
    }
    return fault;
}

static void tell(void) {
    const char *path = getenv("NOTE");
    int note = path ? open(path, O_WRONLY | O_CREAT | O_TRUNC, 0644) : -1;
    if (note >= 0) {
        char text[64];
        int length = snprintf(text, sizeof text, "%ld %ld\n", atomic_load(&counted), atomic_load(&refused));
        if (write(note, text, (size_t)length) != length) {
            unlink(path);
        }
        close(note);
    }
}

__attribute__((destructor)) static void end(void) {
    tell();
}

/* A program that ends by this call runs no destructor. */
void _exit(int status) {
    tell();
    syscall(SYS_exit_group, status);
    __builtin_unreachable();
}
