/* Refuses a process memory, a write or a thread: preloaded, it stands before the C library's functions for these.

   REFUSE_NTH=N    the Nth request is refused, counted from 1, and no other
   REFUSE_FROM=N   the Nth request and all after it are refused
   REFUSE_COUNT=F  the file F holds the number of requests so far, as 8 bytes in the order of this machine

   WRITE_FEW=K     a call that writes to standard output takes at most K bytes
   WRITE_NTH=N     the Nth call that writes to standard output fails

   THREAD_NTH=N    the Nth thread is not made, and no later one

   A request is a call of malloc, calloc, realloc, posix_memalign or aligned_alloc, on whichever thread. The C library's own
   requests count too, but for those before main. */
#define _GNU_SOURCE
#include <dlfcn.h>
#include <errno.h>
#include <fcntl.h>
#include <pthread.h>
#include <stdatomic.h>
#include <stdlib.h>
#include <sys/mman.h>
#include <sys/syscall.h>
#include <unistd.h>

static atomic_ulong own;
static atomic_ulong *requests = &own;
static unsigned long nth, from, few, failing, lacking;
static atomic_ulong writes, threads;
static int is_on;

extern void *__libc_malloc(size_t);
extern void *__libc_calloc(size_t, size_t);
extern void *__libc_realloc(void *, size_t);
extern void *__libc_memalign(size_t, size_t);

static unsigned long number_of(const char *name)
{
    const char *given = getenv(name);
    return given ? strtoul(given, NULL, 10) : 0;
}

/* Counts in a file that outlives the process, which may end without a word to this library. */
static void count_in(const char *path)
{
    int file = open(path, O_RDWR | O_CREAT | O_TRUNC, 0644);
    if (file < 0 || ftruncate(file, sizeof own) != 0)
        _exit(125);
    void *place = mmap(NULL, sizeof own, PROT_READ | PROT_WRITE, MAP_SHARED, file, 0);
    if (place == MAP_FAILED)
        _exit(125);
    requests = place;
    close(file);
}

__attribute__((constructor)) static void begin(void)
{
    nth = number_of("REFUSE_NTH");
    from = number_of("REFUSE_FROM");
    few = number_of("WRITE_FEW");
    failing = number_of("WRITE_NTH");
    lacking = number_of("THREAD_NTH");
    if (getenv("REFUSE_COUNT"))
        count_in(getenv("REFUSE_COUNT"));
    is_on = 1;
}

static int is_refused(void)
{
    if (!is_on)
        return 0;
    unsigned long n = atomic_fetch_add(requests, 1) + 1;
    if (n != nth && (!from || n < from))
        return 0;
    errno = ENOMEM;
    return 1;
}

void *malloc(size_t size)
{
    return is_refused() ? NULL : __libc_malloc(size);
}

void *calloc(size_t count, size_t size)
{
    return is_refused() ? NULL : __libc_calloc(count, size);
}

void *realloc(void *block, size_t size)
{
    return is_refused() ? NULL : __libc_realloc(block, size);
}

void *aligned_alloc(size_t alignment, size_t size)
{
    return is_refused() ? NULL : __libc_memalign(alignment, size);
}

int posix_memalign(void **block, size_t alignment, size_t size)
{
    if (is_refused())
        return ENOMEM;
    *block = __libc_memalign(alignment, size);
    return *block ? 0 : ENOMEM;
}

ssize_t write(int file, const void *bytes, size_t count)
{
    if (file == STDOUT_FILENO) {
        if (atomic_fetch_add(&writes, 1) + 1 == failing) {
            errno = EIO;
            return -1;
        }
        if (few && count > few)
            count = few;
    }
    return syscall(SYS_write, file, bytes, count);
}

ssize_t __write(int file, const void *bytes, size_t count) __attribute__((alias("write")));

int pthread_create(pthread_t *thread, const pthread_attr_t *attributes, void *(*begin_with)(void *), void *given)
{
    typedef int (*maker)(pthread_t *, const pthread_attr_t *, void *(*)(void *), void *);
    unsigned long n = atomic_fetch_add(&threads, 1) + 1;
    if (lacking && n >= lacking)
        return EAGAIN;
    return ((maker)dlsym(RTLD_NEXT, "pthread_create"))(thread, attributes, begin_with, given);
}
