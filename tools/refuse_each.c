/* Refuses requests of the program into which it is loaded by LD_PRELOAD, as tools/refuse_each asks by these variables:

   REFUSE_WHAT   which requests are counted, one or several of: memory (malloc, calloc, realloc), threads (pthread_create),
                 input (read) and output (write, but to standard error)
   REFUSE_HOW    how a read or a write is refused: error (EIO, ENOSPC), interrupted (EINTR), nothing (it takes 0 bytes), one (it
                 takes one byte), or bytes (ENOSPC, and each write before it takes one byte)
   REFUSE_FIRST  the number of the first request that is refused, from 1; 0 refuses none
   REFUSE_LAST   the number of the last request that is refused
   REFUSE_COUNT  a file of 8 bytes, in which the number of requests is kept

   The C library's own requests for memory are counted too, once this library is loaded: pthread_create makes some. */
#define _GNU_SOURCE
#include <dlfcn.h>
#include <errno.h>
#include <fcntl.h>
#include <pthread.h>
#include <stdint.h>
#include <stdlib.h>
#include <string.h>
#include <sys/mman.h>
#include <unistd.h>

enum What { MEMORY = 1, THREADS = 2, INPUT = 4, OUTPUT = 8 };

/* What glibc calls malloc, calloc and realloc in itself. */
extern void *__libc_malloc(size_t size);
extern void *__libc_calloc(size_t count, size_t size);
extern void *__libc_realloc(void *block, size_t size);

typedef int CreateThread(pthread_t *, const pthread_attr_t *, void *(*)(void *), void *);
typedef ssize_t ReadBytes(int, void *, size_t);
typedef ssize_t WriteBytes(int, const void *, size_t);

static int counted;
static const char *how = "error";
static uint64_t first, last;
static uint64_t own_count;
static uint64_t *count = &own_count;
static CreateThread *create_thread;
static ReadBytes *read_bytes;
static WriteBytes *write_bytes;

static uint64_t number_of(const char *name) {
    const char *word = getenv(name);
    return word ? strtoull(word, NULL, 10) : 0;
}

static int counted_in(const char *words) {
    return (strstr(words, "memory") ? MEMORY : 0) | (strstr(words, "threads") ? THREADS : 0) | (strstr(words, "input") ? INPUT : 0)
        | (strstr(words, "output") ? OUTPUT : 0);
}

__attribute__((constructor)) static void begin(void) {
    create_thread = (CreateThread *)dlsym(RTLD_NEXT, "pthread_create");
    read_bytes = (ReadBytes *)dlsym(RTLD_NEXT, "read");
    write_bytes = (WriteBytes *)dlsym(RTLD_NEXT, "write");
    first = number_of("REFUSE_FIRST");
    last = number_of("REFUSE_LAST");
    if (getenv("REFUSE_HOW"))
        how = getenv("REFUSE_HOW");
    int file = getenv("REFUSE_COUNT") ? open(getenv("REFUSE_COUNT"), O_RDWR) : -1;
    void *page = file < 0 ? MAP_FAILED : mmap(NULL, sizeof *count, PROT_READ | PROT_WRITE, MAP_SHARED, file, 0);
    if (file >= 0)
        close(file);
    if (page != MAP_FAILED)
        count = page;
    counted = getenv("REFUSE_WHAT") ? counted_in(getenv("REFUSE_WHAT")) : 0;
}

/* Counts a request, and returns whether it is refused. */
static int is_refused(enum What it) {
    if (!(counted & it))
        return 0;
    uint64_t number = __atomic_add_fetch(count, 1, __ATOMIC_SEQ_CST);
    return first && first <= number && number <= last;
}

static void *no_memory(void) {
    errno = ENOMEM;
    return NULL;
}

void *malloc(size_t size) {
    return is_refused(MEMORY) ? no_memory() : __libc_malloc(size);
}

void *calloc(size_t number, size_t size) {
    return is_refused(MEMORY) ? no_memory() : __libc_calloc(number, size);
}

void *realloc(void *block, size_t size) {
    return is_refused(MEMORY) ? no_memory() : __libc_realloc(block, size);
}

int pthread_create(pthread_t *thread, const pthread_attr_t *attributes, void *(*start)(void *), void *argument) {
    return is_refused(THREADS) ? EAGAIN : create_thread(thread, attributes, start, argument);
}

/* How many of `length` bytes a refused read or write takes; -1 with an error. */
static ssize_t refused(size_t length, int error) {
    if (!strcmp(how, "nothing"))
        return 0;
    if (!strcmp(how, "one"))
        return length ? 1 : 0;
    errno = strcmp(how, "interrupted") ? error : EINTR;
    return -1;
}

ssize_t read(int file, void *bytes, size_t length) {
    if (!is_refused(INPUT))
        return read_bytes(file, bytes, length);
    ssize_t taken = refused(length, EIO);
    return taken > 0 ? read_bytes(file, bytes, taken) : taken;
}

ssize_t write(int file, const void *bytes, size_t length) {
    if (file == STDERR_FILENO)
        return write_bytes(file, bytes, length);
    if (!is_refused(OUTPUT))
        return write_bytes(file, bytes, length && !strcmp(how, "bytes") ? 1 : length);
    ssize_t taken = refused(length, ENOSPC);
    return taken > 0 ? write_bytes(file, bytes, taken) : taken;
}
