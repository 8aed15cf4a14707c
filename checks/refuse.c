/* Stands before the C library's calls that take memory, and refuses some: it counts them from 1, over all threads, and
   refuses those from the first to the last number that the file ORDER holds. Where it refuses one it makes the file REFUSED.
   growth.sh beside this file compiles it with these two names, and preloads it. */
#define _GNU_SOURCE
#include <dlfcn.h>
#include <errno.h>
#include <fcntl.h>
#include <pthread.h>
#include <stdatomic.h>
#include <stddef.h>
#include <stdlib.h>
#include <sys/mman.h>
#include <sys/syscall.h>
#include <unistd.h>

/* The C library's own calls under names that nothing stands before. */
void *__libc_malloc(size_t size);
void *__libc_calloc(size_t count, size_t size);
void *__libc_realloc(void *old, size_t size);
void *__libc_memalign(size_t alignment, size_t size);

typedef int create(pthread_t *, const pthread_attr_t *, void *(*)(void *), void *);

static atomic_long growths;
static long first = -1, last;

/* The first growth of all comes before any other thread is there, and maybe before the environment is: so the numbers
   stand in a file, and are read without memory. */
static void read_order(void) {
    char text[64];
    int file = open(ORDER, O_RDONLY | O_CLOEXEC);
    ssize_t length = file < 0 ? 0 : read(file, text, sizeof text);
    long numbers[2] = {0, 0};
    int which = 0;
    for (ssize_t at = 0; at < length; at++) {
        if (text[at] >= '0' && text[at] <= '9')
            numbers[which] = numbers[which] * 10 + (text[at] - '0');
        else
            which = 1;
    }
    if (file >= 0) close(file);
    last = numbers[1];
    first = numbers[0];
}

/* Whether this growth is one to refuse. */
static int refuses(void) {
    if (first < 0) read_order();
    long number = atomic_fetch_add(&growths, 1) + 1;
    if (number < first || number > last) return 0;
    int file = open(REFUSED, O_WRONLY | O_CREAT | O_CLOEXEC, 0600);
    if (file >= 0) close(file);
    errno = ENOMEM;
    return 1;
}

void *malloc(size_t size) {
    return refuses() ? NULL : __libc_malloc(size);
}

void *calloc(size_t count, size_t size) {
    return refuses() ? NULL : __libc_calloc(count, size);
}

void *realloc(void *old, size_t size) {
    return refuses() ? NULL : __libc_realloc(old, size);
}

void *memalign(size_t alignment, size_t size) {
    return refuses() ? NULL : __libc_memalign(alignment, size);
}

void *aligned_alloc(size_t alignment, size_t size) {
    return memalign(alignment, size);
}

int posix_memalign(void **place, size_t alignment, size_t size) {
    void *made = memalign(alignment, size);
    if (made == NULL) return ENOMEM;
    *place = made;
    return 0;
}

void *mmap(void *address, size_t length, int protection, int flags, int file, off_t offset) {
    if (refuses()) return MAP_FAILED;
    return (void *)syscall(SYS_mmap, address, length, protection, flags, file, offset);
}

void *mmap64(void *address, size_t length, int protection, int flags, int file, off_t offset) {
    return mmap(address, length, protection, flags, file, offset);
}

/* A thread takes memory for its stack. */
int pthread_create(pthread_t *thread, const pthread_attr_t *attributes, void *(*body)(void *), void *argument) {
    if (refuses()) return EAGAIN;
    return ((create *)dlsym(RTLD_NEXT, "pthread_create"))(thread, attributes, body, argument);
}
