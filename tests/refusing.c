/* Refuses requests of a program for memory. It is loaded ahead of the C library and stands in for the calls by which the program asks for
   memory, or for a thread with its stack, and for those of the library on its behalf. The file that the environment variable REFUSING names
   holds three numbers: which request is refused first, how many are refused from there on, and how many have been made. It is shared, so
   that the count is there however the program ends. */
#define _GNU_SOURCE
#include <dlfcn.h>
#include <errno.h>
#include <fcntl.h>
#include <pthread.h>
#include <stdlib.h>
#include <sys/mman.h>
#include <unistd.h>

struct plan { long first, refused, made; };
static struct plan *plan;

extern void *__libc_malloc(size_t), *__libc_calloc(size_t, size_t), *__libc_realloc(void *, size_t);

/* Requests count from here on: those before are the loader's. */
__attribute__((constructor)) static void start(void) {
    const char *path = getenv("REFUSING");
    int file = path ? open(path, O_RDWR) : -1;
    if (file < 0) return;
    void *shared = mmap(0, sizeof *plan, PROT_READ | PROT_WRITE, MAP_SHARED, file, 0);
    if (shared != MAP_FAILED) plan = shared;
    close(file);
}

static int refused(void) {
    if (!plan) return 0;
    long number = __atomic_add_fetch(&plan->made, 1, __ATOMIC_RELAXED);
    if (number < plan->first || number - plan->first >= plan->refused) return 0;
    errno = ENOMEM;
    return 1;
}

void *malloc(size_t size) { return refused() ? 0 : __libc_malloc(size); }
void *calloc(size_t count, size_t size) { return refused() ? 0 : __libc_calloc(count, size); }
void *realloc(void *old, size_t size) { return refused() ? 0 : __libc_realloc(old, size); }

typedef int create(pthread_t *, const pthread_attr_t *, void *(*)(void *), void *);

int pthread_create(pthread_t *thread, const pthread_attr_t *with, void *(*body)(void *), void *given) {
    return refused() ? EAGAIN : ((create *)dlsym(RTLD_NEXT, "pthread_create"))(thread, with, body, given);
}
