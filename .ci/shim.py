"""A library that is loaded before the system's and refuses a program what it asks for: memory, threads, whole writes. For .ci/hostile."""
import os
import shutil
import subprocess
import tempfile

# REFUSE_AT=n: the n-th request for memory, and no other, finds none. REFUSE_FROM=n: nor does any behind it. REFUSE_THREADS=n: all but the
# first n - 1 threads are refused. REFUSE_WRITES=1: a write takes one byte. REFUSED=file: it is made where a request for memory is refused.
TEXT = r"""
#define _GNU_SOURCE
#include <dlfcn.h>
#include <errno.h>
#include <fcntl.h>
#include <pthread.h>
#include <stdatomic.h>
#include <stdlib.h>
#include <sys/syscall.h>
#include <unistd.h>

extern void *__libc_malloc(size_t);
extern void *__libc_calloc(size_t, size_t);
extern void *__libc_realloc(void *, size_t);
extern void *__libc_memalign(size_t, size_t);

static atomic_long asked, threads;
static long at, from, no_threads, small_writes;

static long number(const char *name) {
    const char *text = getenv(name);
    return text ? atol(text) : 0;
}

__attribute__((constructor)) static void begin(void) {
    at = number("REFUSE_AT");
    from = number("REFUSE_FROM");
    no_threads = number("REFUSE_THREADS");
    small_writes = number("REFUSE_WRITES");
    atomic_store(&asked, 0);
}

static int refused(void) {
    long n = atomic_fetch_add(&asked, 1) + 1;
    if (n != at && !(from && n >= from)) return 0;
    const char *path = getenv("REFUSED");
    if (path) syscall(SYS_close, syscall(SYS_open, path, O_WRONLY | O_CREAT, 0600));
    return 1;
}

void *malloc(size_t size) {
    if (refused()) { errno = ENOMEM; return NULL; }
    return __libc_malloc(size);
}

void *calloc(size_t count, size_t size) {
    if (refused()) { errno = ENOMEM; return NULL; }
    return __libc_calloc(count, size);
}

void *realloc(void *old, size_t size) {
    if (refused()) { errno = ENOMEM; return NULL; }
    return __libc_realloc(old, size);
}

void *aligned_alloc(size_t align, size_t size) {
    if (refused()) { errno = ENOMEM; return NULL; }
    return __libc_memalign(align, size);
}

int posix_memalign(void **to, size_t align, size_t size) {
    if (refused()) return ENOMEM;
    void *got = __libc_memalign(align, size);
    if (!got) return ENOMEM;
    *to = got;
    return 0;
}

int pthread_create(pthread_t *thread, const pthread_attr_t *attr, void *(*begin)(void *), void *with) {
    static int (*real)(pthread_t *, const pthread_attr_t *, void *(*)(void *), void *);
    if (!real) real = (int (*)(pthread_t *, const pthread_attr_t *, void *(*)(void *), void *))dlsym(RTLD_NEXT, "pthread_create");
    if (no_threads && atomic_fetch_add(&threads, 1) + 1 >= no_threads) return EAGAIN;
    return real(thread, attr, begin, with);
}

ssize_t write(int file, const void *from_here, size_t length) {
    return syscall(SYS_write, file, from_here, small_writes && length > 1 ? 1 : length);
}
"""


class Shim:
    """The library, compiled where there is a compiler."""

    def __init__(self):
        self.folder = tempfile.TemporaryDirectory()
        self.path = os.path.join(self.folder.name, "refuse.so")
        text = os.path.join(self.folder.name, "refuse.c")
        with open(text, "w", encoding="ascii") as file:
            file.write(TEXT)
        compiler = shutil.which("cc") or shutil.which("clang")
        done = compiler and subprocess.run([compiler, "-shared", "-fPIC", "-O1", "-o", self.path, text, "-ldl", "-pthread"], stderr=subprocess.DEVNULL, check=False)
        self.there = bool(done) and done.returncode == 0

    def env(self, **asks):
        return {**os.environ, "LD_PRELOAD": self.path, **{name: str(value) for name, value in asks.items()}}

    def refuses(self, run, **asks):
        """A run to which this is refused, and whether it asked for so much memory."""
        told = os.path.join(self.folder.name, "refused")
        if os.path.exists(told):
            os.remove(told)
        return run(self.env(REFUSED=told, **asks)), os.path.exists(told)
