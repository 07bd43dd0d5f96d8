/* A preload library that makes one call of a program fail. The environment variable REFUSE names the kind and the
 * number of this call, for example memory:3, thread:1, read:2 or write:5. If the variable SHORT is set, each read and
 * write of several bytes transfers only one byte. If the variable INTERRUPT is set, each read and write is interrupted
 * once before it succeeds.
 *
 * If a call was made to fail, the library writes a byte to the file descriptor REFUSE_TELL. When the program ends, the
 * library writes the total number of bytes of memory that the program requested to TAKEN_TELL. ROOM is the number of
 * kilobytes of address space that the program may use beyond what it has when it starts. A stack of a megabyte is not
 * counted, because a stack that cannot grow ends any program with a signal. The library needs Linux with glibc. */
#define _GNU_SOURCE
#include <dlfcn.h>
#include <errno.h>
#include <fcntl.h>
#include <pthread.h>
#include <stdatomic.h>
#include <stdio.h>
#include <stdlib.h>
#include <string.h>
#include <sys/resource.h>
#include <sys/syscall.h>
#include <unistd.h>

extern void *__libc_malloc(size_t size);
extern void *__libc_calloc(size_t count, size_t size);
extern void *__libc_realloc(void *block, size_t size);
extern void *__libc_memalign(size_t align, size_t size);

enum kind { NONE, MEMORY, THREAD, READ, WRITE };

static enum kind kind = NONE;
static long at = 0;
static atomic_long calls = 0;
static int tell = -1;
static int is_short = 0;
static int interrupts = 0;
static atomic_ulong taken = 0;

/* Has the stack grow to a megabyte, of which no page is given back. */
static __attribute__((noinline)) void grow_stack(void) {
    volatile char pages[1 << 20];
    for (size_t at = sizeof pages; at > 0; at -= 4096) {
        pages[at - 1] = 0;
    }
}

/* Limits the address space to what the process has, and these kilobytes more. */
static void limit_to(unsigned long kilobytes) {
    char text[32] = "";
    int file = open("/proc/self/statm", O_RDONLY);
    if (file < 0 || syscall(SYS_read, file, text, sizeof text - 1) <= 0) {
        abort();
    }
    close(file);
    rlim_t room = strtoul(text, NULL, 10) * sysconf(_SC_PAGESIZE) + (kilobytes << 10);
    setrlimit(RLIMIT_AS, &(struct rlimit){room, room});
}

__attribute__((constructor)) static void set_up(void) {
    static const char *const names[] = {"", "memory:", "thread:", "read:", "write:"};
    const char *told = getenv("REFUSE_TELL");
    tell = told ? atoi(told) : -1;
    is_short = getenv("SHORT") != NULL;
    interrupts = getenv("INTERRUPT") != NULL;
    const char *what = getenv("REFUSE");
    for (int k = MEMORY; what && k <= WRITE; k++) {
        size_t length = strlen(names[k]);
        if (strncmp(what, names[k], length) == 0) {
            at = atol(what + length);
            kind = (enum kind)k;
        }
    }
    if (getenv("ROOM")) {
        grow_stack();
        limit_to(strtoul(getenv("ROOM"), NULL, 10));
    }
}

static int is_refused(enum kind of) {
    if (of != kind || atomic_fetch_add(&calls, 1) + 1 != at) {
        return 0;
    }
    syscall(SYS_write, tell, "x", 1);
    return 1;
}

/* Ends the program. */
void _exit(int status) {
    const char *told = getenv("TAKEN_TELL");
    if (told) {
        dprintf(atoi(told), "%lu", atomic_load(&taken));
    }
    for (;;) {
        syscall(SYS_exit_group, status);
    }
}

static void *no_memory(void) {
    errno = ENOMEM;
    return NULL;
}

static int is_taken(size_t size) {
    atomic_fetch_add(&taken, size);
    return !is_refused(MEMORY);
}

void *malloc(size_t size) { return is_taken(size) ? __libc_malloc(size) : no_memory(); }

void *calloc(size_t count, size_t size) { return is_taken(count * size) ? __libc_calloc(count, size) : no_memory(); }

void *realloc(void *block, size_t size) { return is_taken(size) ? __libc_realloc(block, size) : no_memory(); }

void *aligned_alloc(size_t align, size_t size) { return is_taken(size) ? __libc_memalign(align, size) : no_memory(); }

int posix_memalign(void **block, size_t align, size_t size) {
    *block = is_taken(size) ? __libc_memalign(align, size) : NULL;
    return *block ? 0 : ENOMEM;
}

int pthread_create(pthread_t *thread, const pthread_attr_t *attributes, void *(*body)(void *), void *argument) {
    if (is_refused(THREAD)) {
        return EAGAIN;
    }
    int (*create)(pthread_t *, const pthread_attr_t *, void *(*)(void *), void *) = dlsym(RTLD_NEXT, "pthread_create");
    return create(thread, attributes, body, argument);
}

static int is_interrupted(void) {
    static int was = 0;
    was = interrupts && !was;
    return was;
}

static ssize_t moved(enum kind of, long call, int file, void *bytes, size_t size) {
    if (is_interrupted()) {
        errno = EINTR;
        return -1;
    }
    if (is_refused(of)) {
        errno = EIO;
        return -1;
    }
    return syscall(call, file, bytes, is_short && size > 1 ? 1 : size);
}

ssize_t read(int file, void *bytes, size_t size) { return moved(READ, SYS_read, file, bytes, size); }

/* What the program writes to standard error is left alone. */
ssize_t write(int file, const void *bytes, size_t size) {
    return file == 2 ? syscall(SYS_write, file, bytes, size) : moved(WRITE, SYS_write, file, (void *)bytes, size);
}

ssize_t __write(int file, const void *bytes, size_t size) { return write(file, bytes, size); }
