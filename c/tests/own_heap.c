/* Tests a program whose malloc enters a lock, even when the C library itself calls malloc. Therefore the program's
 * first call on a lock may happen inside pthread_atfork. A thread's first call on a lock may happen inside
 * pthread_setspecific, or in a free after the thread's last destructor. A thread's first call on a lock must allocate
 * no memory. Prints only errors. */
#include <qolb.h>
#include <pthread.h>
#include <stdio.h>
#include <stdlib.h>
#include <unistd.h>

#include "want.h"

/* In glibc a key beyond the first 32 allocates memory in each thread, and so does the 49th fork handler. */
enum { MANY_KEYS = 40, MANY_HANDLERS = 48 };

static qolb_lock heap = QOLB_LOCK_INIT;
static int is_used;        /* once it is set, malloc and free enter the lock */
static __thread int taken; /* the number of blocks that this thread allocated */

void *__libc_malloc(size_t size);
void *__libc_calloc(size_t many, size_t size);
void *__libc_realloc(void *block, size_t size);
void __libc_free(void *block);

static void enters(void) {
    if (is_used && qolb_lock_enter(&heap) != QOLB_GRANTED) _exit(3);
}

static void leaves(void) {
    if (is_used && qolb_lock_leave(&heap) != QOLB_DONE) _exit(4);
}

void *malloc(size_t size) {
    enters();
    taken++;
    void *block = __libc_malloc(size);
    leaves();
    return block;
}

void *calloc(size_t many, size_t size) {
    enters();
    taken++;
    void *block = __libc_calloc(many, size);
    leaves();
    return block;
}

void *realloc(void *block, size_t size) {
    enters();
    taken++;
    block = __libc_realloc(block, size);
    leaves();
    return block;
}

void free(void *block) {
    enters();
    __libc_free(block);
    leaves();
}

static void does_nothing(void) {}

static pthread_key_t last;

static void *takes_memory(void *unused) {
    MUST(pthread_setspecific(last, &last), 0);
    for (int k = 0; k < 100; k++) free(malloc(100));
    return unused;
}

static void *takes_none(void *unused) {
    static qolb_lock lock = QOLB_LOCK_INIT;
    int before = taken;
    MUST(qolb_lock_enter(&lock), QOLB_GRANTED);
    MUST(qolb_lock_leave(&lock), QOLB_DONE);
    MUST(taken, before);
    return unused;
}

/* This thread uses a lock only after its last destructor, if the C library frees memory there. */
static void *does_not_use_it(void *unused) { return unused; }

static int in_a_thread(void *(*does)(void *)) {
    pthread_t id;
    WANT(pthread_create(&id, NULL, does, NULL), 0);
    return pthread_join(id, NULL);
}

int main(void) {
    alarm(60);
    is_used = 1;
    for (int k = 0; k <= MANY_HANDLERS; k++) WANT(pthread_atfork(does_nothing, does_nothing, does_nothing), 0);
    WANT(taken > 0, 1);
    for (int k = 0; k < MANY_KEYS; k++) WANT(pthread_key_create(&last, NULL), 0);
    return in_a_thread(takes_memory) || in_a_thread(takes_none) || in_a_thread(does_not_use_it);
}
