/* Makes the runs of scenes on a model of the processor's memory. ../explore_nodes.py describes the model; it builds and
 * starts this program, and so does ../explore_lock.py. Each run starts from the beginning and follows a list of
 * choices. Only a limited number of these choices may differ from the plain schedule. */
#define _GNU_SOURCE
#include "explorer.h"
#include <qolb.h>
#include <stdarg.h>
#include <stdio.h>
#include <stdlib.h>
#include <sys/syscall.h>
#include <time.h>
#include <ucontext.h>

/* A store that the other threads do not see yet. */
struct late {
    uintptr_t at;
    unsigned size;
    uint64_t value;
    struct clock clock;
    int releases;
};

static struct thread {
    ucontext_t context;
    struct own_data own;
    void *in_call;
    enum { ENDED, RUNS, SLEEPS } state;
    uintptr_t word;
    uint32_t classes; /* of those at the word */
    int times_out, lates;
    uint64_t now, goes_on;
    struct clock clock;
    struct late late[32]; /* oldest first */
    char stack[1 << 16];
} threads[THREADS + 1];

static ucontext_t scheduler;
static const struct scene *scene;
static int self_, most, depth, planned;
static long runs;
static struct { unsigned char taken, options, free; } path[1 << 14];

static struct thread *me(void) { return &threads[self_]; }

int self_number(void) { return self_; }

void **model_in_call(void) { return &me()->in_call; }

void must(int is_so, const char *what) {
    if (is_so) return;
    printf("%s: thread %d: %s\n", scene->name, self_, what);
    exit(1);
}

/* Chooses one of `options`. The first `free` cost nothing; any other is a turn of the schedule, of which a run has at
 * most `most`. */
static int choose(int options, int free) {
    MUST(depth < 1 << 14);
    if (depth >= planned)
        path[depth].taken = 0, path[depth].options = (unsigned char)options, path[depth].free = (unsigned char)free;
    return path[depth++].taken;
}

/* Goes on to the next list of choices; returns false after the last. */
static int next_path(void) {
    for (planned = depth; planned > 0; planned--) {
        int spent = 0, k = planned - 1;
        for (int j = 0; j < k; j++) spent += path[j].taken >= path[j].free;
        if (path[k].taken + 1 < path[k].options && spent + (path[k].taken + 1 >= path[k].free) <= most)
            return path[k].taken++, 1;
    }
    return 0;
}

static void go_to(int k) {
    int was = self_;
    if (k == was) return;
    self_ = k;
    change_thread(&threads[was].own, &threads[k].own);
    swapcontext(&threads[was].context, &threads[k].context);
}

/* ---- Memory ---- */

/* Four bytes: the last accesses of each thread, and what an acquiring load takes over; and whose access was the last,
 * of which kind. */
struct cell {
    uintptr_t at;
    long run;
    struct clock told, done[4];
    int last;
};
static struct cell cells[1 << 13];
static struct { uintptr_t from, to; } freed[64];
static int many_freed;
static _Alignas(128) char arena[1 << 16];
static size_t arena_used;

static struct cell *cell_of(uintptr_t at) {
    size_t k = at / 4 * 0x9e3779b97f4a7c15 >> 51;
    for (;; k = (k + 1) % (1 << 13)) {
        if (cells[k].run != runs) memset(&cells[k], 0, sizeof cells[k]), cells[k].run = runs, cells[k].at = at / 4;
        if (cells[k].at == at / 4) return &cells[k];
    }
}

static void join(struct clock *to, const struct clock *from) {
    for (int k = 0; k <= THREADS; k++)
        if (to->at[k] < from->at[k]) to->at[k] = from->at[k];
}

/* Whether another thread made such an access, of which this one has not heard. */
static int is_unheard(const struct clock *done) {
    int is = 0;
    for (int k = 0; k <= THREADS; k++) is |= (done->at[k] > me()->clock.at[k]) & (k != self_);
    return is;
}

/* An access, which must follow all accesses that it would race with. Behind one of the same thread and kind it does. */
void touch(const volatile void *where, unsigned size, int how) {
    static const int races[4][4] = {{0, 1, 0, 1}, {1, 1, 1, 1}, {0, 1, 0, 0}, {1, 1, 0, 0}};
    if (is_own((uintptr_t)where)) return;
    for (int k = 0; k < many_freed; k++)
        must((uintptr_t)where + size <= freed[k].from || (uintptr_t)where >= freed[k].to, "it was freed");
    for (uintptr_t at = (uintptr_t)where / 4 * 4; at < (uintptr_t)where + size; at += 4) {
        struct cell *cell = cell_of(at);
        int access = 1 + how + 4 * self_;
        for (int other = 0; other < 4 && cell->last != access; other++)
            must(!races[how][other] || !is_unheard(&cell->done[other]), "a race");
        cell->last = access;
        cell->done[how].at[self_] = me()->clock.at[self_];
    }
}

static uint64_t get(uintptr_t at, unsigned size) { return size == 4 ? *(uint32_t *)at : *(uint64_t *)at; }

static void put_own(const struct late *it) {
    if (it->size == 4) *(uint32_t *)it->at = (uint32_t)it->value;
    else *(uint64_t *)it->at = it->value;
}

static void put(const struct late *it) {
    put_own(it);
    if (it->releases) cell_of(it->at)->told = it->clock;
    else memset(&cell_of(it->at)->told, 0, sizeof(struct clock));
}

static void show_oldest(struct thread *of) {
    put(&of->late[0]);
    memmove(&of->late[0], &of->late[1], sizeof of->late[0] * (size_t)--of->lates);
}

void show_all(void) {
    while (me()->lates) show_oldest(me());
}

/* Before each step on shared memory: another thread may be next, be told that its time is over, or have one of its
 * stores seen. A thread that yields lets the others go first; a thread that sleeps or has ended returns only if it is
 * woken. */
void step(int yields) {
    enum { GOES_ON, RUNS_NOW, STORE, TIME } what = STORE;
    while (what != GOES_ON && what != RUNS_NOW && self_ != THREADS) {
        unsigned char next[4 * THREADS];
        int many = 0, all = scene->threads, free = 1;
        if (me()->state == RUNS && !yields) next[many++] = GOES_ON;
        for (int k = self_ + 1; k < self_ + all; k++)
            if (threads[k % all].state == RUNS) next[many++] = (unsigned char)(RUNS_NOW + 4 * (k % all));
        if (me()->state == RUNS && yields) next[many++] = GOES_ON;
        if (me()->state != RUNS && many) free = many;
        for (int k = 0; k < all; k++)
            if (threads[k].lates) next[many++] = (unsigned char)(STORE + 4 * k);
        int so_far = many;
        for (int k = 0; k < all; k++)
            if (threads[k].state == SLEEPS && threads[k].times_out) next[many++] = (unsigned char)(TIME + 4 * k);
        if (so_far == 0) {
            for (int k = 0; k < all; k++) must(threads[k].state == ENDED, "a thread sleeps, and nobody wakes it");
            swapcontext(&me()->context, &scheduler);
        }
        int k = next[choose(many, free)], who = k / 4;
        what = k % 4;
        if (what == STORE) show_oldest(&threads[who]);
        if (what == TIME) threads[who].state = RUNS, threads[who].now += 10 * MS;
        if (what == RUNS_NOW) go_to(who);
    }
}

void acquires(const struct clock *clock) { join(&me()->clock, clock); }

/* All that was done until now happens before what acquires this. */
void releases(struct clock *clock) {
    join(clock, &me()->clock);
    me()->clock.at[self_]++;
}

/* A thread's own data are at one place for all threads, and of no interest to the others. */
static uint64_t load(const volatile void *where, unsigned size, int order) {
    uintptr_t at = (uintptr_t)where;
    if (is_own(at)) return get(at, size);
    step(0);
    touch(where, size, READ);
    for (int k = me()->lates - 1; k >= 0; k--)
        if (me()->late[k].at == at) return me()->late[k].value;
    if (order != __ATOMIC_RELAXED) acquires(&cell_of(at)->told);
    return get(at, size);
}

static void store(volatile void *where, unsigned size, uint64_t value, int order) {
    struct late made = {(uintptr_t)where, size, value, me()->clock, order != __ATOMIC_RELAXED};
    if (is_own(made.at)) return put_own(&made);
    step(0);
    touch(where, size, WRITE);
    me()->clock.at[self_]++;
    if (order == __ATOMIC_SEQ_CST || self_ == THREADS) {
        show_all();
        put(&made);
    } else {
        MUST(me()->lates < 32);
        me()->late[me()->lates++] = made;
        if (me()->lates == 1 && choose(2, 1) == 0) show_all();
    }
}

/* A read-modify-write step, which lets no load pass a store before it. */
enum change { ADDS, SETS, MARKS };
static uint64_t change(volatile void *where, unsigned size, enum change how, uint64_t value, const uint64_t *only) {
    uintptr_t at = (uintptr_t)where;
    step(0);
    show_all();
    uint64_t was = get(at, size);
    touch(where, size, only && was != *only ? READ : WRITE);
    struct clock *told = &cell_of(at)->told;
    acquires(told);
    if (only && was != *only) return was;
    releases(told);
    put(&(struct late){at, size, how == SETS ? value : how == MARKS ? was | value : was + value, *told, 1});
    return was;
}

#define OF_SIZE(bits, bytes)                                                                                          \
    uint##bits##_t __tsan_atomic##bits##_load(const volatile void *p, int o) {                                        \
        return (uint##bits##_t)load(p, bytes, o);                                                                     \
    }                                                                                                                 \
    void __tsan_atomic##bits##_store(volatile void *p, uint##bits##_t v, int o) { store(p, bytes, v, o); }            \
    uint##bits##_t __tsan_atomic##bits##_exchange(volatile void *p, uint##bits##_t v, int o) {                        \
        return (void)o, (uint##bits##_t)change(p, bytes, SETS, v, NULL);                                              \
    }                                                                                                                 \
    uint##bits##_t __tsan_atomic##bits##_fetch_add(volatile void *p, uint##bits##_t v, int o) {                       \
        return (void)o, (uint##bits##_t)change(p, bytes, ADDS, v, NULL);                                              \
    }                                                                                                                 \
    uint##bits##_t __tsan_atomic##bits##_fetch_sub(volatile void *p, uint##bits##_t v, int o) {                       \
        return (void)o, (uint##bits##_t)change(p, bytes, ADDS, -(uint64_t)v, NULL);                                   \
    }                                                                                                                 \
    uint##bits##_t __tsan_atomic##bits##_fetch_or(volatile void *p, uint##bits##_t v, int o) {                        \
        return (void)o, (uint##bits##_t)change(p, bytes, MARKS, v, NULL);                                             \
    }                                                                                                                 \
    int __tsan_atomic##bits##_compare_exchange_strong(volatile void *p, uint##bits##_t *was, uint##bits##_t v, int o, \
                                                      int failed) {                                                   \
        uint64_t only = *was, found = change(p, bytes, SETS, v, &only);                                               \
        return (void)o, (void)failed, *was = (uint##bits##_t)found, found == only;                                    \
    }                                                                                                                 \
    void __tsan_read##bytes(void *p) { touch(p, bytes, PLAIN_READ); }                                                 \
    void __tsan_write##bytes(void *p) { touch(p, bytes, PLAIN_WRITE); }
OF_SIZE(32, 4)
OF_SIZE(64, 8)
void __tsan_read1(void *p) { touch(p, 1, PLAIN_READ); }
void __tsan_write1(void *p) { touch(p, 1, PLAIN_WRITE); }
void __tsan_read16(void *p) { touch(p, 16, PLAIN_READ); }
void __tsan_write16(void *p) { touch(p, 16, PLAIN_WRITE); }
void __tsan_write_range(void *p, size_t size) { touch(p, (unsigned)size, PLAIN_WRITE); }
void __tsan_read_range(void *p, size_t size) { touch(p, (unsigned)size, PLAIN_READ); }
void __tsan_func_entry(void *p) { (void)p; }
void __tsan_func_exit(void) {}
void __tsan_init(void) {}

/* ---- The system calls of the lock ---- */

void *model_malloc(size_t size) {
    char *block = &arena[arena_used += 128];
    arena_used += (size + 127) / 128 * 128;
    MUST(arena_used < sizeof arena);
    ((size_t *)block)[-1] = size;
    return block;
}

void model_free(void *block) {
    size_t size = ((size_t *)block)[-1];
    touch(block, (unsigned)size, PLAIN_WRITE);
    MUST(many_freed < 64);
    freed[many_freed].from = (uintptr_t)block, freed[many_freed++].to = (uintptr_t)block + size;
}

int was_freed(const void *block) {
    int was = 0;
    for (int k = 0; k < many_freed; k++) was |= freed[k].from == (uintptr_t)block;
    return was;
}

int model_yield(void) { return step(1), 0; }

void time_goes_on(uint64_t by) { me()->goes_on = by; }

int times_out(void) {
    int many = 0;
    step(0);
    for (int k = 0; k < scene->threads; k++)
        if (threads[k].state == SLEEPS && threads[k].times_out)
            threads[k].state = RUNS, threads[k].now += 10 * MS, many++;
    return many;
}

int model_clock(int clock, struct timespec *out) {
    (void)clock;
    if (me()->goes_on) me()->now += me()->goes_on;
    else if (me()->now % MS == 0 && choose(2, 1)) me()->now += 10 * MS + 1;
    return *out = (struct timespec){0, (long)me()->now}, 0;
}

static void sleeps(uintptr_t word, uint32_t value, int times_out, uint32_t classes) {
    touch((void *)word, 4, READ);
    if (get(word, 4) != value) return;
    me()->state = SLEEPS, me()->word = word, me()->times_out = times_out, me()->classes = classes;
    step(1);
}

static void wakes(uintptr_t word, int many, uint32_t classes) {
    for (int k = 0; k < scene->threads && many > 0; k++)
        if (threads[k].state == SLEEPS && threads[k].word == word && threads[k].classes & classes)
            threads[k].state = RUNS, many--;
}

/* The system calls of a lock: sleeping for a while, in classes until a time, and waking. Each lets all stores before it
 * be seen. */
enum { WAITS = 128, WAITS_IN_CLASSES = 137, WAKES_CLASSES = 138 };
long model_syscall(long number, ...) {
    va_list rest;
    MUST(number == SYS_futex);
    va_start(rest, number);
    uintptr_t word = va_arg(rest, uintptr_t);
    int what = va_arg(rest, int);
    uint32_t value = va_arg(rest, uint32_t);
    step(0);
    show_all();
    const struct timespec *time = va_arg(rest, const struct timespec *);
    (void)va_arg(rest, void *);
    uint32_t classes = what == WAITS_IN_CLASSES || what == WAKES_CLASSES ? va_arg(rest, uint32_t) : UINT32_MAX;
    if (what == WAITS && time && time->tv_sec == 0 && time->tv_nsec < MS)
        step(1); /* a sleep from which no thread wakes it */
    else if (what == WAITS || what == WAITS_IN_CLASSES) sleeps(word, value, time != NULL, classes);
    else wakes(word, (int)value, classes);
#ifdef OF_LOCKS
    step(0); /* who is woken may be the next to go on */
#endif
    va_end(rest);
    return 0;
}

/* ---- Runs ---- */

static void body(int k) {
    scene->does(k);
    step(0);
    show_all();
    me()->state = ENDED;
    step(1);
}

static void run(void) {
    runs++, depth = 0, many_freed = 0, arena_used = 0, self_ = THREADS;
    memset(&threads[THREADS].clock, 0, sizeof(struct clock));
    threads[THREADS].clock.at[THREADS] = 1;
    set_up(scene);
    for (int k = 0; k < scene->threads; k++) {
        threads[k].own = (struct own_data){0}, threads[k].in_call = NULL, threads[k].state = RUNS, threads[k].now = 0,
        threads[k].goes_on = 0, threads[k].lates = 0;
        threads[k].clock = threads[THREADS].clock, threads[k].clock.at[k] = 1;
        getcontext(&threads[k].context);
        threads[k].context.uc_stack.ss_sp = threads[k].stack,
        threads[k].context.uc_stack.ss_size = sizeof threads[k].stack;
        makecontext(&threads[k].context, (void (*)(void))body, 1, k);
    }
    threads[THREADS].clock.at[THREADS]++;
    self_ = 0;
    swapcontext(&scheduler, &threads[0].context);
    self_ = THREADS;
    for (int k = 0; k < scene->threads; k++) acquires(&threads[k].clock);
    check_end(scene);
}

/* explorer MOST [BEGINNING [SECONDS]]: all scenes, or those whose names begin so, with runs of at most MOST turns of
 * the schedule, each for at most so long a time of the processor; it ends with 2 if one did not end by then. */
int main(int argc, char **argv) {
    int left = 0;
    long most_seconds = argc > 3 ? atol(argv[3]) : 0;
    most = argc > 1 ? atoi(argv[1]) : 2;
    for (scene = scenes; scene->name; scene++) {
        if (argc > 2 && strncmp(argv[2], scene->name, strlen(argv[2]))) continue;
        long before = runs;
        int more;
        clock_t since = clock();
        planned = 0;
        do run(), more = next_path();
        while (more && (runs % 1024 || !most_seconds || (clock() - since) / CLOCKS_PER_SEC < most_seconds));
        printf("%s: %ld runs%s\n", scene->name, runs - before, more ? ", not all" : "");
        fflush(stdout);
        left |= more;
    }
    return left ? 2 : 0;
}
