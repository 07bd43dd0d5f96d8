/* Declarations that the model checker (explorer.c) and its scenes share: scenes, clocks, and the functions by which a
 * scene takes steps and checks results. */
#include <stddef.h>
#include <stdint.h>
#include <string.h>

enum { THREADS = 3, MS = 1000000 };
enum { PLAIN_READ, PLAIN_WRITE, READ, WRITE };

/* How far each thread was when it was last heard of. Thread THREADS starts the others and joins them. */
struct clock {
    unsigned at[THREADS + 1];
};

#ifdef OF_LOCKS
/* What these threads do at the same time, each by its number, over a lock with this barging limit, which is opened
 * before or at its first use. A request can be withdrawn with at most `near` rounds to go, `sleepers` threads may
 * announce a sleep at one cell, and with fewer rounds to go than `open` a call with a timeout draws a ticket. There may
 * be no memory for an entry of a ticket for which no thread waits. */
struct scene {
    const char *name;
    void (*does)(int self);
    int threads;
    unsigned barging;
    int at_first_use;
    unsigned near, sleepers, open;
    int no_memory;
};

/* Each thread's data have a place of their own (lock_scenes.c). */
struct own_data {
    char none;
};

#else
/* What these threads do at the same time, each by its number, with a node each of a line of this kind. There may be a
 * second line, of two nodes. */
struct scene {
    const char *name;
    void (*does)(int self);
    uint32_t kind;
    int threads, two_lines;
};

/* The data of a thread in the library's files, which is in one place here: none. */
struct own_data {
    char none;
};
#endif

/* In lock_scenes.c or node_scenes.c: all scenes, and a last one without a name. */
extern const struct scene scenes[];
void set_up(const struct scene *scene);
void check_end(const struct scene *scene);
void change_thread(struct own_data *from, const struct own_data *to);
int is_own(uintptr_t at);

/* In explorer.c: ends the program if it is not so. */
void must(int is_so, const char *what);
#define MUST(it) must(it, #it)
void __tsan_write_range(void *at, size_t size);
void *model_malloc(size_t size);
void model_free(void *block);
int was_freed(const void *block);

/* From now on each look of this thread at the clock adds this to it. */
void time_goes_on(uint64_t by);
/* The time is over of all that sleep for a time: how many. */
int times_out(void);

/* For proved_line.c: another thread may be next; an access, which must follow all that it races with; all stores of
 * this thread are seen; what happened before, as a call takes it over or hands it on. */
void step(int yields);
void touch(const volatile void *where, unsigned size, int how);
void show_all(void);
void acquires(const struct clock *clock);
void releases(struct clock *clock);
int self_number(void);
