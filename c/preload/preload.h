/* Declarations that the files of the preload library share. preload_memory.c implements the memory of the library, the
 * tables that map addresses to locks, and the number of the process; preload.c uses them. preload_report.c adds
 * counters. */
#ifndef QOLB_PRELOAD_H
#define QOLB_PRELOAD_H

#include "lock/lock.h"

/* ---- Processes ----
 *
 * A fork copies the locks, but not the threads that were in them. Therefore the number of the process, the guards and
 * the free memory are in memory that the kernel clears in the child (MADV_WIPEONFORK). In the child they are as at the
 * start, whatever the parent's threads were doing. */
enum { MUTEXES, CONDITIONS, TABLES, STRIPES = 32, UNIT = 16, CLASSES = 4096, MOST_BYTES = UNIT * (CLASSES - 1) };

struct stripe {
    _Alignas(APART) atomic_uint guard;
};

struct cleared {
    _Alignas(4096) _Atomic uint64_t process;
    atomic_uint drawing;
    _Alignas(APART) atomic_uint guard; /* protects what is below */
    char *at, *end;                    /* the free memory of the latest map */
    size_t maps;
    struct line *spare;        /* the locks of destroyed mutexes */
    void *given_back[CLASSES]; /* blocks, by size */
    struct stripe stripe[TABLES][STRIPES];
};

extern HIDDEN struct cleared qolb_cleared_;

/* Returns the number of this process, which is not 0. No other process that has this one's memory has the same number.
 */
HIDDEN uint64_t qolb_process_(void);

/* Reads the environment. It is called before any lock is opened. */
HIDDEN void qolb_begin_(void);

/* Ends the program because a variable of the environment has a wrong value. */
HIDDEN void qolb_refuse_(const char *name, const char *value, const char *wanted);

/* ---- Tables ---- */

/* The lock of a mutex. It is never destroyed, and serves another mutex once its own is destroyed. Therefore a thread
 * that is still in a call on it does no harm. */
struct line {
    qolb_lock lock;
    struct line *next;      /* the next of the lines that serve no mutex */
    atomic_int inside;      /* the number of threads that hold it, if they are counted (preload_report.c) */
    atomic_int waiting;     /* the number of threads that left it to wait at a condition */
    struct turn at;         /* the holder's turn, which is here because any thread may unlock */
    _Atomic uint64_t owner; /* the number of the holding thread, or 0 */
    _Atomic uint64_t guess; /* a guess of the lock word */
};

/* What is kept for an address. An entry stays in its tree, and may be used for another address once its own is removed.
 */
struct entry {
    const void *address; /* NULL if it has none */
    struct entry *child[4];
    uint64_t process; /* the process in which the fields below were written */
    struct line *line;
    qolb_cond cond;
};

/* Takes the guard under which the entry of this address is found. return_guard() returns it. */
HIDDEN atomic_uint *qolb_guard_table_(int table, const void *address);
/* Returns the entry of the address, or NULL. */
HIDDEN struct entry *qolb_find_(int table, const void *address);
/* Makes an entry for an address that has none, with process 0. Returns NULL if there is no memory. */
HIDDEN struct entry *qolb_add_(int table, const void *address);
/* Calls `call` with each entry that has an address. */
HIDDEN void qolb_for_each_(int table, void (*call)(struct entry *));

/* ---- Memory ---- */

/* Allocates a block from the process's own maps, at a multiple of 16 bytes, or returns NULL. */
HIDDEN void *qolb_take_memory_(size_t size);

/* Take a lock that served a mutex before, or return NULL; and give such a lock back. */
HIDDEN struct line *qolb_take_spare_(void);
HIDDEN void qolb_give_spare_(struct line *line);

/* ---- Counters (preload_report.c), which only `make preload-report` compiles in ---- */

#ifdef QOLB_REPORT
/* Reads the environment. */
HIDDEN void qolb_choose_report_(uint32_t barging);
/* Count the result of a call that enters, and that a thread leaves. */
HIDDEN void qolb_count_(struct line *line, uint32_t got);
HIDDEN void qolb_count_leaving_(struct line *line);
/* Count that a line begins to serve a mutex, which is held or not; that a mutex got a line; that a mutex was destroyed.
 */
HIDDEN void qolb_count_held_(struct line *line, int held);
HIDDEN void qolb_count_mutex_(void);
HIDDEN void qolb_count_destroyed_(void);
/* Sets all counters to 0. The child of a fork calls it before it uses a lock. */
HIDDEN void qolb_count_anew_(void);
#else
#define qolb_choose_report_(barging) ((void)0)
#define qolb_count_(line, got) ((void)(line), (void)(got))
#define qolb_count_leaving_(line) ((void)0)
#define qolb_count_held_(line, held) ((void)0)
#define qolb_count_mutex_() ((void)0)
#define qolb_count_destroyed_() ((void)0)
#define qolb_count_anew_() ((void)0)
#endif

#endif
