/* Static probes (USDT), with which bpftrace, perf and gdb can observe threads that wait. calls.c and lock/enter.c
 * contain these probes.
 *
 * The provider of the probes is qolb. A thread that begins to wait for its turn passes `wait`, and each time that it
 * sleeps during this wait it passes `sleep` and `wake`. When the wait ends, the thread passes `granted`, `withdrawn`
 * (it timed out, even if it then learns that the lock is shut) or `closed`. The arguments of a probe are the line's
 * label, the number of the node (0 while the thread has none), and a number that distinguishes lines with the same
 * label. A call that does not wait passes no probe. While no tracer is attached, a probe is an instruction that does
 * nothing.
 *
 * The library contains the probes if <sys/sdt.h> (Debian's systemtap-sdt-dev) is installed when it is built, and
 * -DQOLB_NO_PROBES is not given. */
#ifndef QOLB_PROBES_H
#define QOLB_PROBES_H

#include <stdint.h>

#if defined(__has_include) && !defined(QOLB_NO_PROBES)
#if __has_include(<sys/sdt.h>)
#include <sys/sdt.h>
#endif
#endif

/* The arguments of a probe. */
struct probed {
    uint64_t label, number, line;
};

/* Passes a probe. The number is put into a register, because perf refuses a probe that has a constant at one place and
 * a register at another. */
#ifdef DTRACE_PROBE3
#define PROBE(name, of)                                             \
    do {                                                            \
        struct probed it_ = (of);                                   \
        __asm__("" : "+r"(it_.number));                             \
        DTRACE_PROBE3(qolb, name, it_.label, it_.number, it_.line); \
    } while (0)
#else
#define PROBE(name, of) (0 ? (void)(of) : (void)0) /* never evaluates `of`, but uses what `of` names */
#endif

/* Passes the probe of the end of a wait. */
#define PROBE_END(got, of)                                     \
    do {                                                       \
        if ((got) == QOLB_GRANTED) PROBE(granted, of);         \
        else if ((got) == QOLB_TIMEDOUT) PROBE(withdrawn, of); \
        else PROBE(closed, of);                                \
    } while (0)

#endif
