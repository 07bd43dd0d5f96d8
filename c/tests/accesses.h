/* Observes each access that a call makes to the words of one page of memory, and can make another call before each
 * access. The page is protected, so each access faults; the signal handler then lets the processor execute this access
 * as a single step. core_calls.c uses this header. It needs x86-64. */
#ifndef ACCESSES_H
#define ACCESSES_H
#define _GNU_SOURCE
#include <signal.h>
#include <stdbool.h>
#include <stddef.h>
#include <stdint.h>
#include <stdio.h>
#include <stdlib.h>
#include <string.h>
#include <sys/mman.h>
#include <ucontext.h>

enum { PAGE = 4096, MOST_ACCESSES = 256, TRAP_FLAG = 0x100, IS_WRITE = 2 };

static struct accesses {
    char *page; /* NULL if no page is watched */
    void (*before)(unsigned access);
    unsigned left_out, count; /* `left_out` is the number of a word whose accesses are not noted */
    struct access {
        unsigned word;
        bool writes;
    } of[MOST_ACCESSES];
} accesses;

static void protect_page(int how) {
    if (mprotect(accesses.page, PAGE, how)) abort();
}

static void on_access(int signal, siginfo_t *info, void *context) {
    ucontext_t *at = context;
    size_t offset = (size_t)((char *)info->si_addr - accesses.page);
    if (!accesses.page || offset >= PAGE || accesses.count == MOST_ACCESSES) {
        struct sigaction usual = {.sa_handler = SIG_DFL};
        sigaction(signal, &usual, NULL); /* the access faults again, and this ends the process */
        return;
    }
    protect_page(PROT_READ | PROT_WRITE);
    at->uc_mcontext.gregs[REG_EFL] |= TRAP_FLAG;
    unsigned word = (unsigned)(offset / sizeof(uint64_t));
    if (word == accesses.left_out) return;
    accesses.before(accesses.count);
    accesses.of[accesses.count++] = (struct access){word, at->uc_mcontext.gregs[REG_ERR] & IS_WRITE};
}

static void on_step(int signal, siginfo_t *info, void *context) {
    (void)signal, (void)info;
    ucontext_t *at = context;
    at->uc_mcontext.gregs[REG_EFL] &= ~(long long)TRAP_FLAG;
    protect_page(PROT_NONE);
}

/* Begins to watch a page. Until `watch_none`, each access to it is noted, and `before` is called before the access. */
static void watch_page(void *page, unsigned left_out, void (*before)(unsigned access)) {
    accesses.page = page, accesses.before = before;
    accesses.left_out = left_out, accesses.count = 0;
    protect_page(PROT_NONE);
}

static void watch_none(void) {
    protect_page(PROT_READ | PROT_WRITE);
    accesses.page = NULL;
}

static void begin_to_watch(void) {
    struct sigaction access = {.sa_sigaction = on_access, .sa_flags = SA_SIGINFO};
    struct sigaction step = {.sa_sigaction = on_step, .sa_flags = SA_SIGINFO};
    if (sigaction(SIGSEGV, &access, NULL) || sigaction(SIGTRAP, &step, NULL)) abort();
}
#endif
