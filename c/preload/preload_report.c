/* Counts how a process uses its mutexes, for tools and tests. Only the library that `make -C c preload-report` builds
 * contains this file.
 *
 * With QOLB_REPORT=/FOLDER/FILE, each process of the program appends a line to this file when it ends by exit. A
 * process that ends by _exit, quick_exit, exec or a signal appends nothing. The line contains:
 *
 * - the barging limit;
 * - how many mutexes were replaced in total, and the largest number at one time;
 * - how often a mutex was acquired, how often a call timed out, and how often pthread_mutex_trylock found a mutex
 *   taken;
 * - how often two threads held one mutex at the same time, which must be 0.
 *
 * The child of a fork starts to count from 0. */
#define _GNU_SOURCE
#ifndef QOLB_REPORT
#define QOLB_REPORT
#endif
#include "preload.h"
#include <fcntl.h>
#include <stdio.h>
#include <stdlib.h>
#include <string.h>
#include <unistd.h>

static struct {
    uint32_t barging;
    char file[4096]; /* if it is empty, nothing is counted */
} settings;

static atomic_ullong mutexes, grants, timed_out, not_free, violations;
static atomic_llong at_once, most_at_once;

/* Copies the name, because a program may write its title over its environment. */
void qolb_choose_report_(uint32_t barging) {
    const char *name = getenv("QOLB_REPORT");
    settings.barging = barging;
    if (!name) return;
    if (strlen(name) >= sizeof settings.file) qolb_refuse_("QOLB_REPORT", name, "a name of less than 4,096 bytes");
    strcpy(settings.file, name);
}

void qolb_count_(struct line *line, uint32_t got) {
    if (!settings.file[0]) return;
    if (got == QOLB_BUSY) not_free++;
    if (got == QOLB_TIMEDOUT) timed_out++;
    if (got != QOLB_GRANTED) return;
    grants++;
    if (atomic_fetch_add(&line->inside, 1) != 0) violations++;
}

/* A thread may leave a mutex that nobody holds, or one that was entered before the settings were read. Neither was
 * counted. */
void qolb_count_leaving_(struct line *line) {
    if (settings.file[0] && atomic_load(&line->inside) > 0) atomic_fetch_sub(&line->inside, 1);
}

void qolb_count_held_(struct line *line, int held) { atomic_store(&line->inside, held); }

void qolb_count_mutex_(void) {
    long long now = ++at_once, most = most_at_once;
    mutexes++;
    while (now > most && !atomic_compare_exchange_weak(&most_at_once, &most, now)) continue;
}

void qolb_count_destroyed_(void) { at_once--; }

void qolb_count_anew_(void) {
    mutexes = grants = timed_out = not_free = violations = 0;
    at_once = most_at_once = 0;
}

/* It allocates nothing, because it may run while the program itself ends. */
__attribute__((destructor)) static void report(void) {
    char text[200];
    qolb_process_();
    int file = settings.file[0] ? open(settings.file, O_WRONLY | O_APPEND | O_CREAT | O_CLOEXEC, 0666) : -1;
    if (file < 0) return;
    int size = snprintf(
        text, sizeof text,
        "barging %u mutexes %llu at once %lld grants %llu timed out %llu not free %llu violations %llu\n",
        settings.barging, mutexes, most_at_once, grants, timed_out, not_free, violations);
    if (write(file, text, (size_t)size) != size) perror(settings.file);
    close(file);
}
