/* Tests that a program's first call to a pthread function does not deadlock with dlopen. A thread that holds a mutex
 * makes the program's first call to some other pthread function, while a second thread is in dlopen, where a
 * constructor waits for the mutex. The program also tests that such a call does not change the result of dlerror. `make
 * check` runs this program both alone and with the preload library (../preload/preload.c). The plugin that the second
 * thread opens is also compiled from this file. Prints only errors. */
#define _GNU_SOURCE
#include <dlfcn.h>
#include <pthread.h>
#include <stdatomic.h>
#include <stdio.h>
#include <stdlib.h>
#include <string.h>
#include <unistd.h>

#include "want.h"

void in_constructor(void);

#ifdef PLUGIN
__attribute__((constructor)) static void begin(void) { in_constructor(); }
#else
static pthread_mutex_t mutex = PTHREAD_MUTEX_INITIALIZER, recursive = PTHREAD_RECURSIVE_MUTEX_INITIALIZER_NP, made;
static pthread_cond_t news = PTHREAD_COND_INITIALIZER;
static atomic_int is_taken, is_wanted;

void in_constructor(void) {
    is_wanted = 1;
    pthread_mutex_lock(&mutex);
    pthread_mutex_unlock(&mutex);
}

static void calls_first(const char *what) {
    if (!strcmp(what, "signal")) pthread_cond_signal(&news);
    if (!strcmp(what, "init")) pthread_mutex_init(&made, NULL);
    if (!strcmp(what, "recursive")) pthread_mutex_lock(&recursive), pthread_mutex_unlock(&recursive);
}

static void *has_the_mutex(void *what) {
    pthread_mutex_lock(&mutex);
    is_taken = 1;
    while (!is_wanted) usleep(100);
    usleep(20000); /* meanwhile the other thread sleeps */
    calls_first(what);
    pthread_mutex_unlock(&mutex);
    return NULL;
}

/* Takes the call to be made first as its argument. */
int main(int argc, char **argv) {
    char plugin[4096];
    pthread_t id;
    alarm(60);
    WANT(argc, 2);
    snprintf(plugin, sizeof plugin, "%s.so", argv[0]);
    if (!strcmp(argv[1], "error")) {
        WANT(dlopen("/no/such.so", RTLD_NOW) == NULL, 1);
        pthread_cond_signal(&news);
        WANT(dlerror() != NULL, 1);
        return 0;
    }
    WANT(pthread_create(&id, NULL, has_the_mutex, argv[1]), 0);
    while (!is_taken) usleep(100);
    WANT(dlopen(plugin, RTLD_NOW) != NULL, 1);
    pthread_join(id, NULL);
    return 0;
}
#endif
