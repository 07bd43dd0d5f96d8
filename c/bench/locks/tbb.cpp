/* oneTBB's fair mutex, for peers.c. This mutex is a queue lock, and its waiters yield the processor. */
#include "lock.h"
#include <new>
#include <oneapi/tbb/queuing_mutex.h>

using held = tbb::queuing_mutex::scoped_lock;

static_assert(sizeof(held) <= OWN_BYTES, "a thread's part has room");

static void open(void *lock, void *const *own, int threads) {
    new (lock) tbb::queuing_mutex;
    for (int k = 0; k < threads; k++) new (own[k]) held;
}

static void enter(void *lock, void *own) {
    static_cast<held *>(own)->acquire(*static_cast<tbb::queuing_mutex *>(lock));
}

static void leave(void *, void *own) { static_cast<held *>(own)->release(); }

const lock_type tbb_locks[] = {{"tbb::queuing_mutex", open, enter, leave, nullptr, nullptr}, {}};
