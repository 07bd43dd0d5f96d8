/* The mutex of the C++ standard library, for peers.c. */
#include "lock.h"
#include <mutex>
#include <new>

static void open(void *lock, void *const *, int) { new (lock) std::mutex; }
static void enter(void *lock, void *) { static_cast<std::mutex *>(lock)->lock(); }
static void leave(void *lock, void *) { static_cast<std::mutex *>(lock)->unlock(); }
static void close(void *lock, void *const *, int) { static_cast<std::mutex *>(lock)->~mutex(); }

const lock_type std_locks[] = {{"std::mutex", open, enter, leave, nullptr, close}, {}};
