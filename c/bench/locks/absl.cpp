/* Abseil's mutex, for peers.c. The deadlock detector of the mutex is turned off: Debian's build contains the detector,
 * and an optimised build does not. */
#include "lock.h"
#include <absl/synchronization/mutex.h>
#include <new>

static void open(void *lock, void *const *, int) {
    absl::SetMutexDeadlockDetectionMode(absl::OnDeadlockCycle::kIgnore);
    new (lock) absl::Mutex;
}

static void enter(void *lock, void *) { static_cast<absl::Mutex *>(lock)->Lock(); }
static void leave(void *lock, void *) { static_cast<absl::Mutex *>(lock)->Unlock(); }
static void close(void *lock, void *const *, int) { static_cast<absl::Mutex *>(lock)->~Mutex(); }

const lock_type absl_locks[] = {{"absl::Mutex", open, enter, leave, nullptr, close}, {}};
