// QOLB for C++14 and later: locks, which are strict or barging, and lines, which hand over 64 bytes. The manual pages
// qolb_lock(3), qolb_node(3) and qolb_task(3) say what each call returns, and what its callers must guarantee.
//
//     qolb::lock lock;                             // a timed mutex, for the guards of the standard library
//     qolb::lock often(qolb::barging{1024});       // arriving threads may overtake, a bounded number of times
//     qolb::Condition some;                        // is used like a std::condition_variable
//     std::unique_lock<qolb::lock> held(lock);     // throws Closed after a shut, Deadlock if the thread holds it
//     some.wait_for(held, std::chrono::milliseconds(1), [&] { return jobs > 0; });
//
//     qolb::guarded<Count> count;                  // a value that can only be used while its lock is held
//     count.with([](Count &it) { it.hits++; });
//
// A node is moved and never copied:
//
//     auto opened = qolb::Node::open(QOLB_DEFAULT, 1, 2, qolb_bytes{}); // first: QOLB_DONE; second: the nodes
//     qolb::Guard turn(opened.second[0]);
//     turn.set_lane(0, turn.lane(0) + 1);
//
// In C++20 a coroutine waits for a lock with co_await qolb::enter(lock, loop). The section Coroutines below explains
// this.
#ifndef QOLB_HPP
#define QOLB_HPP

#include "qolb.h"

#include <array>
#include <chrono>
#if defined(__cpp_impl_coroutine) && __cplusplus >= 202002L
#include <coroutine>
#endif
#include <condition_variable>
#include <cstdint>
#include <cstdlib>
#include <mutex>
#include <stdexcept>
#include <system_error>
#include <type_traits>
#include <utility>
#include <vector>

#if defined(__has_cpp_attribute)
#if __has_cpp_attribute(nodiscard) && __cplusplus >= 201703L
#define QOLB_NODISCARD [[nodiscard]]
#endif
#endif
#ifndef QOLB_NODISCARD
#define QOLB_NODISCARD QOLB_LOOK
#endif

// For the constructors of guards: a guard that is not named releases at once. Older compilers allow [[nodiscard]] only
// for functions and classes.
#if defined(__has_cpp_attribute)
#if __has_cpp_attribute(nodiscard) >= 201907L && __cplusplus >= 201703L
#define QOLB_NAMED_ [[nodiscard]]
#endif
#endif
#ifndef QOLB_NAMED_
#define QOLB_NAMED_
#endif

// Without exceptions, an error that would throw ends the program.
#if defined(__cpp_exceptions)
#define QOLB_THROW(what) throw what
#else
#define QOLB_THROW(what) std::abort()
#endif

// For Clang's -Wthread-safety: what a call acquires and releases. Clang does not analyse the bodies of these calls,
// because they call C.
//
// Clang checks that lock, try_lock, try_lock_for, try_lock_until and unlock of a Lock or a Node are paired, and that
// data with the attribute guarded_by is used only while the Lock or Node is held. It follows Guard and lock_guard, and
// learns from leave, shut, deqolb, Guard::release and Guard::shut that a Lock or a Node is no longer held.
//
// Clang does not know that enter, try_enter, enter_for, acquire, try_acquire, acquire_for and co_await acquire, because
// it follows no result other than a bool. Therefore leave, shut, deqolb and the adopting constructor of Guard are
// accepted even if Clang does not know that the Lock or Node is held. A call of a Guard that has released its line is
// not reported. The guards of libstdc++ are unknown to Clang, and std::lock_guard of libc++ is known only with
// -D_LIBCPP_ENABLE_THREAD_SAFETY_ANNOTATIONS. A function that uses guarded data under a std::unique_lock, for example
// to wait on a Condition, therefore needs the attribute no_thread_safety_analysis. So does a predicate that is a
// lambda, because Clang analyses a lambda as a function of its own.
#if defined(__clang__)
#define QOLB_CAPABILITY_ __attribute__((capability("lock")))
#define QOLB_SCOPED_ __attribute__((scoped_lockable))
#define QOLB_ACQUIRES_(...) __attribute__((acquire_capability(__VA_ARGS__), no_thread_safety_analysis))
#define QOLB_TRIES_ __attribute__((try_acquire_capability(true), no_thread_safety_analysis))
#define QOLB_ADOPTS_(...) __attribute__((requires_capability(__VA_ARGS__), no_thread_safety_analysis))
#define QOLB_ADOPTS_CHECKED_(...) \
    __attribute__((assert_capability(__VA_ARGS__), requires_capability(__VA_ARGS__), no_thread_safety_analysis))
#define QOLB_RELEASES_ __attribute__((release_capability(), no_thread_safety_analysis))
#define QOLB_LEAVES_ __attribute__((assert_capability(), release_capability(), no_thread_safety_analysis))
#define QOLB_UNCHECKED_ __attribute__((no_thread_safety_analysis))
#else
#define QOLB_CAPABILITY_
#define QOLB_SCOPED_
#define QOLB_ACQUIRES_(...)
#define QOLB_TRIES_
#define QOLB_ADOPTS_(...)
#define QOLB_ADOPTS_CHECKED_(...)
#define QOLB_RELEASES_
#define QOLB_LEAVES_
#define QOLB_UNCHECKED_
#endif

namespace qolb {

// The result of a call that requests a line and may wait. It does not convert to bool.
enum class Got {
    granted,   // the node holds the line
    closed,    // the line is closed
    busy,      // the line was not granted at once, or the node is busy (BUSY in qolb_node(3))
    timed_out, // the timeout of acquire_for expired
    misuse     // there is no node, or it has already requested the line; nothing changed
};

// Thrown by a call on a line that is closed, or on a lock that is shut.
class Closed : public std::runtime_error {
  public:
    Closed() : std::runtime_error("qolb: the line is closed, or the lock shut") {}
};

// Thrown by a call that the node or lock does not allow, for example a request by a node that has already requested the
// line, or a release by a node that does not hold it. Nothing has changed.
class Misuse : public std::logic_error {
  public:
    Misuse() : Misuse("qolb: the lock or node does not allow the call") {}

  protected:
    explicit Misuse(const char *what) : std::logic_error(what) {}
};

// Thrown if a thread enters a lock that it already holds, and still holds afterwards. It is not thrown if the lock is
// held by a task for which this thread works. Then the thread waits.
class Deadlock : public Misuse {
  public:
    Deadlock() : Misuse("qolb: the thread holds the lock") {}

    // Returns the code that an exception of std::unique_lock has.
    std::error_code code() const noexcept { return std::make_error_code(std::errc::resource_deadlock_would_occur); }
};

namespace detail {

// A time that keeps all 64 bits of any other duration and does not overflow. A 64-bit number of nanoseconds would
// overflow for the hours of the year 9999.
using Nanoseconds = std::chrono::duration<long double, std::nano>;

// Converts a time to whole nanoseconds. It rounds up, and returns UINT64_MAX for a longer time.
template <class Rep, class Period> std::uint64_t nanoseconds(const std::chrono::duration<Rep, Period> &time) {
    long double exact = Nanoseconds(time).count();
    if (!(exact > 0)) return 0;
    if (exact >= static_cast<long double>(UINT64_MAX)) return UINT64_MAX;
    auto count = static_cast<std::uint64_t>(exact);
    return static_cast<long double>(count) < exact ? count + 1 : count;
}

// Returns the time from now until `end`, which is negative if `end` has passed.
template <class Clock, class Duration> Nanoseconds left(const std::chrono::time_point<Clock, Duration> &end) {
    return Nanoseconds(end.time_since_epoch()) - Nanoseconds(Clock::now().time_since_epoch());
}

// Returns the point in time at which a time that begins now ends.
template <class Rep, class Period> auto end_of(const std::chrono::duration<Rep, Period> &time) {
    return std::chrono::time_point<std::chrono::steady_clock, Nanoseconds>(std::chrono::steady_clock::now()) +
           Nanoseconds(time);
}

// Tries to lock until `end`. It tries again if the clock was set back meanwhile.
template <class Lockable, class Clock, class Duration>
bool try_lock_until(Lockable &lock, const std::chrono::time_point<Clock, Duration> &end) {
    do {
        if (lock.try_lock_for(left(end))) return true;
    } while (left(end).count() > 0);
    return false;
}

} // namespace detail

// Returns the bytes of heap memory that an open line keeps, or 0 if Node::open refuses the kind or the number of nodes.
QOLB_NODISCARD inline std::uint64_t memory(qolb_kind kind, std::uint64_t nodes) { return qolb_memory(kind, nodes); }

// A node of a line, or no node. A Node that is destroyed withdraws its request, or releases the line if it holds it.
//
// std::unique_lock, std::lock_guard and std::scoped_lock can use a Node as a timed lock. Only one thread at a time may
// call a Node. The calls that have the name of a call of qolb.h return the same results (qolb_node(3)).
class QOLB_CAPABILITY_ Node {
  public:
    Node() = default;
    Node(const Node &) = delete;
    Node &operator=(const Node &) = delete;
    Node(Node &&other) noexcept : node_(qolb_move(&other.node_)) {}

    Node &operator=(Node &&other) noexcept {
        if (this != &other) {
            let_go();
            node_ = qolb_move(&other.node_);
        }
        return *this;
    }

    ~Node() { let_go(); }

    // Requests the line, and does not wait.
    QOLB_NODISCARD qolb_result enqolb() { return qolb_enqolb(&node_); }
    // Polls whether the node is busy, and makes no request (qolb_settle_node).
    QOLB_NODISCARD qolb_result settle() { return qolb_settle_node(&node_); }
    // Polls once whether the request is at its turn.
    QOLB_NODISCARD qolb_result poll() { return qolb_poll(&node_); }
    // Polls at most `polls` times, with a short pause between two polls.
    QOLB_NODISCARD qolb_result spin(std::uint64_t polls) { return qolb_spin(&node_, polls); }
    // Withdraws the request, unless it is at its turn.
    QOLB_NODISCARD qolb_result withdraw() { return qolb_withdraw(&node_); }
    // Make the two halves of a request for a link line.
    QOLB_NODISCARD qolb_result prepend() { return qolb_prepend(&node_); }
    QOLB_NODISCARD qolb_result link() { return qolb_link(&node_); }
    // Request a notification, which is made when the request is at its turn (qolb_task(3)): a call of `call(arg)`, or
    // the addition of 1 to an eventfd. notify_off takes it back.
    QOLB_NODISCARD qolb_result notify(void (*call)(void *arg), void *arg) { return qolb_notify(&node_, call, arg); }
    QOLB_NODISCARD qolb_result notify_fd(int fd) { return qolb_notify_fd(&node_, fd); }
    qolb_result notify_off() { return qolb_notify_off(&node_); }
    // Returns the handle, for the calls of qolb.h.
    qolb_node *native_handle() { return &node_; }
    // Read and write the line, which the node must hold.
    qolb_result read(qolb_bytes &out) { return qolb_read(&node_, &out); }
    qolb_result write(std::uint64_t mask, const qolb_bytes &bytes) { return qolb_write(&node_, mask, &bytes); }
    qolb_result read_lane(std::uint64_t lane, std::uint64_t &out) { return qolb_read_lane(&node_, lane, &out); }
    qolb_result write_lane(std::uint64_t lane, std::uint64_t value) { return qolb_write_lane(&node_, lane, value); }
    qolb_result add_lane(std::uint64_t lane, std::uint64_t by, std::uint64_t &was) {
        return qolb_add_lane(&node_, lane, by, &was);
    }
    // Releases the line, and hands it over to the oldest request.
    qolb_result deqolb() QOLB_LEAVES_ { return qolb_deqolb(&node_); }
    // Releases the line and closes it.
    qolb_result shut() QOLB_LEAVES_ { return qolb_shut(&node_); }
    // Frees the node. Afterwards this Node is no node.
    qolb_result free() { return qolb_node_free(&node_); }
    // Returns the number of acquisitions that the lease still allows, the holder's own among them.
    std::uint64_t turns_left() { return qolb_turns_left(&node_); }
    // Return the node's number, from 1 on, the line's label, and the node's state.
    std::uint64_t number() { return qolb_number(&node_); }
    std::uint64_t label() { return qolb_label(&node_); }
    qolb_node_state state() { return static_cast<qolb_node_state>(qolb_state(&node_)); }

    // Requests the line, and waits until the node holds it. Returns granted, closed or misuse.
    QOLB_NODISCARD Got acquire() { return got(qolb_acquire(&node_)); }

    // Requests the line, and withdraws the request if it is not granted at once. Returns granted, busy, closed or
    // misuse.
    QOLB_NODISCARD Got try_acquire() { return got(qolb_try(&node_)); }

    // Requests the line, and waits for at most `time`. Returns granted, timed_out, closed or misuse.
    template <class Rep, class Period> QOLB_NODISCARD Got acquire_for(const std::chrono::duration<Rep, Period> &time) {
        return got(qolb_acquire_within(&node_, detail::nanoseconds(time)));
    }

    // Lock and unlock the line as a lock of the standard library does. They throw Misuse, and they throw Closed if the
    // line is closed, so that a loop around them ends.
    void lock() QOLB_ACQUIRES_() { locked(acquire()); }
    QOLB_NODISCARD bool try_lock() QOLB_TRIES_ { return locked(try_acquire()); }
    template <class Rep, class Period>
    QOLB_NODISCARD bool try_lock_for(const std::chrono::duration<Rep, Period> &time) QOLB_TRIES_ {
        return locked(acquire_for(time));
    }
    template <class Clock, class Duration>
    QOLB_NODISCARD bool try_lock_until(const std::chrono::time_point<Clock, Duration> &end) QOLB_TRIES_ {
        return detail::try_lock_until(*this, end);
    }
    void unlock() QOLB_RELEASES_ {
        if (deqolb() != QOLB_DONE) QOLB_THROW(Misuse());
    }

    // Acquires the line, calls `change` with a copy of its bytes, writes the copy back, and releases the line. Returns
    // granted; or closed or misuse, and then it has not called `change`. If `change` throws, nothing is written, and
    // the line is released.
    template <class Change> QOLB_NODISCARD Got with(Change change);

    // Opens a line. Returns QOLB_DONE and the nodes in their order, or another result and no nodes (qolb_open).
    QOLB_NODISCARD static std::pair<qolb_result, std::vector<Node>> open(qolb_kind kind, std::uint64_t label,
                                                                         std::uint64_t nodes, const qolb_bytes &opening,
                                                                         std::uint64_t lease = QOLB_NO_LEASE) {
        std::array<qolb_node, 200> raw{};
        std::vector<Node> made(nodes <= raw.size() ? nodes : 0);
        qolb_result told = qolb_open(kind, label, nodes, lease, &opening, raw.data(), raw.size());
        if (told != QOLB_DONE) made.clear();
        for (std::size_t k = 0; k < made.size(); k++) made[k].node_ = qolb_move(&raw[k]);
        return {told, std::move(made)};
    }

  private:
    // Frees the node in whatever state it is. A call that this state does not allow is misuse and does nothing.
    void let_go() noexcept {
        qolb_result results[] = {qolb_link(&node_), qolb_withdraw(&node_), qolb_deqolb(&node_), qolb_node_free(&node_)};
        (void)results;
    }

    static Got got(qolb_result number) {
        switch (number) {
        case QOLB_GRANTED: return Got::granted;
        case QOLB_CLOSED: return Got::closed;
        case QOLB_BUSY: return Got::busy;
        case QOLB_TIMEDOUT: return Got::timed_out;
        default: return Got::misuse;
        }
    }

    static bool locked(Got got) {
        if (got == Got::closed) QOLB_THROW(Closed());
        if (got == Got::misuse) QOLB_THROW(Misuse());
        return got == Got::granted;
    }

    qolb_node node_{};
};

// A guard of a line: it acquires the line for a node, and releases it at the end of the scope. It writes no bytes by
// itself. The node must not be moved while the guard exists.
class QOLB_SCOPED_ Guard {
  public:
    // Waits until the node holds the line. Throws Closed if the line is closed, and Misuse if there is no node, or if
    // the node has already requested the line.
    QOLB_NAMED_ explicit Guard(Node &node) QOLB_ACQUIRES_(node) : node_(&node) { node.lock(); }

    // Takes over the line from a node that holds it, for example after try_acquire or acquire_for. Throws Misuse if the
    // node does not hold the line. Clang's -Wthread-safety cannot check this, and assumes that the node holds the line.
    QOLB_NAMED_ Guard(Node &node, std::adopt_lock_t) QOLB_ADOPTS_CHECKED_(node) : node_(&node) {
        if (node.state() != QOLB_STATE_HOLDING) QOLB_THROW(Misuse());
    }

    Guard(Guard &&other) noexcept : node_(std::exchange(other.node_, nullptr)) {}
    Guard(const Guard &) = delete;
    Guard &operator=(const Guard &) = delete;
    Guard &operator=(Guard &&) = delete;

    ~Guard() QOLB_RELEASES_ {
        if (node_) node_->deqolb();
    }

    // Returns the bytes of the line.
    QOLB_NODISCARD qolb_bytes read() const {
        qolb_bytes bytes{};
        did(node_ ? node_->read(bytes) : QOLB_MISUSE);
        return bytes;
    }

    // Writes byte k of `bytes` to the line if bit k is set in `mask`.
    void write(std::uint64_t mask, const qolb_bytes &bytes) { did(node_ ? node_->write(mask, bytes) : QOLB_MISUSE); }

    // Return and set one lane of the line, 0 to 7. They throw Misuse for another lane.
    QOLB_NODISCARD std::uint64_t lane(std::uint64_t lane) const {
        std::uint64_t value = 0;
        did(node_ ? node_->read_lane(lane, value) : QOLB_MISUSE);
        return value;
    }

    void set_lane(std::uint64_t lane, std::uint64_t value) {
        did(node_ ? node_->write_lane(lane, value) : QOLB_MISUSE);
    }

    // Adds `by` to a lane modulo 2^64, and returns the number that the lane had before.
    std::uint64_t add_to_lane(std::uint64_t lane, std::uint64_t by) {
        std::uint64_t was = 0;
        did(node_ ? node_->add_lane(lane, by, was) : QOLB_MISUSE);
        return was;
    }

    // Release the line before the scope ends. `shut` also closes it. Every later call of the guard throws Misuse.
    void release() QOLB_RELEASES_ { ended(node_ ? node_->deqolb() : QOLB_MISUSE); }
    void shut() QOLB_RELEASES_ { ended(node_ ? node_->shut() : QOLB_MISUSE); }

  private:
    static void did(qolb_result told) {
        if (told != QOLB_DONE) QOLB_THROW(Misuse());
    }

    void ended(qolb_result told) {
        did(told);
        node_ = nullptr;
    }

    Node *node_;
};

template <class Change> QOLB_UNCHECKED_ Got Node::with(Change change) {
    Got got = acquire();
    if (got != Got::granted) return got;
    Guard turn(*this, std::adopt_lock);
    qolb_bytes bytes = turn.read();
    change(bytes);
    turn.write(UINT64_MAX, bytes);
    return got;
}

// The barging limit of a lock, for example qolb::barging{1024}. A lock with a limit of 0 or 1 is strict. A limit above
// 65,535 counts as 65,535.
struct barging {
    std::uint64_t limit;
};

// A lock that any thread may enter (qolb_lock(3)). It takes 320 bytes, and opens at its first use. A static lock needs
// no constructor at run time, because it is initialised at compile time.
//
// It is a timed lock as the standard library defines it: std::lock_guard, std::unique_lock, std::scoped_lock and
// std::condition_variable_any can use it. The thread that entered a lock must leave it. A lock may be destroyed once no
// thread holds it, waits for it or is about to call it. The destructor does nothing, so threads may use a static lock
// until the program ends.
//
// A default-constructed Lock is strict. For a type whose locks are barging by default, derive a class from the lock:
//
//     struct Mutex : qolb::lock {
//         constexpr Mutex() noexcept : qolb::lock(qolb::barging{1024}) {}
//     };
class QOLB_CAPABILITY_ Lock {
  public:
    // Makes a strict lock, which is first come, first served.
    constexpr Lock() noexcept : lock_ QOLB_LOCK_INIT {}
    // Makes a barging lock.
    explicit constexpr Lock(barging most) noexcept : lock_ QOLB_LOCK_INIT_BARGING(most.limit) {}
    Lock(const Lock &) = delete;
    Lock &operator=(const Lock &) = delete;

    // Enter the lock as the calls of qolb.h do, and return the same results (qolb_lock(3)). try_enter does not wait,
    // and enter_for waits for at most `time`.
    QOLB_NODISCARD qolb_result enter() { return qolb_lock_enter(&lock_); }
    QOLB_NODISCARD qolb_result try_enter() { return qolb_lock_try(&lock_); }
    template <class Rep, class Period>
    QOLB_NODISCARD qolb_result enter_for(const std::chrono::duration<Rep, Period> &time) {
        return qolb_lock_enter_within(&lock_, detail::nanoseconds(time));
    }
    // Leave the lock. `shut` also takes it out of service. If a std::unique_lock owns the lock, first call release() of
    // the std::unique_lock. A guard without release(), such as a std::lock_guard or a qolb::lock_guard, must not own
    // the lock: the destructor of such a guard calls unlock, which throws Misuse, and this ends the program.
    qolb_result leave() QOLB_LEAVES_ { return qolb_lock_leave(&lock_); }
    qolb_result shut() QOLB_LEAVES_ { return qolb_lock_shut(&lock_); }
    // Checks whether the calling thread holds the lock.
    bool is_mine() const { return qolb_lock_is_mine(&lock_) != 0; }
    // Checks whether a thread or a task holds the lock or is about to.
    bool is_held() const { return qolb_lock_is_held(&lock_) != 0; }

    // Lock and unlock as a lock of the standard library does. They throw Closed if the lock is shut. If the calling
    // thread already holds the lock, they throw Deadlock, except for try_lock, which returns false.
    void lock() QOLB_ACQUIRES_() { entered(enter()); }
    QOLB_NODISCARD bool try_lock() QOLB_TRIES_ { return entered(try_enter()); }
    template <class Rep, class Period>
    QOLB_NODISCARD bool try_lock_for(const std::chrono::duration<Rep, Period> &time) QOLB_TRIES_ {
        return entered(enter_for(time));
    }
    template <class Clock, class Duration>
    QOLB_NODISCARD bool try_lock_until(const std::chrono::time_point<Clock, Duration> &end) QOLB_TRIES_ {
        return detail::try_lock_until(*this, end);
    }
    void unlock() QOLB_RELEASES_ {
        if (leave() != QOLB_DONE) QOLB_THROW(Misuse());
    }

    // Returns the lock, for the calls of qolb.h.
    qolb_lock *native_handle() { return &lock_; }

  private:
    static bool entered(qolb_result got) {
        if (got == QOLB_CLOSED) QOLB_THROW(Closed());
        if (got == QOLB_MISUSE) QOLB_THROW(Deadlock());
        return got == QOLB_GRANTED;
    }

    qolb_lock lock_;
};

using lock = Lock;

namespace detail {

// Is `Result` if `Mutex` is a Lock, or a class that is derived from Lock.
template <class Mutex, class Result>
using OfLock = typename std::enable_if<std::is_convertible<Mutex *, Lock *>::value, Result>::type;

} // namespace detail

// A guard that enters a lock, and leaves it at the end of the scope. A std::lock_guard<qolb::lock> does the same, but
// Clang's -Wthread-safety knows it only in libc++ with -D_LIBCPP_ENABLE_THREAD_SAFETY_ANNOTATIONS. In a file with both
// `using namespace std` and `using namespace qolb`, the name lock_guard is ambiguous: write qolb::lock_guard.
class QOLB_SCOPED_ lock_guard {
  public:
    QOLB_NAMED_ explicit lock_guard(Lock &held) QOLB_ACQUIRES_(held) : held_(held) { held.lock(); }
    // Takes over a lock that the calling thread holds.
    QOLB_NAMED_ lock_guard(Lock &held, std::adopt_lock_t) QOLB_ADOPTS_(held) : held_(held) {}
    lock_guard(const lock_guard &) = delete;
    lock_guard &operator=(const lock_guard &) = delete;
    ~lock_guard() QOLB_RELEASES_ { held_.unlock(); }

  private:
    Lock &held_;
};

// A condition at which holders of a Lock wait, as holders of a std::mutex wait at a std::condition_variable. There are
// no spurious wake-ups, and the thread that has waited longest is woken first. If the lock is shut meanwhile, a wait
// throws Closed, and its unique_lock owns nothing. A wait accepts a std::unique_lock of a Lock, or of a class that is
// derived from Lock.
//
// A condition may be destroyed once every thread that waits on it has been notified or has returned from its wait, and
// every call of notify_one or notify_all on it has returned. As with a std::condition_variable, a notified thread need
// not have returned yet, but it must not wait on the condition again. A wait with a predicate waits again while its
// predicate is false.
//
// There is no std::notify_all_at_thread_exit for it, and it has no native_handle. Use a std::condition_variable_any to
// wait with a lock of another type.
class Condition {
  public:
    constexpr Condition() noexcept : cond_{nullptr} {}
    Condition(const Condition &) = delete;
    Condition &operator=(const Condition &) = delete;

    // Wake the thread that has waited longest, or all threads that wait.
    void notify_one() noexcept { qolb_cond_signal(&cond_); }
    void notify_all() noexcept { qolb_cond_broadcast(&cond_); }

    // Leaves the lock, waits until the condition is signalled, and enters the lock again. With a predicate, it waits
    // until the predicate is true. Throws Misuse if the thread does not hold the lock.
    template <class Mutex> detail::OfLock<Mutex, void> wait(std::unique_lock<Mutex> &held) {
        told(held, qolb_cond_wait(&cond_, lock_of(held)));
    }
    template <class Predicate, class Mutex>
    detail::OfLock<Mutex, void> wait(std::unique_lock<Mutex> &held, Predicate is_so) {
        while (!is_so()) wait(held);
    }

    // Waits for a signal for at most `time`.
    template <class Rep, class Period, class Mutex>
    detail::OfLock<Mutex, std::cv_status> wait_for(std::unique_lock<Mutex> &held,
                                                   const std::chrono::duration<Rep, Period> &time) {
        std::uint64_t nanoseconds = detail::nanoseconds(time);
        bool is_signalled = told(held, qolb_cond_wait_within(&cond_, lock_of(held), nanoseconds));
        return is_signalled ? std::cv_status::no_timeout : std::cv_status::timeout;
    }
    // Waits for at most `time` until the predicate is true, and returns its last value.
    template <class Rep, class Period, class Predicate, class Mutex>
    detail::OfLock<Mutex, bool> wait_for(std::unique_lock<Mutex> &held, const std::chrono::duration<Rep, Period> &time,
                                         Predicate is_so) {
        return wait_until(held, detail::end_of(time), std::move(is_so));
    }

    // Waits for a signal until `end`. Returns no_timeout also if the clock was set back meanwhile, so that `end` has
    // not come.
    template <class Clock, class Duration, class Mutex>
    detail::OfLock<Mutex, std::cv_status> wait_until(std::unique_lock<Mutex> &held,
                                                     const std::chrono::time_point<Clock, Duration> &end) {
        std::cv_status got = wait_for(held, detail::left(end));
        return detail::left(end).count() > 0 ? std::cv_status::no_timeout : got;
    }
    // Waits until the predicate is true, but not after `end`, and returns its last value.
    template <class Clock, class Duration, class Predicate, class Mutex>
    detail::OfLock<Mutex, bool> wait_until(std::unique_lock<Mutex> &held,
                                           const std::chrono::time_point<Clock, Duration> &end, Predicate is_so) {
        while (!is_so())
            if (wait_until(held, end) == std::cv_status::timeout) return is_so();
        return true;
    }

  private:
    template <class Mutex> static qolb_lock *lock_of(const std::unique_lock<Mutex> &held) {
        Lock *it = held.mutex();
        return it->native_handle();
    }

    template <class Mutex> static bool told(std::unique_lock<Mutex> &held, qolb_result got) {
        if (got == QOLB_MISUSE) QOLB_THROW(Misuse());
        if (got == QOLB_CLOSED) {
            held.release();
            QOLB_THROW(Closed());
        }
        return got == QOLB_GRANTED;
    }

    qolb_cond cond_;
};

// A value of any size that can only be used while its lock is held. It shares no cache line with the lock.
template <class T> class Guarded {
  public:
    // Make a value with a strict lock, which is first come, first served.
    constexpr Guarded() : value_() {}
    explicit constexpr Guarded(T value) : value_(std::move(value)) {}
    // Makes a value with a barging lock.
    constexpr Guarded(T value, barging most) : lock_(most), value_(std::move(value)) {}

    // Enters the lock, calls `change` with the value, leaves the lock, and returns the result of `change`. If `change`
    // throws, the changes that it has made stay. Throws Closed if the lock is shut, and Deadlock if the thread already
    // is in a `change` of the same value.
    template <class Change> auto with(Change change) -> decltype(change(std::declval<T &>())) {
        std::lock_guard<Lock> held(lock_);
        return change(value_);
    }

    // Does the same with a copy of the value, which is moved back at the end. If `change` throws, the value is
    // unchanged. If the move throws, the value is what the move left. `change` must not return a reference, because
    // the reference could be to the copy.
    template <class Change> auto update(Change change) -> decltype(change(std::declval<T &>())) {
        static_assert(!std::is_reference<decltype(change(std::declval<T &>()))>::value, "the copy ends with the call");
        std::lock_guard<Lock> held(lock_);
        T copy(value_);
        return changed(copy, change, std::is_void<decltype(change(std::declval<T &>()))>());
    }

    // Enter the lock, and return a copy of the value or replace it. They throw as `with` does.
    QOLB_NODISCARD T load() const {
        std::lock_guard<Lock> held(lock_);
        return value_;
    }
    void store(T value) {
        std::lock_guard<Lock> held(lock_);
        value_ = std::move(value);
    }

    // Shuts the lock, so that threads which enter later get Closed. Returns false if it was already shut. Throws
    // Deadlock if the thread is in a `change` of the same value.
    bool shut() {
        qolb_result got = lock_.enter();
        if (got == QOLB_MISUSE) QOLB_THROW(Deadlock());
        return got == QOLB_GRANTED && lock_.shut() == QOLB_DONE;
    }

  private:
    template <class Change> void changed(T &copy, Change &change, std::true_type) {
        change(copy);
        value_ = std::move(copy);
    }
    template <class Change>
    auto changed(T &copy, Change &change, std::false_type) -> decltype(change(std::declval<T &>())) {
        decltype(change(std::declval<T &>())) told = change(copy);
        value_ = std::move(copy);
        return told;
    }

    // A lock ends at a multiple of 16 bytes, so these bytes reach to the end of its last cache line.
    static constexpr std::size_t apart = 64 - alignof(qolb_lock);

    mutable Lock lock_; // mutable, because a thread that only reads the value also enters it
    char apart_[apart] = {};
    T value_;
};

template <class T> using guarded = Guarded<T>;

#if defined(__cpp_impl_coroutine) && __cplusplus >= 202002L

// ---- Coroutines ----
//
//     qolb::Entered turn = co_await qolb::enter(lock, loop); // leaves the lock at the end of its scope, in any thread
//     if (!turn) co_return;                                  // the lock was not entered: turn.answer() says why
//     qolb::Got got = co_await qolb::turn(node, loop);       // then qolb::Guard turn(node, std::adopt_lock)
//
// A loop is an object of the program that runs what is posted to it. It has two functions. Any thread may call
// `void post(Ready &)`. Only the loop's own thread calls `void unpost(Ready &)`, after which the loop does not run the
// object. The example loop.cpp has such a loop.
//
// The library calls `post` in the thread that releases the lock or line, so the rules of NOTIFICATIONS in qolb_task(3)
// apply: `post` must not throw, and must not wait for a Lock or a Node. `post` may lock a mutex of the loop for a short
// time, if no thread calls the library while it holds this mutex.
//
// The loop's thread may destroy a coroutine that waits, whose request is then withdrawn.
//
// Always store the result of co_await in a variable, for two reasons. First, an Entered leaves the lock when it is
// destroyed, and a temporary Entered in the condition of `if`, `while` or `switch` is destroyed before the body runs.
// The body would therefore run without the lock. Neither `if (co_await qolb::enter(lock, loop))` nor `while` with this
// condition compiles. Second, GCC 12 may compile a condition that contains a co_await to code that crashes, also for
// qolb::turn. `if (auto turn = co_await qolb::enter(lock, loop))` is correct, because the variable exists until the
// end of the `if` statement.

// What a loop runs.
class Ready {
  public:
    virtual void run() = 0;
    Ready *next = nullptr, *before = nullptr;
    bool posted = false; // for the loop, which protects it by its mutex

  protected:
    ~Ready() = default;
};

// A loop without a thread of its own: the thread that releases the line runs what is posted at once, after the release.
// If the coroutine that runs there releases a line or lock itself, the notifications of this release are put off until
// the coroutine has returned (NOTIFICATIONS in qolb_task(3)). A coroutine that waits must not be destroyed while
// another thread may release the line.
struct Inline {
    void post(Ready &it) {
        qolb_notify_done();
        it.run();
    }
    void unpost(Ready &) {}
};

namespace detail {

// What a coroutine awaits, whose notification posts it to the loop.
template <class Loop> class Waits : public Ready {
  public:
    explicit Waits(Loop &loop) : loop_(loop) {}
    Waits(const Waits &) = delete;
    Waits &operator=(const Waits &) = delete;

  protected:
    // Posts the coroutine to its loop. The coroutine may have been destroyed when this returns.
    static void call(void *arg) {
        auto *it = static_cast<Waits *>(arg);
        it->loop_.post(*it);
    }
    ~Waits() = default;

    Loop &loop_;
    std::coroutine_handle<> waiter_;
    qolb_result got_ = QOLB_MISUSE;
    bool waits_ = false;
};

} // namespace detail

// What `turn` returns: co_await of it requests the line for a node, and waits until the node holds the line.
template <class Loop> class Turn final : public detail::Waits<Loop> {
  public:
    Turn(qolb_node *node, Loop &loop) : detail::Waits<Loop>(loop), node_(node) {}

    bool await_ready() {
        this->got_ = qolb_enqolb(node_);
        return this->got_ != QOLB_QUEUED;
    }
    // Once the notification is requested, another thread may resume the coroutine, which destroys this object.
    bool await_suspend(std::coroutine_handle<> waiter) {
        this->waiter_ = waiter;
        this->waits_ = true;
        qolb_result got = qolb_notify(node_, this->call, static_cast<detail::Waits<Loop> *>(this));
        if (got == QOLB_WAITING) return true;
        this->waits_ = false;
        this->got_ = got;
        return false;
    }
    Got await_resume() {
        switch (this->got_) {
        case QOLB_GRANTED: return Got::granted;
        case QOLB_CLOSED: return Got::closed;
        case QOLB_BUSY: return Got::busy;
        default: return Got::misuse;
        }
    }
    // Polls after a notification. If that was too early, this requests another one.
    void run() override {
        qolb_result got = qolb_notify(node_, this->call, static_cast<detail::Waits<Loop> *>(this));
        if (got == QOLB_WAITING) return;
        this->waits_ = false;
        this->got_ = got;
        this->waiter_.resume();
    }
    ~Turn() {
        if (!this->waits_) return;
        qolb_notify_off(node_);
        this->loop_.unpost(*this);
        if (qolb_withdraw(node_) == QOLB_GRANTED) qolb_deqolb(node_);
    }

  private:
    qolb_node *node_;
};

// A guard of a lock that a coroutine has entered: it leaves the lock when it is destroyed, in any thread. It is false
// if the coroutine has not entered, and then `answer` says why. A temporary Entered does not convert to bool, because
// it would leave the lock before the program can use the answer.
class [[nodiscard]] Entered {
  public:
    Entered(qolb_result got, const qolb_task &task) : got_(got), task_(task) {}
    Entered(Entered &&other) noexcept : got_(std::exchange(other.got_, QOLB_MISUSE)), task_(other.task_) {}
    Entered(const Entered &) = delete;
    Entered &operator=(Entered &&) = delete;
    ~Entered() { leave(); }
    explicit operator bool() const & { return got_ == QOLB_GRANTED; }
    explicit operator bool() const && = delete;
    qolb_result answer() const { return got_; }
    void leave() {
        if (std::exchange(got_, QOLB_MISUSE) == QOLB_GRANTED) qolb_task_leave(&task_);
    }

  private:
    qolb_result got_;
    qolb_task task_;
};

// What `enter` returns: co_await of it enters the lock.
template <class Loop> class Enter final : public detail::Waits<Loop> {
  public:
    Enter(qolb_lock *which, Loop &loop) : detail::Waits<Loop>(loop), lock_(which) {}
    bool await_ready() { return false; }
    bool await_suspend(std::coroutine_handle<> waiter) {
        this->waiter_ = waiter;
        this->waits_ = true;
        qolb_result got = qolb_task_enter(&task_, lock_, this->call, static_cast<detail::Waits<Loop> *>(this));
        if (got == QOLB_WAITING) return true;
        this->waits_ = false;
        this->got_ = got;
        return false;
    }
    // The guard takes over the task, so the next co_await enters with another one.
    Entered await_resume() { return Entered(this->got_, std::exchange(task_, qolb_task QOLB_TASK_INIT)); }
    void run() override {
        qolb_result got = qolb_task_poll(&task_);
        if (got == QOLB_WAITING) return;
        this->waits_ = false;
        this->got_ = got;
        this->waiter_.resume();
    }
    ~Enter() {
        if (!this->waits_) return;
        qolb_task_cancel(&task_);
        this->loop_.unpost(*this);
    }

  private:
    qolb_lock *lock_;
    qolb_task task_ = QOLB_TASK_INIT;
};

// Enters a lock from a coroutine that `loop` runs: co_await enter(lock, loop) returns an Entered, which must be stored
// in a variable.
template <class Loop> Enter<Loop> enter(Lock &which, Loop &loop) { return Enter<Loop>(which.native_handle(), loop); }

// Requests a line from a coroutine that `loop` runs: co_await turn(node, loop) returns a Got, which may be busy.
template <class Loop> Turn<Loop> turn(Node &node, Loop &loop) { return Turn<Loop>(node.native_handle(), loop); }

#endif

} // namespace qolb

#endif
