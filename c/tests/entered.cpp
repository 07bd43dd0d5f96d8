// Tests that a coroutine holds a lock as long as its variable of type qolb::Entered exists. A compiler must refuse each
// use of an Entered without a variable, which -DTEMPORARY=1 to -DTEMPORARY=4 compile in. Clang must warn of an Entered
// that is not used (-DTEMPORARY=5), and GCC 12 does not warn of it. Prints only errors.
#include <qolb.hpp>

#include <cstdio>

#ifndef TEMPORARY
#define TEMPORARY 0
#endif

struct Job {
    struct promise_type {
        Job get_return_object() { return {}; }
        std::suspend_never initial_suspend() noexcept { return {}; }
        std::suspend_never final_suspend() noexcept { return {}; }
        void return_void() {}
        void unhandled_exception() { std::abort(); }
    };
};

static qolb::lock mutex;
static qolb::Inline now;
static int bodies, held;

static void body() { bodies++, held += mutex.is_held(); }

static Job with_a_variable() {
    qolb::Entered turn = co_await qolb::enter(mutex, now);
    if (turn) body();
    if (!turn) co_return;
}
static Job with_a_variable_in_a_condition() {
    if (auto turn = co_await qolb::enter(mutex, now)) body();
}
static Job with_a_variable_before_a_condition() {
    if (auto turn = co_await qolb::enter(mutex, now); turn) body();
}
static Job with_a_variable_in_a_loop() {
    while (auto turn = co_await qolb::enter(mutex, now)) {
        body();
        if (bodies % 2 == 0) break;
    }
}
static Job with_an_early_end() {
    qolb::Entered turn = co_await qolb::enter(mutex, now);
    if (static_cast<bool>(turn)) body();
    turn.leave();
    held -= mutex.is_held();
}

#if TEMPORARY == 1
Job wrong() {
    if (co_await qolb::enter(mutex, now)) body();
}
#elif TEMPORARY == 2
Job wrong() {
    while (co_await qolb::enter(mutex, now)) body();
}
#elif TEMPORARY == 3
Job wrong() {
    if (!co_await qolb::enter(mutex, now)) co_return;
    body();
}
#elif TEMPORARY == 4
Job wrong() {
    bool is_entered(co_await qolb::enter(mutex, now));
    if (is_entered) body();
}
#elif TEMPORARY == 5
Job wrong() {
    co_await qolb::enter(mutex, now);
    body();
}
#endif

// Runs the coroutine, which has to wait first. Returns whether it has run `times` bodies under the lock.
static bool enters(Job (*coroutine)(), int times) {
    bodies = held = 0;
    if (mutex.enter() != QOLB_GRANTED) return false;
    coroutine();
    if (bodies) return false;
    mutex.leave();
    return bodies == times && held == times && !mutex.is_held();
}

int main() {
    if (!enters(with_a_variable, 1)) return std::puts("with a variable"), 1;
    if (!enters(with_a_variable_in_a_condition, 1)) return std::puts("with a variable in a condition"), 1;
    if (!enters(with_a_variable_before_a_condition, 1)) return std::puts("with a variable before a condition"), 1;
    if (!enters(with_a_variable_in_a_loop, 2)) return std::puts("with a variable in a loop"), 1;
    if (!enters(with_an_early_end, 1)) return std::puts("with an early end"), 1;
}
