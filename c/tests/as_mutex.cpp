// Tests a program that is written for std::mutex and std::condition_variable. The program is compiled three times: with
// these two types, with those of the library, and with barging locks of a class that is derived from qolb::lock. It
// uses a bounded queue, waits with deadlines, accounts that two locks protect at the same time, guards that are moved,
// and conditions that are destroyed while notified threads have not returned yet. All versions must print the numbers
// that the comments below derive.
#ifdef STD
#include <condition_variable>
#include <mutex>
using Mutex = std::mutex;
using Cond = std::condition_variable;
#else
#include <qolb.hpp>
#ifdef BARGING
struct Mutex : qolb::lock {
    constexpr Mutex() noexcept : qolb::lock(qolb::barging{1024}) {}
};
#else
using Mutex = qolb::lock;
#endif
using Cond = qolb::Condition;
#endif
#include <chrono>
#include <cstdio>
#include <deque>
#include <numeric>
#include <new>
#include <sys/mman.h>
#include <thread>
#include <type_traits>
#include <vector>

using namespace std::chrono_literals;

static_assert(!std::is_copy_constructible<Mutex>::value && !std::is_move_constructible<Mutex>::value, "as std::mutex");
static_assert(!std::is_copy_constructible<Cond>::value && !std::is_move_constructible<Cond>::value, "as its condition");
static_assert(std::is_nothrow_default_constructible<Mutex>::value, "as std::mutex");

// ---- A queue of at most eight numbers ----

class Queue {
  public:
    void put(long value) {
        std::unique_lock<Mutex> held(mutex_);
        room_.wait(held, [this] { return values_.size() < 8; });
        values_.push_back(value);
        held.unlock();
        some_.notify_one();
    }
    bool take(long &value) {
        std::unique_lock<Mutex> held(mutex_);
        while (values_.empty() && !ended_) some_.wait(held);
        if (values_.empty()) return false;
        value = values_.front();
        values_.pop_front();
        room_.notify_one();
        return true;
    }
    void end() {
        std::lock_guard<Mutex> held(mutex_);
        ended_ = true;
        some_.notify_all();
    }

  private:
    Mutex mutex_;
    Cond some_, room_;
    std::deque<long> values_;
    bool ended_ = false;
};

// Returns the sum of 1 to 6,000, with three threads that put and two that take: 18,003,000.
static long sum_by_queue() {
    Queue queue;
    long sums[2] = {0, 0};
    std::vector<std::thread> takes, puts;
    for (long &sum : sums)
        takes.emplace_back([&queue, &sum] {
            for (long value; queue.take(value);) sum += value;
        });
    for (long k = 0; k < 3; k++)
        puts.emplace_back([&queue, k] {
            for (long value = 1; value <= 2000; value++) queue.put(k * 2000 + value);
        });
    for (std::thread &it : puts) it.join();
    queue.end();
    for (std::thread &it : takes) it.join();
    return std::accumulate(sums, sums + 2, 0L);
}

// ---- Waits that time out or not ----

// Returns 7: a wait without a signal times out, by a length and by a point in time, and one with a signal does not.
static int waits_in_time() {
    Mutex mutex;
    Cond cond;
    bool ready = false;
    std::unique_lock<Mutex> held(mutex);
    int found = cond.wait_for(held, 5ms) == std::cv_status::timeout ? 1 : 0;
    auto end = std::chrono::steady_clock::now() + 5ms;
    found += cond.wait_until(held, end, [&] { return ready; }) ? 0 : 2;
    std::thread signals([&] {
        std::lock_guard<Mutex> lock(mutex);
        ready = true;
        cond.notify_all();
    });
    found += cond.wait_for(held, 60s, [&] { return ready; }) ? 4 : 0;
    held.unlock();
    signals.join();
    return found;
}

// ---- Two locks at a time ----

struct Account {
    Mutex mutex;
    long coins = 1000;
};

// Returns what four accounts have after four threads have moved coins to and fro: 4,000.
static long moves_coins() {
    Account accounts[4];
    std::vector<std::thread> threads;
    for (int k = 0; k < 4; k++)
        threads.emplace_back([&accounts, k] {
            for (int round = 0; round < 2000; round++) {
                Account &from = accounts[(k + round) % 4], &to = accounts[(k + 3 * round + 1) % 4];
                if (&from == &to) continue;
                std::lock(from.mutex, to.mutex);
                std::lock_guard<Mutex> first(from.mutex, std::adopt_lock), second(to.mutex, std::adopt_lock);
                from.coins--;
                to.coins++;
            }
        });
    for (std::thread &it : threads) it.join();
    long coins = 0;
    for (Account &it : accounts) coins += it.coins;
    return coins;
}

// ---- Trying, deferring and moving guards ----

// Returns 15: trying a held mutex fails, trying a free one succeeds, a deferred guard owns nothing, and a guard that
// was moved to owns the mutex.
static int tries() {
    Mutex mutex;
    int found = 0;
    std::unique_lock<Mutex> held(mutex);
    std::thread other([&] {
        if (!mutex.try_lock()) found += 1;
    });
    other.join();
    std::unique_lock<Mutex> moved(std::move(held));
    if (moved.owns_lock() && !held.owns_lock()) found += 2;
    moved.unlock();
    std::unique_lock<Mutex> deferred(mutex, std::defer_lock);
    if (!deferred.owns_lock()) found += 4;
    if (deferred.try_lock()) found += 8;
    return found;
}

// ---- Destroying a condition ----

// Returns the number of threads that a condition has notified: 300. The condition is destroyed under the mutex at once
// after the notification, and its memory is unmapped while the notified threads still wait for the mutex.
static int destroys() {
    constexpr std::size_t page = 4096;
    std::vector<Mutex> mutexes(100);
    int notified = 0;
    for (Mutex &mutex : mutexes) {
        void *memory = mmap(nullptr, page, PROT_READ | PROT_WRITE, MAP_PRIVATE | MAP_ANONYMOUS, -1, 0);
        if (memory == MAP_FAILED) return -1;
        auto *cond = new (memory) Cond();
        int waiting = 0;
        std::vector<std::thread> threads;
        for (int k = 0; k < 3; k++)
            threads.emplace_back([&, k] {
                std::unique_lock<Mutex> held(mutex);
                waiting++;
                if (k == 0) cond->wait(held), notified++;
                else if (cond->wait_for(held, 60s) == std::cv_status::no_timeout) notified++;
            });
        for (bool all = false; !all; std::this_thread::yield()) {
            std::unique_lock<Mutex> held(mutex);
            all = waiting == 3;
            if (!all) continue;
            cond->notify_all();
            cond->~Cond();
            munmap(memory, page);
        }
        for (std::thread &it : threads) it.join();
    }
    return notified;
}

int main() {
    long sum = sum_by_queue(), coins = moves_coins();
    int in_time = waits_in_time(), tried = tries(), notified = destroys();
    std::printf("%ld %d %ld %d %d\n", sum, in_time, coins, tried, notified);
    return sum == 18003000 && in_time == 7 && coins == 4000 && tried == 15 && notified == 300 ? 0 : 1;
}
