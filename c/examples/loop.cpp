// C++20 coroutines that enter a lock and run on an event loop with one thread. Another thread enters the same lock.
// Prints 4000. This file is meant as a template.
#include <condition_variable>
#include <coroutine>
#include <cstdlib>
#include <iostream>
#include <mutex>
#include <qolb.hpp>
#include <thread>

// A loop for qolb::enter and qolb::turn, which need only `post` and `unpost`. server.cpp has a loop over epoll.
class Loop {
  public:
    // Any thread calls it, inside the call that leaves the lock. It must not throw, and must not wait for a qolb::lock
    // or a node. It may lock the mutex of this loop, because no thread calls the library while it holds the mutex.
    void post(qolb::Ready &it) {
        std::lock_guard<std::mutex> held(mutex_);
        it.posted = true, it.next = nullptr, it.before = last_;
        (last_ ? last_->next : first_) = &it;
        last_ = &it;
        some_.notify_one();
    }

    // The loop's thread calls it for a coroutine that is destroyed while it waits.
    void unpost(qolb::Ready &it) {
        std::lock_guard<std::mutex> held(mutex_);
        if (it.posted) out(it);
    }

    // Runs what is posted, until no job is left.
    void run() {
        std::unique_lock<std::mutex> held(mutex_);
        while (jobs > 0) {
            some_.wait(held, [this] { return first_ != nullptr; });
            qolb::Ready *it = first_;
            out(*it);
            held.unlock();
            it->run();
            held.lock();
        }
    }

    int jobs = 0; // only the loop's thread changes it

  private:
    void out(qolb::Ready &it) {
        (it.before ? it.before->next : first_) = it.next;
        (it.next ? it.next->before : last_) = it.before;
        it.posted = false;
    }

    std::mutex mutex_;
    std::condition_variable some_;
    qolb::Ready *first_ = nullptr, *last_ = nullptr;
};

// A coroutine that begins at once, and is freed when it ends.
struct Job {
    struct promise_type {
        Job get_return_object() { return {}; }
        std::suspend_never initial_suspend() noexcept { return {}; }
        std::suspend_never final_suspend() noexcept { return {}; }
        void return_void() {}
        void unhandled_exception() { std::abort(); }
    };
};

static Job add(Loop &loop, qolb::lock &lock, long &count) {
    loop.jobs++;
    for (int round = 0; round < 1000; round++) {
        qolb::Entered turn = co_await qolb::enter(lock, loop);
        if (!turn) break; // the lock is shut, or there is no memory: turn.answer()
        count++;
    } // the lock is left at the end of the scope
    loop.jobs--;
}

int main() {
    qolb::lock lock;
    long count = 0;
    std::thread other([&] {
        for (int round = 0; round < 1000; round++) {
            std::lock_guard<qolb::lock> turn(lock);
            count++;
        }
    });
    Loop loop;
    for (int k = 0; k < 3; k++) add(loop, lock, count);
    loop.run();
    other.join();
    std::cout << count << '\n';
    return count != 4000;
}
