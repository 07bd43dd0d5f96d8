// Tests that Clang's -Wthread-safety understands the locks of qolb.hpp. Clang must not warn about this file as it is,
// and must warn about each of ten errors, which -DFAULT=1 to -DFAULT=10 compile in.
#include <qolb.hpp>
#include <mutex>

#ifndef FAULT
#define FAULT 0
#endif

class Count {
  public:
    void adds() {
        qolb::lock_guard held(lock_);
        value_++;
    }
    void adds_by_calls() {
        lock_.lock();
        value_++;
        if (FAULT != 1) lock_.unlock();
    }
    void adds_if_free() {
        if (!lock_.try_lock()) {
            if (FAULT == 2) value_++;
            return;
        }
        value_++;
        lock_.unlock();
    }
    void adds_without() {
        if (FAULT == 3) value_++;
    }
    void leaves() {
        if (FAULT == 4) lock_.unlock();
    }
    // Clang does not know that `enter` acquires, and must accept the calls that leave the lock.
    bool enters_and_leaves() {
        if (lock_.enter() != QOLB_GRANTED) return false;
        lock_.leave();
        return lock_.enter() == QOLB_GRANTED && lock_.shut() == QOLB_DONE;
    }
    void locks_and_leaves() {
        lock_.lock();
        value_++;
        lock_.leave();
        if (FAULT == 6) value_++;
    }
    void locks_and_shuts() {
        lock_.lock();
        value_++;
        lock_.shut();
        if (FAULT == 7) value_++;
    }

  private:
    qolb::lock lock_;
    long value_ __attribute__((guarded_by(lock_))) = 0;
};

// Data that a line protects besides its own bytes, which are used with a node.
class Line {
  public:
    explicit Line(qolb::Node node) : node_(std::move(node)) {}
    void adds() {
        qolb::Guard turn(node_);
        value_++;
    }
    void adds_without() {
        if (FAULT == 5) value_++;
    }
    void adds_after_trying() {
        if (node_.try_acquire() != qolb::Got::granted) return;
        {
            qolb::Guard turn(node_, std::adopt_lock);
            value_++;
        }
        if (FAULT == 8) value_++;
    }
    void adds_after_try_lock() {
        if (!node_.try_lock()) return;
        qolb::Guard turn(node_, std::adopt_lock);
        value_++;
    }
    void adds_twice() {
        qolb::Guard turn(node_);
        value_++;
        turn.release();
        if (FAULT == 9) value_++;
        node_.lock();
        value_++;
        node_.deqolb();
        if (FAULT == 10) value_++;
    }
    void shuts() {
        qolb::Guard turn(node_);
        value_++;
        turn.shut();
    }

  private:
    qolb::Node node_;
    long value_ __attribute__((guarded_by(node_))) = 0;
};

int main() {
    Count count;
    Line line{qolb::Node()};
    count.adds(), count.adds_by_calls(), count.adds_if_free(), count.adds_without(), count.leaves();
    count.locks_and_leaves(), count.locks_and_shuts();
    line.adds(), line.adds_without(), line.adds_after_trying(), line.adds_after_try_lock(), line.adds_twice();
    line.shuts();
    return count.enters_and_leaves();
}
