// Tests coroutines that are resumed inside a release (qolb::Inline), in one thread. During such a release, one
// coroutine withdraws its request and requests the line again. The node of this coroutine stays busy until the next
// node, whose notification is deferred, has released the line. Prints only errors.
#include <cstdio>
#include <cstdlib>
#include <qolb.hpp>

namespace {

struct Job {
    struct promise_type {
        Job get_return_object() { return {}; }
        std::suspend_never initial_suspend() noexcept { return {}; }
        std::suspend_never final_suspend() noexcept { return {}; }
        void return_void() {}
        void unhandled_exception() { std::abort(); }
    };
};

constexpr int MOST_ASKED = 1000;

qolb::Inline now;
int turns_of_first, turns_of_second;

Job asks_again(qolb::Node &node) {
    qolb::Got got = co_await qolb::turn(node, now);
    if (got != qolb::Got::granted) co_return;
    turns_of_first++;
    node.deqolb();
    if (node.try_acquire() != qolb::Got::busy) co_return; // the second has the line
    got = qolb::Got::busy;
    for (int asked = 0; got == qolb::Got::busy && asked < MOST_ASKED; asked++) got = co_await qolb::turn(node, now);
    if (got != qolb::Got::granted) co_return;
    turns_of_first++;
    node.deqolb();
}

Job enters_once(qolb::Node &node) {
    qolb::Got got = co_await qolb::turn(node, now);
    if (got != qolb::Got::granted) co_return;
    turns_of_second++;
    node.deqolb();
}

bool go_on(qolb_kind kind) {
    turns_of_first = turns_of_second = 0;
    auto [refused, node] = qolb::Node::open(kind, 1, 3, qolb_bytes{});
    if (refused != QOLB_DONE) return false;
    node[0].lock();
    asks_again(node[1]);
    enters_once(node[2]);
    node[0].unlock();
    return turns_of_first == 2 && turns_of_second == 1;
}

} // namespace

int main() {
    for (qolb_kind kind : {QOLB_TICKET, QOLB_LINK, QOLB_RING})
        if (!go_on(kind)) {
            std::printf("kind %u: %d and %d turns\n", kind, turns_of_first, turns_of_second);
            return 1;
        }
    return 0;
}
