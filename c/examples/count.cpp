// Two threads count together, in C++14 or later. The count is stored in a line, and each thread has a node of this
// line. Prints 2000.
#include <iostream>
#include <qolb.hpp>
#include <thread>
#include <vector>

static void add(qolb::Node node) {
    for (int round = 0; round < 1000; round++) {
        qolb::Guard turn(node); // waits for the thread's turn
        turn.add_to_lane(0, 1);
    } // the guard releases the line at the end of its scope
}

int main() {
    auto opened = qolb::Node::open(QOLB_DEFAULT, 1, 3, qolb_bytes{});
    if (opened.first != QOLB_DONE) return 1;
    std::vector<qolb::Node> &nodes = opened.second;
    std::thread first(add, std::move(nodes[0]));
    std::thread second(add, std::move(nodes[1]));
    first.join();
    second.join();
    qolb::Guard turn(nodes[2]);
    std::cout << turn.lane(0) << '\n';
    return turn.lane(0) != 2000;
}
