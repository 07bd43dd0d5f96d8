// Two threads move money between accounts, in C++14 or later. The accounts can only be used while their lock is held.
// Prints 100.
#include <iostream>
#include <qolb.hpp>
#include <thread>

struct Accounts {
    long first, second;
};

static qolb::guarded<Accounts> accounts(Accounts{100, 0});

static void move(long amount) {
    for (int round = 0; round < 1000; round++)
        accounts.with([amount](Accounts &it) { // waits for the thread's turn
            it.first -= amount;
            it.second += amount;
        });
}

int main() {
    std::thread there(move, 3);
    std::thread back(move, -3);
    there.join();
    back.join();
    Accounts last = accounts.load();
    std::cout << last.first + last.second << '\n';
    return last.first != 100 || last.second != 0;
}
