// Threads that start and end add to a count that a lock protects, and to a table that a barging lock protects.
#include <cstdio>
#include <map>
#include <mutex>
#include <qolb.hpp>
#include <thread>
#include <vector>

static qolb::lock lock;
static qolb::guarded<std::map<int, long>> visits({}, qolb::barging{1024});

int main() {
    long count = 0;
    for (int wave = 0; wave < 2; wave++) {
        std::vector<std::thread> threads;
        for (int page = 0; page < 4; page++)
            threads.emplace_back([&, page] {
                for (int round = 0; round < 500; round++) {
                    visits.with([page](std::map<int, long> &table) { table[page]++; });
                    std::lock_guard<qolb::lock> turn(lock);
                    count++;
                }
            });
        for (std::thread &thread : threads) thread.join();
    }
    long sum = 0;
    for (auto &page : visits.load()) sum += page.second;
    std::printf("%ld\n", count);
    return sum == count ? 0 : 1;
}
