// A server on 127.0.0.1 whose connections share a lock or a line. The connections are C++20 coroutines, which run first
// on one event loop and then on four. This file is meant as a template.
//
// When a client sends 'L', its connection acquires the lock, and the client receives a number of 8 bytes. When the
// client sends 'U', the connection adds 1 to the number and releases the lock. A client may disconnect at any time: its
// coroutine is then destroyed, which withdraws its request. No event loop ever blocks on the lock.
//
//   build/server_cpp [CONNECTIONS [ROUNDS]]
//
// The clients run in the same program, which prints only errors. A program that already has a loop and coroutines needs
// only by_lock or by_node, and post and unpost.
#include <qolb.hpp>

#include <arpa/inet.h>
#include <atomic>
#include <cstdio>
#include <cstdlib>
#include <mutex>
#include <sys/epoll.h>
#include <sys/eventfd.h>
#include <sys/socket.h>
#include <thread>
#include <unistd.h>
#include <vector>

static void must(bool is_so, const char *what) {
    if (is_so) return;
    std::perror(what);
    std::abort();
}

// ---- The server ----

// A coroutine that begins at once, and is destroyed at its end.
struct Job {
    struct promise_type {
        Job get_return_object() { return {}; }
        std::suspend_never initial_suspend() noexcept { return {}; }
        std::suspend_never final_suspend() noexcept { return {}; }
        void return_void() {}
        void unhandled_exception() { std::abort(); }
    };
};

class Client;

// A thread's loop: it resumes a coroutine whose client sent a byte, or that was posted.
class Loop {
  public:
    Loop() { watch(posts_, nullptr); }
    ~Loop() { close(posts_), close(epoll_); }
    Loop(const Loop &) = delete;

    // Any thread may call it.
    void post(qolb::Ready &it) {
        std::lock_guard<std::mutex> held(mutex_);
        it.posted = true, it.next = nullptr, it.before = last_;
        (last_ ? last_->next : first_) = &it;
        last_ = &it;
        eventfd_write(posts_, 1);
    }
    // The loop's thread calls it.
    void unpost(qolb::Ready &it) {
        std::lock_guard<std::mutex> held(mutex_);
        if (it.posted) out(it);
    }
    void watch(int fd, Client *client) {
        epoll_event event{EPOLLIN, {client}};
        must(epoll_ctl(epoll_, EPOLL_CTL_ADD, fd, &event) == 0, "epoll_ctl");
    }
    // Serves until the last client has disconnected.
    void run();
    int clients = 0;

  private:
    void out(qolb::Ready &it) {
        (it.before ? it.before->next : first_) = it.next;
        (it.next ? it.next->before : last_) = it.before;
        it.posted = false;
    }
    void run_posted() {
        eventfd_t count;
        eventfd_read(posts_, &count);
        for (;;) {
            std::unique_lock<std::mutex> held(mutex_);
            qolb::Ready *it = first_;
            if (!it) return;
            out(*it);
            held.unlock();
            it->run();
        }
    }

    int epoll_ = epoll_create1(0), posts_ = eventfd(0, EFD_NONBLOCK);
    std::mutex mutex_;
    qolb::Ready *first_ = nullptr, *last_ = nullptr;
};

// A connection, which its coroutine owns.
class Client {
  public:
    Client(Loop &loop, int socket) : loop_(loop), socket_(socket) {
        loop_.clients++;
        loop_.watch(socket_, this);
    }
    ~Client() {
        close(socket_);
        loop_.clients--;
    }
    Client(const Client &) = delete;

    // co_await of it returns the next byte, or 0 once the client has disconnected.
    auto byte() {
        struct Byte {
            Client &of;
            bool await_ready() { return false; }
            void await_suspend(std::coroutine_handle<> reader) { of.coroutine_ = reader, of.reads_ = true; }
            char await_resume() {
                char it = 0;
                return recv(of.socket_, &it, 1, MSG_DONTWAIT) == 1 ? it : '\0';
            }
        };
        return Byte{*this};
    }
    // It need not check for errors: if the client has disconnected, byte() will say so.
    void send(std::uint64_t number) { (void)!::send(socket_, &number, sizeof number, MSG_NOSIGNAL); }

    // Handles a byte that arrived, or that the client has disconnected. A client sends nothing while it waits for the
    // lock.
    void has_event() {
        if (std::exchange(reads_, false)) coroutine_.resume();
        else coroutine_.destroy();
    }

  private:
    Loop &loop_;
    int socket_;
    bool reads_ = false;
    std::coroutine_handle<> coroutine_;
};

// Handles one event at a time, because a second event may be of a client that the first one has ended.
void Loop::run() {
    epoll_event event;
    while (clients > 0) {
        if (epoll_wait(epoll_, &event, 1, -1) != 1) continue;
        if (auto *client = static_cast<Client *>(event.data.ptr)) client->has_event();
        else run_posted();
    }
}

// Serves a connection with a lock, for which there may be any number of connections.
static Job by_lock(Loop &loop, int socket, qolb::Lock &lock, std::uint64_t &number) {
    Client client(loop, socket);
    for (;;) {
        char asks = co_await client.byte(); // a variable, because GCC 12 miscompiles some conditions with a co_await
        if (asks != 'L') co_return;
        qolb::Entered turn = co_await qolb::enter(lock, loop);
        if (!turn) co_return;
        client.send(number);
        char ends = co_await client.byte();
        if (ends != 'U') co_return; // the lock is left at the end of the scope
        number++;
    }
}

// Serves a connection with a line, for which each connection has a node. The number is in the line.
static Job by_node(Loop &loop, int socket, qolb::Node node) {
    Client client(loop, socket);
    for (;;) {
        char asks = co_await client.byte();
        if (asks != 'L') co_return;
        qolb::Got got = co_await qolb::turn(node, loop);
        if (got != qolb::Got::granted) co_return;
        qolb::Guard turn(node, std::adopt_lock);
        client.send(turn.lane(0));
        char ends = co_await client.byte();
        if (ends != 'U') co_return;
        turn.add_to_lane(0, 1);
    }
}

// ---- The clients ----

// Acquires and releases. The last client disconnects while it waits, and the one before it while it holds the lock.
// Returns the number of its additions.
static int is_client(const sockaddr_in &address, int which, int rounds) {
    int fd = socket(AF_INET, SOCK_STREAM, 0), round = 0;
    must(connect(fd, reinterpret_cast<const sockaddr *>(&address), sizeof address) == 0, "connect");
    for (; round < rounds; round++) {
        std::uint64_t number;
        must(send(fd, "L", 1, MSG_NOSIGNAL) == 1, "send");
        if (which == 0 && round == rounds / 2) break;
        must(recv(fd, &number, sizeof number, MSG_WAITALL) == sizeof number, "recv");
        if (which == 1 && round == rounds / 2) break;
        must(send(fd, "U", 1, MSG_NOSIGNAL) == 1, "send");
    }
    close(fd);
    return round;
}

// ---- A run ----

static int listens(sockaddr_in &address) {
    int fd = socket(AF_INET, SOCK_STREAM, 0);
    socklen_t size = sizeof address;
    address.sin_family = AF_INET;
    address.sin_addr.s_addr = htonl(INADDR_LOOPBACK);
    auto *of = reinterpret_cast<sockaddr *>(&address);
    must(bind(fd, of, size) == 0 && listen(fd, 200) == 0 && getsockname(fd, of, &size) == 0, "listen");
    return fd;
}

// Serves each connection by a coroutine that `serves` makes, with `many` loops. Returns the number of additions.
template <class Serves> static long run(int many, int connections, int rounds, Serves serves) {
    sockaddr_in address{};
    int server = listens(address);
    std::atomic<long> added{0};
    std::vector<Loop> loops(static_cast<std::size_t>(many));
    std::vector<std::thread> threads;
    for (int k = 0; k < connections; k++) threads.emplace_back([&, k] { added += is_client(address, k, rounds); });
    for (int k = 0; k < connections; k++) {
        int socket = accept(server, nullptr, nullptr);
        must(socket >= 0, "accept");
        serves(loops[static_cast<std::size_t>(k % many)], socket);
    }
    for (Loop &it : loops) threads.emplace_back([&it] { it.run(); });
    for (std::thread &it : threads) it.join();
    close(server);
    return added;
}

int main(int argc, char **argv) {
    int connections = argc > 1 ? std::atoi(argv[1]) : 40, rounds = argc > 2 ? std::atoi(argv[2]) : 20;
    if (connections < 2 || connections >= 200) return 2;
    alarm(120);
    for (int many : {1, 4}) {
        qolb::Lock lock;
        std::uint64_t number = 0;
        long added = run(many, connections, rounds,
                         [&](Loop &loop, int socket) { by_lock(loop, socket, lock, number); });
        if (static_cast<long>(number) != added) return 1;
        auto [opened, nodes] = qolb::Node::open(QOLB_DEFAULT, 1, static_cast<std::uint64_t>(connections) + 1,
                                                qolb_bytes{});
        if (opened != QOLB_DONE) return 1;
        std::vector<qolb::Node> &left = nodes; // lambdas of older compilers cannot capture a structured binding
        added = run(many, connections, rounds, [&left](Loop &loop, int socket) {
            by_node(loop, socket, std::move(left.back()));
            left.pop_back();
        });
        if (static_cast<long>(qolb::Guard(left.back()).lane(0)) != added) return 1;
    }
}
