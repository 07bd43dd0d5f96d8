#!/usr/bin/env python3
"""Runs programs of other authors with the preload library (c/preload/preload.c), which replaces their mutexes with locks, and compares output, time and memory
with runs without the preload library.

    tools/preloaded.py [--runs 5] [--megabytes 16] [--barging TURNS] [--only NAME ..] [--limit 120] [--keep]

It takes about five minutes on an otherwise idle machine. MEGABYTES is the size of the input of the compression programs, and redis-benchmark makes 500 requests
for each megabyte. A program that takes more than LIMIT seconds is considered to hang.

The programs are Debian's: redis-server with four threads that read and write, under redis-benchmark; memcached, under clients that check each value; mariadbd,
under clients that add to rows and check the sums; CPython, with threads that fork; pigz, pbzip2, zstd and xz with four threads; and sysbench's tests of
mutexes. A program that is not installed is named and left out. Servers listen on 127.0.0.1 or on a socket in a temporary folder, serve one load each, and are
then stopped.

Runs with and without the preload library alternate, RUNS of each. Each run must end successfully within LIMIT, with the same output. One more run uses a
preload library that counts acquisitions; in this run no two threads may hold one mutex at the same time. If one of these checks fails, this program prints it
and ends with status 1. The elapsed time, the processor time and the memory in kilobytes are medians; for a server they cover only its load. A program is within
bounds if it takes at most 1.25 times the elapsed time, and at most 3 KB for each mutex that exists at once plus 1,024 KB for the library above the maximum of
the runs without the preload library. If a program is not within bounds, this program ends with status 2. Times are meaningful only on an otherwise idle
machine, so the output contains the load of the machine.

The table is printed as tab-separated values; with --keep it is also written to c/bench/figures/preloaded.tsv. The program needs the C library (make -C c).
"""

import argparse
import contextlib
import dataclasses
import datetime
import hashlib
import multiprocessing
import os
import pathlib
import random
import re
import shutil
import signal
import socket
import statistics
import subprocess
import sys
import tempfile
import threading
import time

ROOT = pathlib.Path(__file__).resolve().parent.parent
PRELOAD = ROOT / "c/build/preload.so"
# The library that counts, by `make preload-report`.
COUNTING = ROOT / "c/build/preload_report.so"
KEPT = ROOT / "c/bench/figures/preloaded.tsv"
LIMIT = [120]  # seconds, for a program, or to start or end a server
MOST_TIMES, BYTES_EACH, KB_BESIDE = 1.25, 3072, 1024
OTHERS = ": others used the machine, so seconds mean little, and those of processors more"
THREADS = 4


@dataclasses.dataclass
class Run:
    output: str
    seconds: float
    processor: float
    kilobytes: int


class Wrong(Exception):
    """What a program did not do as it should."""


# ---- Programs that end by themselves ----


def used(number):
    """What a process used so far: the seconds of processors, and the most kilobytes; zeros if it has ended."""
    found = re.search(r"VmHWM:\s+(\d+)", pathlib.Path(f"/proc/{number}/status").read_text())
    times = pathlib.Path(f"/proc/{number}/stat").read_text().rpartition(")")[2].split()[11:13]
    return (sum(map(int, times)) / os.sysconf("SC_CLK_TCK"), int(found.group(1))) if found else (0.0, 0)


def ends(words, env, folder, stdin=os.devnull):
    """Runs a program, whose output goes to a file. What it used is as it was at most 10 ms before its end."""
    with open(stdin, "rb") as source, open(folder / "out", "wb") as out, open(folder / "err", "wb") as err:
        since, most = time.monotonic(), (0.0, 0)
        process = subprocess.Popen(words, stdin=source, stdout=out, stderr=err, env=env, cwd=folder)
        try:
            while process.returncode is None and time.monotonic() < since + LIMIT[0]:
                most = max(most, used(process.pid))
                with contextlib.suppress(subprocess.TimeoutExpired):
                    process.wait(0.01)
        finally:
            if process.returncode is None:
                process.kill()
                process.wait()
    spent = time.monotonic() - since
    if process.returncode:
        raise Wrong(f"{' '.join(map(str, words))}: ended with {process.returncode} after {spent:.0f} seconds: {(folder / 'err').read_text()[-500:]}")
    return spent, *most


def together(output, *runs):
    return Run(output, sum(it.seconds for it in runs), sum(it.processor for it in runs), max(it.kilobytes for it in runs))


def command(words, env, folder, stdin=os.devnull, told=None):
    """A run whose output is all that the program printed, or what `told` finds in it."""
    taken = ends(words, env, folder, stdin)
    out = (folder / "out").read_bytes()
    return Run(told(out) if told else hashlib.sha256(out).hexdigest(), *taken)


def packer(*words):
    """A packer with four threads, and what it unpacks."""

    def run(env, folder, plain):
        packed = folder / "packed"
        there = command(words, env, folder, plain)
        shutil.move(folder / "out", packed)
        back = command([words[0], "-d", "-c", *words[3:]], env, folder, packed)
        with open(plain, "rb") as source:
            if hashlib.file_digest(source, "sha256").hexdigest() != back.output:
                raise Wrong(f"{words[0]}: unpacked is not what was packed")
        return together(there.output, there, back)

    return run


def sysbench(env, folder, _):
    told = []
    for test in (["mutex", "--events=2000", "--mutex-num=16", "--mutex-locks=20000", "--mutex-loops=100"], ["threads", "--events=2000", "--thread-locks=3"]):
        words = ["sysbench", test[0], f"--threads={THREADS}", "--time=0", *test[1:], "run"]
        told.append(command(words, env, folder, told=lambda out: str(re.findall(rb"total number of events: +(\d+)", out))))
    return together(" ".join(run.output for run in told), *told)


FORKING = """
import os, threading
count, lock, news = 0, threading.Lock(), threading.Condition()
def child():
    done = []
    threads = [threading.Thread(target=done.append, args=(k,)) for k in range(3)]
    for thread in threads: thread.start()
    for thread in threads: thread.join()
    os._exit(len(done))
def work():
    global count
    for k in range(20000):
        with lock: count += 1
        with news: news.notify()
        if k % 1000 == 0:
            number = os.fork() or child()
            assert os.waitstatus_to_exitcode(os.waitpid(number, 0)[1]) == 3
threads = [threading.Thread(target=work) for _ in range(8)]
for thread in threads: thread.start()
for thread in threads: thread.join()
print(count)
"""


def python(env, folder, _):
    """Eight threads fork 20 times each, and each child starts three."""
    return command(["/usr/bin/python3", "-c", FORKING], env, folder)


# ---- Servers ----


def free_port():
    with socket.socket() as it:
        it.bind(("127.0.0.1", 0))
        return it.getsockname()[1]


class Server:
    """A server, from its start to its end."""

    def __init__(self, words, env, folder, answers):
        self.name, self.log = words[0], folder / "log"
        with open(self.log, "wb") as log:
            self.process = subprocess.Popen(words, stdin=subprocess.DEVNULL, stdout=log, stderr=log, env=env, cwd=folder)
        until = time.monotonic() + LIMIT[0]
        while not answers():
            if self.process.poll() is not None or time.monotonic() > until:
                self.kill()
                raise Wrong(f"{self.name} does not start: {self.log.read_text(errors='replace')[-500:]}")
            time.sleep(0.02)

    def kill(self):
        if self.process.poll() is None:
            self.process.kill()
            self.process.wait()

    def __enter__(self):
        return self

    def __exit__(self, kind, value, trace):
        self.process.send_signal(signal.SIGTERM)
        try:
            status = self.process.wait(LIMIT[0])
        except subprocess.TimeoutExpired as late:
            raise Wrong(f"{self.name} does not end") from late
        finally:
            self.kill()
        if status and not kind:
            raise Wrong(f"{self.name} ended with {status}: {self.log.read_text(errors='replace')[-500:]}")


def connects(port):
    try:
        socket.create_connection(("127.0.0.1", port), 1).close()
    except OSError:
        return False
    return True


def clients(client, *arguments):
    """Runs four client processes at a time, numbered from 0, each of which checks what it is told; returns the seconds of all."""
    since = time.monotonic()
    running = [multiprocessing.Process(target=client, args=(k, *arguments), daemon=True) for k in range(4)]
    for it in running:
        it.start()
    for it in running:
        it.join(max(0, since + LIMIT[0] - time.monotonic()))
        if it.is_alive():
            it.kill()
            it.join()
    spent = time.monotonic() - since
    if any(it.exitcode for it in running):
        raise Wrong(f"{client.__name__} {arguments}: clients ended with {[it.exitcode for it in running]} after {spent:.0f} seconds")
    return spent


def value_of(key, turn):
    return f"{key}:{turn}:".encode() * (1 + (key + turn) % 9)


def redis_client(number, port):
    """Sets and gets 500 keys of its own, 20 times; each answer is compared."""
    keys = range(500 * number, 500 * number + 500)
    with socket.create_connection(("127.0.0.1", port), LIMIT[0]) as link, link.makefile("rb") as answers:
        for turn in range(20):
            asked, wanted = b"", b""
            for key in keys:
                value = value_of(key, turn)
                asked += b"SET k%d %b\r\nGET k%d\r\n" % (key, value, key)
                wanted += b"+OK\r\n$%d\r\n%b\r\n" % (len(value), value)
            link.sendall(asked)
            if answers.read(len(wanted)) != wanted:
                sys.exit(f"redis-server answers otherwise in turn {turn}")


def redis(env, folder, plain):
    port = free_port()
    options = ["--port", str(port), "--bind", "127.0.0.1", "--save", "", "--io-threads", str(THREADS), "--io-threads-do-reads", "yes", "--dir", str(folder)]
    with Server(["redis-server", *options], env, folder, lambda: connects(port)) as server:
        load = ["redis-benchmark", "-p", str(port), "-c", "50", "-n", str(500 * plain.stat().st_size >> 20), "-P", "8", "-q", "-t", "set,get,incr,lpush,lpop"]
        seconds = ends(load, None, folder)[0] + clients(redis_client, port)
        return Run("checked", seconds, *used(server.process.pid))


def memcached_client(number, port):
    """Sets, gets and adds to 500 keys of its own, 20 times over four connections; each answer is compared."""
    links = [socket.create_connection(("127.0.0.1", port), LIMIT[0]) for _ in range(4)]
    files = [link.makefile("rb") for link in links]
    keys = range(500 * number, 500 * number + 500)
    for turn in range(20):
        for link, answers in zip(links, files):
            asked, wanted = b"set n%d 0 0 1\r\n0\r\n" % number, b"STORED\r\n"
            for key in keys:
                value = value_of(key, turn)
                asked += b"set k%d 0 0 %d\r\n%b\r\nget k%d\r\nincr n%d 1\r\n" % (key, len(value), value, key, number)
                wanted += b"STORED\r\nVALUE k%d 0 %d\r\n%b\r\nEND\r\n%d\r\n" % (key, len(value), value, key - keys[0] + 1)
            threading.Thread(target=link.sendall, args=(asked,)).start()
            if answers.read(len(wanted)) != wanted:
                sys.exit(f"memcached answers otherwise in turn {turn}")


def memcached(env, folder, _):
    port = free_port()
    words = ["memcached", "-l", "127.0.0.1", "-p", str(port), "-U", "0", "-t", str(THREADS), "-m", "64", "-u", "root"]
    with Server(words, env, folder, lambda: connects(port)) as server:
        return Run("checked", clients(memcached_client, port), *used(server.process.pid))


ROWS, ADDED = 10, 200


def mariadb(folder, statements):
    words = ["mariadb", "--no-defaults", "-uroot", "-N", "-S", str(folder / "socket"), "test"]
    return subprocess.run(words, input=statements, capture_output=True, text=True, timeout=LIMIT[0], check=False)


def mariadb_client(number, folder):
    """Adds to each row many times, and writes what it did into a table without keys."""
    work = "".join(f"update sums set n = n + {k} where row = {k % ROWS}; insert into done values ({number}, {k});\n" for k in range(ADDED * ROWS))
    done = mariadb(folder, work)
    if done.returncode:
        sys.exit(done.stderr)


def mariadbd(env, folder, _):
    data = folder / "data"
    if not data.exists():
        install = ["mariadb-install-db", "--no-defaults", "--user=root", "--auth-root-authentication-method=normal", f"--datadir={data}"]
        ends(install, None, folder)
    options = ["--no-defaults", "--user=root", f"--datadir={data}", f"--socket={folder / 'socket'}", "--skip-networking", f"--pid-file={folder / 'pid'}",
               "--innodb-flush-log-at-trx-commit=0", "--innodb-buffer-pool-size=32M"]
    with Server(["mariadbd", *options], env, folder, lambda: mariadb(folder, "select 1").returncode == 0) as server:
        rows = ", ".join(f"({k}, 0)" for k in range(ROWS))
        made = f"drop table if exists sums, done; create table sums (row int primary key, n int) engine=innodb; create table done (client int, k int) engine=innodb; insert into sums values {rows};"
        if (done := mariadb(folder, made)).returncode:
            raise Wrong(f"mariadbd: {done.stderr}")
        seconds = clients(mariadb_client, folder)
        told = mariadb(folder, "select n from sums order by row; select count(*), sum(k) from done;").stdout.split()
        wanted = [str(4 * sum(range(row, ADDED * ROWS, ROWS))) for row in range(ROWS)] + [str(4 * ADDED * ROWS), str(4 * sum(range(ADDED * ROWS)))]
        if told != wanted:
            raise Wrong(f"mariadbd: {told} and not {wanted}")
        return Run(" ".join(told), seconds, *used(server.process.pid))


# ---- Comparing ----

# Its name; the commands that it needs, and the package in which they are; what runs it.
PROGRAMS = {
    "redis-server": (["redis-server", "redis-benchmark"], "redis-server", redis),
    "memcached": (["memcached"], "memcached", memcached),
    "mariadbd": (["mariadbd", "mariadb", "mariadb-install-db"], "mariadb-server", mariadbd),
    "python3": (["/usr/bin/python3"], "python3", python),
    "pigz": (["pigz"], "pigz", packer("pigz", "-n", "-c", f"-p{THREADS}")),
    "pbzip2": (["pbzip2"], "pbzip2", packer("pbzip2", "-c", "-b1", f"-p{THREADS}")),
    "zstd": (["zstd"], "zstd", packer("zstd", "-c", "-q", "-q", "-9", f"-T{THREADS}")),
    "xz": (["xz"], "xz-utils", packer("xz", "-c", "-1", f"-T{THREADS}", "--block-size=1MiB")),
    "sysbench": (["sysbench"], "sysbench", sysbench),
}
COLUMNS = "program seconds_alone seconds_preloaded times processor_alone processor_preloaded kb_alone kb_preloaded kb_allowed mutexes_at_once mutexes turns late not_free within".split()
REPORT = re.compile(r"barging \d+ mutexes (\d+) at once (\d+) grants (\d+) timed out (\d+) not free (\d+) violations (\d+)")


def counted(name, run, env, folder, plain):
    """The run that counts: its output, and the numbers of the process that had the most mutexes. A child writes a line, too."""
    report = folder / "report"
    report.unlink(missing_ok=True)
    output = run(env | {"LD_PRELOAD": str(COUNTING), "QOLB_REPORT": str(report)}, folder, plain).output
    told = [list(map(int, found)) for found in REPORT.findall(report.read_text() if report.exists() else "")]
    if not told or not any(of[2] for of in told):
        raise Wrong(f"{name}: no mutex was a lock: {told}")
    if any(of[5] for of in told):
        raise Wrong(f"{name}: two threads were in one mutex: {told}")
    return output, max(told)


def compare(name, run, env, folder, plain, runs):
    """A line of the table."""
    alone, lined = [], []
    for _ in range(runs):
        alone.append(run(None, folder, plain))
        lined.append(run(env, folder, plain))
    output, (mutexes, at_once, turns, late, not_free, _) = counted(name, run, env, folder, plain)
    if {it.output for it in alone + lined} != {output}:
        raise Wrong(f"{name}: the output differs")
    seconds, processor, kilobytes = [[statistics.median(getattr(it, field) for it in of) for of in (alone, lined)] for field in ("seconds", "processor", "kilobytes")]
    times, allowed = seconds[1] / seconds[0], max(it.kilobytes for it in alone) + at_once * BYTES_EACH // 1024 + KB_BESIDE
    over = ["time"] * (times > MOST_TIMES) + ["memory"] * (kilobytes[1] > allowed)
    figures = [f"{it:.2f}" for it in (*seconds, times, *processor)] + [round(it) for it in kilobytes]
    return [name, *figures, allowed, at_once, mutexes, turns, late, not_free, " ".join(over) or "yes"]


def machine():
    model = re.search(r"model name\s+: (.*)", pathlib.Path("/proc/cpuinfo").read_text()).group(1)
    return f"{os.cpu_count()} processors of an {model}"


def asked_for():
    parser = argparse.ArgumentParser(usage=__doc__)
    parser.add_argument("--runs", type=int, default=5)
    parser.add_argument("--megabytes", type=int, default=16)
    parser.add_argument("--barging")
    parser.add_argument("--only", nargs="+", choices=list(PROGRAMS))
    parser.add_argument("--limit", type=int, default=LIMIT[0])
    parser.add_argument("--keep", action="store_true")
    return parser.parse_args()


def write_plain(path, megabytes):
    draw = random.Random(1)
    words = [draw.randbytes(draw.randrange(2, 12)) for _ in range(4000)]
    with open(path, "wb") as out:
        while out.tell() < megabytes << 20:
            out.write(b" ".join(draw.choices(words, k=20000)))


def lines(asked, folder):
    """The lines of the table, each as soon as it is measured; None for a program that did not do as it should."""
    plain = folder / "plain"
    write_plain(plain, asked.megabytes)
    env = dict(os.environ) | {"LD_PRELOAD": str(PRELOAD)}
    env |= {"QOLB_BARGING": asked.barging} if asked.barging else {}
    for name, (commands, package, run) in PROGRAMS.items():
        if asked.only and name not in asked.only:
            continue
        if missing := [it for it in commands if not shutil.which(it)]:
            print(f"{name} is left out: {' '.join(missing)} of Debian's package {package} is not installed", file=sys.stderr)
            continue
        own = folder / name
        own.mkdir()
        try:
            yield compare(name, run, env, own, plain, asked.runs)
        except (Wrong, subprocess.TimeoutExpired) as wrong:
            print(wrong, file=sys.stderr)
            yield None


def main():
    asked = asked_for()
    LIMIT[0] = asked.limit
    signal.signal(signal.SIGTERM, lambda *_: sys.exit("ended by SIGTERM"))  # so that servers and clients end
    os.environ["PATH"] += ":/usr/sbin"
    subprocess.run(["make", "-s", "-C", ROOT / "c", "library", "preload-report"], check=True, stdout=subprocess.DEVNULL)
    load, all_of = os.getloadavg()[0], []
    print("\t".join(COLUMNS), flush=True)
    with tempfile.TemporaryDirectory() as name:
        for line in lines(asked, pathlib.Path(name)):
            all_of.append(line)
            if line:
                print("\t".join(map(str, line)), flush=True)
    if not all_of:
        sys.exit("no program was run")
    head = ["Programs with their mutexes as locks, beside runs of their own: medians, and counts of one run.",
            f"date {datetime.date.today()}", f"machine {machine()}", f"command {' '.join(['tools/preloaded.py', *sys.argv[1:]])}",
            f"load of the machine before {load:.1f}, afterwards {os.getloadavg()[0]:.1f}, with these programs{OTHERS * (load > 1)}"]
    table = [f"# {line}" for line in head] + ["\t".join(map(str, line)) for line in [COLUMNS, *filter(None, all_of)]]
    print("\n".join(table[: len(head)]))
    if asked.keep and None not in all_of:
        KEPT.write_text("\n".join(table) + "\n")
    sys.exit(1 if None in all_of else 2 if any(line[-1] != "yes" for line in all_of) else 0)


main()
