#!/usr/bin/env python3
"""Threads that commit, by `im_bench_commits` and by the stores of commits.cc, in turn on one disk.

    commits.py OURS PEERS FOLDER LOG ROUNDS THREADS:COMMITS,.. [NAME,..]

OURS is the program of crates/im_bench_commits, PEERS that of commits.cc. A round goes over the numbers of threads, and with each over the names: once
forward, once backward, so that no one always comes first. Each run has a new folder below FOLDER. LOG gets a line for each run, with the machine's load
and what a write of 4 KiB with its sync took just before, in microseconds. Then a table is printed: commits a second, the middle of all rounds and within
brackets the least and the most, and of our store the forces a commit; then how many times as fast `group` was as each other, in the middle of the rounds.
"""
import os
import re
import shutil
import statistics
import subprocess
import sys
import time

OURS = ["group", "alone", "own"]
PEERS = ["lmdb", "sqlite", "bdb", "wiredtiger", "rocksdb"]


def sync_time(folder):
    """Microseconds of a write of 4 KiB and its sync, the middle of 20."""
    path = os.path.join(folder, "probe")
    fd = os.open(path, os.O_CREAT | os.O_WRONLY)
    os.pwrite(fd, b"x" * 4096, 0)
    os.fdatasync(fd)
    times = []
    for _ in range(20):
        start = time.monotonic()
        os.pwrite(fd, b"y" * 4096, 0)
        os.fdatasync(fd)
        times.append(time.monotonic() - start)
    os.close(fd)
    os.unlink(path)
    return statistics.median(times) * 1e6


def run(program, folder, name, threads, commits, log):
    """Commits a second, and forces a commit, of one run; none where it failed."""
    store = os.path.join(folder, "store")
    shutil.rmtree(store, ignore_errors=True)
    if name in PEERS:
        os.mkdir(store)
    sync = sync_time(folder)
    done = subprocess.run([program, store, name, str(threads), str(commits)], capture_output=True, text=True, timeout=600)
    shutil.rmtree(store, ignore_errors=True)
    text = done.stdout.strip() if done.returncode == 0 else "FAILED " + done.stderr.strip()
    print(f"{time.strftime('%H:%M:%S')} load {os.getloadavg()[0]:.1f} sync {sync:.0f} us | {text}", file=log, flush=True)
    found = re.search(r"(\d+) a second(?:, (\d+) forces)?", text)
    if not found:
        return None
    return int(found.group(1)), int(found.group(2) or 0) / (threads * commits)


def main():
    if len(sys.argv) not in (7, 8):
        sys.exit(__doc__)
    ours, peers, folder, log_path, rounds = sys.argv[1], sys.argv[2], sys.argv[3], sys.argv[4], int(sys.argv[5])
    work = [tuple(map(int, pair.split(":"))) for pair in sys.argv[6].split(",")]
    names = sys.argv[7].split(",") if len(sys.argv) == 8 else OURS + PEERS
    os.makedirs(folder, exist_ok=True)
    rates = {(name, threads): [] for name in names for threads, _ in work}
    loads = []
    with open(log_path, "a") as log:
        for turn in range(rounds):
            for threads, commits in work:
                for name in names if turn % 2 == 0 else reversed(names):
                    loads.append(os.getloadavg()[0])
                    rates[name, threads].append(run(ours if name in OURS else peers, folder, name, threads, commits, log))

    def cell(name, threads):
        good = [rate for rate in rates[name, threads] if rate]
        if not good:
            return "-"
        seconds = [rate[0] for rate in good]
        text = f"{statistics.median(seconds):,.0f} ({min(seconds):,} to {max(seconds):,})"
        return text + (f", {statistics.median(rate[1] for rate in good):.2f}" if name in OURS else "")

    def times(name, threads):
        pairs = [(one, other) for one, other in zip(rates["group", threads], rates[name, threads]) if one and other]
        return f"{statistics.median(one[0] / other[0] for one, other in pairs):.2f}" if pairs else "-"

    head = "| | " + " | ".join(str(threads) for threads, _ in work) + " |\n" + "|---" * (len(work) + 1) + "|"
    print(f"{rounds} rounds, load {min(loads):.0f} to {max(loads):.0f}. Commits a second:\n\n{head}")
    for name in names:
        print(f"| {name} | " + " | ".join(cell(name, threads) for threads, _ in work) + " |")
    if "group" in names:
        print(f"\n`group` beside each other, times as fast, pair by pair:\n\n{head}")
        for name in names:
            if name != "group":
                print(f"| {name} | " + " | ".join(times(name, threads) for threads, _ in work) + " |")


main()
