#!/usr/bin/env python3
"""Proves and builds the libraries that a crate stands on, as many side by side as there are processors, and shows how far
it is.

    python3 tools/prove.py CRATE

What each check printed stands in crates/NAME/out/quickstart.log."""

import concurrent.futures
import os
import subprocess
import sys
import threading
import time

TOP = os.path.dirname(os.path.dirname(os.path.abspath(__file__)))
GIGABYTES_A_CHECK = 4


def crates():
    """Each crate of the repository, and the crates that it stands on."""
    found = {}
    with open(os.path.join(TOP, "crates.txt"), encoding="utf-8") as file:
        for line in file:
            name, colon, below = line.split("#")[0].partition(":")
            if colon:
                found[name.split()[0]] = below.split()
    return {name: [it for it in below if it in found] for name, below in found.items()}


def needed(known, crate):
    """The crates below one, those that others stand on first."""
    order = []

    def visit(name):
        for below in known[name]:
            visit(below)
        if name not in order:
            order.append(name)

    for below in known[crate]:
        visit(below)
    return order


def lanes():
    """As many checks as there are processors, and memory for."""
    pages = os.sysconf("SC_PHYS_PAGES") * os.sysconf("SC_PAGE_SIZE")
    return max(1, min(os.cpu_count() or 1, pages // (GIGABYTES_A_CHECK << 30)))


class Progress:
    def __init__(self, total):
        self.total = total
        self.done = 0
        self.lock = threading.Lock()

    def tell(self, name, seconds, well):
        with self.lock:
            self.done += 1
            print("  %2d of %d  %-14s %s after %d seconds" % (
                self.done, self.total, name, "proved" if well else "NOT PROVED", seconds), flush=True)


def prove(name, jobs, progress):
    folder = os.path.join(TOP, "crates", name)
    log = os.path.join(folder, "out", "quickstart.log")
    os.makedirs(os.path.dirname(log), exist_ok=True)
    begun = time.monotonic()
    with open(log, "w", encoding="utf-8") as out:
        status = subprocess.run(["rt", "lib", "--jobs", str(jobs)], cwd=folder, stdout=out, stderr=subprocess.STDOUT,
                                stdin=subprocess.DEVNULL, check=False).returncode
    progress.tell(name, time.monotonic() - begun, status == 0)
    if status:
        with open(log, encoding="utf-8") as said:
            sys.stderr.write("".join(said.readlines()[-20:]))
    return status == 0


def prove_all(known, order):
    """Begins each crate once those below it are there; stops where one is not proved."""
    count = lanes()
    progress = Progress(len(order))
    left, built, running = list(order), set(), {}
    with concurrent.futures.ThreadPoolExecutor(count) as pool:
        while left or running:
            ready = [name for name in left if all(below in built for below in known[name])]
            for name in ready[:count - len(running)]:
                left.remove(name)
                jobs = max(1, count // max(1, min(count, len(ready))))
                running[pool.submit(prove, name, jobs, progress)] = name
            done, _ = concurrent.futures.wait(running, return_when=concurrent.futures.FIRST_COMPLETED)
            for future in done:
                name = running.pop(future)
                if not future.result():
                    return False
                built.add(name)
    return True


def main(words):
    known = crates()
    if len(words) != 1 or words[0] not in known:
        print(__doc__.strip(), file=sys.stderr)
        return 2
    return 0 if prove_all(known, needed(known, words[0])) else 1


if __name__ == "__main__":
    sys.exit(main(sys.argv[1:]))
