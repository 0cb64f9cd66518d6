#!/usr/bin/env python3
"""Tells what a gate costs, by crate, from samples of its processes.

Use: minutes.py watch PID SAMPLES     samples the process PID of a running `rt ci` and all below it, until it ends
     minutes.py show SAMPLES          prints a table of them
     minutes.py reckon SAMPLES        prints the longest chain of proofs, and how long they take on 2 and on 4 processors

The table has seconds of the processor: of proofs (with the library that is written), of must-fail edits (with the proof that they begin with), and of the
rest, which is tests, programs and the compiler's work; and the greatest memory of one process in MB. A process is seen every two seconds, so what is shorter
than that may be missed, and the last two seconds of each are not counted. Rows are in the order of crates.txt; "-" stands for what was not seen. What is reckoned
supposes that processors do nothing else, and takes crates as the gate does: of those whose libraries are proved the one first that has the longest chain above it.
"""
import collections
import os
import re
import sys
import time

TOP = os.path.dirname(os.path.dirname(os.path.abspath(__file__)))
PAUSE, TICKS, PAGE = 2, os.sysconf("SC_CLK_TCK"), os.sysconf("SC_PAGE_SIZE")
KINDS = {"build": "proofs", "check": "edits"}


def read(pid, name):
    with open(f"/proc/{pid}/{name}", "rb") as given:
        return given.read()


def stat(pid):
    """The parent, the ticks of the processor, the start and the bytes in memory of a process."""
    fields = read(pid, "stat").rsplit(b")", 1)[1].split()
    return int(fields[1]), int(fields[11]) + int(fields[12]), int(fields[19]), int(fields[21]) * PAGE


def below(root):
    """What stat tells of each process that the process `root` began, or that one of these began."""
    told, children = {}, collections.defaultdict(list)
    for pid in filter(str.isdigit, os.listdir("/proc")):
        try:
            told[int(pid)] = stat(pid)
            children[told[int(pid)][0]].append(int(pid))
        except OSError:
            pass
    waiting = list(children[root])
    while waiting:
        pid = waiting.pop()
        yield pid, told[pid]
        waiting += children[pid]


def work_of(pid):
    """Which kind of work a process does, and for which crate."""
    words = read(pid, "cmdline").decode(errors="replace").split("\0")
    crate = next((words[n + 1] for n, word in enumerate(words[:-1]) if word == "--crate-name"), "")
    folder = re.search(r"/crates/([a-z0-9_]+)", " ".join([os.readlink(f"/proc/{pid}/cwd"), *words]))
    is_prover = os.path.basename(words[0]) == "rattle" and len(words) > 1
    # A program is proved by a check, and its builds follow.
    kinds = {"check": "proofs"} if "src/main.rt" in words else KINDS
    return kinds.get(words[1], "rest") if is_prover else "rest", crate or (folder.group(1) if folder else "-")


def watch(root, path):
    with open(path, "w") as out:
        while os.path.exists(f"/proc/{root}"):
            for pid, (_, ticks, start, memory) in below(root):
                try:
                    kind, crate = work_of(pid)
                except OSError:
                    continue
                print(pid, start, kind, crate, f"{ticks / TICKS:.2f}", memory // 1000000, file=out)
            out.flush()
            time.sleep(PAUSE)


def sums_of(path):
    """The seconds of each crate and kind of work, and the greatest memory of each crate."""
    processes = {}
    with open(path) as given:
        for line in given:
            pid, start, kind, crate, seconds, memory = line.split()
            most = processes.setdefault((pid, start, kind, crate), [0.0, 0])
            most[:] = max(most[0], float(seconds)), max(most[1], int(memory))
    sums, peaks = collections.Counter(), collections.Counter()
    for (_, _, kind, crate), (seconds, memory) in processes.items():
        sums[crate, kind] += seconds
        peaks[crate] = max(peaks[crate], memory)
    return sums, peaks


def crates():
    """The crates of crates.txt, in its order, with those of them that each names."""
    with open(os.path.join(TOP, "crates.txt")) as given:
        lines = [line.split("#")[0].split(":") for line in given if ":" in line]
    names = {head.split()[0]: rest.split() for head, rest in lines}
    return {name: [it for it in rest if it in names] for name, rest in names.items()}


def show(path):
    sums, peaks = sums_of(path)
    order = list(crates())
    columns = ("proofs", "edits", "rest")
    print("| crate | proofs, s | edits, s | tests, programs, s | memory, MB |\n|---|---|---|---|---|")
    for crate in order + sorted({crate for crate, _ in sums} - set(order)):
        figures = [f"{sums[crate, kind]:.0f}" if (crate, kind) in sums else "-" for kind in columns]
        print(f"| {crate} | {' | '.join(figures)} | {peaks[crate] or '-'} |")
    totals = [sum(value for (_, kind), value in sums.items() if kind == wanted) for wanted in columns]
    print(f"| all | {' | '.join(f'{total:.0f}' for total in totals)} | {max(peaks.values(), default=0)} |")


def schedule(below, seconds, behind, lanes):
    """How long the proofs take on so many processors."""
    now, left, running, done = 0.0, set(below), [], set()
    while left or running:
        ready = sorted((it for it in left if done.issuperset(below[it])), key=lambda it: -behind[it])
        for it in ready[: lanes - len(running)]:
            left.remove(it)
            running.append((now + seconds[it], it))
        now, ended = min(running)
        running.remove((now, ended))
        done.add(ended)
    return now


def reckon(path):
    sums, _ = sums_of(path)
    below = crates()
    seconds = {it: sums[it, "proofs"] for it in below}
    above = {it: [other for other in below if it in below[other]] for it in below}
    behind = {}
    def chain(it):
        if it not in behind:
            behind[it] = seconds[it] + max(map(chain, above[it]), default=0)
        return behind[it]
    at, way = max(below, key=chain), []
    while at:
        way.append(f"{at} {seconds[at]:.0f}")
        at = max(above[at], key=chain, default=None)
    print(f"all proofs: {sum(seconds.values()) / 60:.1f} minutes of a processor")
    print(f"longest chain: {max(behind.values()) / 60:.1f} minutes, {len(way)} crates: {', '.join(way)}")
    for lanes in (2, 4):
        print(f"on {lanes} processors: {schedule(below, seconds, behind, lanes) / 60:.1f} minutes")


def main():
    if len(sys.argv) == 4 and sys.argv[1] == "watch":
        watch(int(sys.argv[2]), sys.argv[3])
    elif len(sys.argv) == 3 and sys.argv[1] == "show":
        show(sys.argv[2])
    elif len(sys.argv) == 3 and sys.argv[1] == "reckon":
        reckon(sys.argv[2])
    else:
        sys.exit(__doc__)


if __name__ == "__main__":
    main()
