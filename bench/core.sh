#!/usr/bin/env bash
# Time and memory of 20,000 and of 200,000 steps that are asked of a world of eight processors over the writer's engine, played from a
# script: gets, sets of 40 volatile and non-volatile variables, and questions about the policies, in an order that looks random. A step of
# the longer play may take at most twice as long, and each step at most 50 microseconds. The script and its report are part of what is
# measured.
# usage: bench/core.sh [PROGRAM]      (default: the program that ./varsvc builds)
set -eu
top="$(cd "$(dirname "${BASH_SOURCE[0]}")/.." && pwd)"
program="${1:-$top/crates/varsvc/out/varsvc}"
[ -x "$program" ] || "$top/varsvc" play </dev/null >/dev/null

exec python3 - "$program" <<'PYTHON'
import os, random, subprocess, sys, tempfile, time

VENDOR = "8be4df6193ca11d2aa0d00e098032b8c"
PROCESSORS = 8
MOST_BYTES = 1_048_576
# How many steps a call takes at least: a get from the cache, a set that is deferred, a question about the policies.
GET, SET, ASK = 6, 7, 3
RUNS = 3


def calls(steps, draw):
    """Calls of a processor with at least so many steps."""
    lines = []
    while steps > 0:
        kind = draw.randrange(32)
        number = draw.randrange(40)
        if kind < 4:
            lines.append(f"get {VENDOR} v{number} 9")
            steps -= GET
        elif kind < 5:
            lines.append(f"set {VENDOR} v{number} {6 + number % 2} {draw.randrange(256):02x}")
            steps -= SET
        else:
            lines.append("enabled")
            steps -= ASK
    return lines


def script(steps):
    draw = random.Random(steps)
    lists = [calls(steps // PROCESSORS, draw) for _ in range(PROCESSORS)]
    lines = [f"{p} {line}" for p, list_ in enumerate(lists) for line in list_]
    lines.append("schedule")
    while steps > 0:
        count = draw.randrange(1, 24)
        lines.append(f"{draw.randrange(PROCESSORS)} {min(count, steps)}")
        steps -= count
    text = ("\n".join(lines) + "\n").encode()
    assert len(text) <= MOST_BYTES, len(text)
    return text


def measure(program, steps):
    """The least seconds of some plays, the most KiB, and how many calls were answered and how many changes made."""
    text = script(steps)
    best = kib = None
    with tempfile.TemporaryDirectory() as folder:
        memory = os.path.join(folder, "kib")
        for _ in range(RUNS):
            begin = time.monotonic()
            done = subprocess.run(["/usr/bin/time", "-f", "%M", "-o", memory, program, "play"], input=text, stdout=subprocess.PIPE, check=True)
            seconds = time.monotonic() - begin
            best = seconds if best is None else min(best, seconds)
            with open(memory) as file:
                kib = max(kib or 0, int(file.read()))
    report = done.stdout.decode().splitlines()
    answered = sum(int(line.split()[3]) for line in report if line.startswith("processor"))
    return best, kib, answered, int(report[0].split()[1])


def main(program):
    times = {}
    for steps in (20_000, 200_000):
        seconds, kib, answered, made = measure(program, steps)
        times[steps] = seconds
        print(f"{steps} steps: {answered} calls answered, {made} changes, {seconds:.3f} s, {seconds / steps * 1e9:.0f} ns a step, {kib} KiB")
    slow = times[200_000] / 10 > 2 * times[20_000] or max(times[n] / n for n in times) > 50e-6
    return 1 if slow else 0


sys.exit(main(sys.argv[1]))
PYTHON
