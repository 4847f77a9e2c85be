#!/usr/bin/env bash
# Time, instructions and peak memory of the built program on scripts of several kinds, each run on an image without variables, and how its
# time grows with the number of calls; of the non-volatile sets also the share that the system takes, which is the file's.
# Needs GNU time (Debian's package `time`) and python3; instructions are counted where valgrind is there.
# usage: bench/scripts.sh [PROGRAM]      (default: the program that ./varsvc builds)
set -eu
top="$(cd "$(dirname "${BASH_SOURCE[0]}")/.." && pwd)"
program="${1:-$top/crates/varsvc/out/varsvc}"
[ -x "$program" ] || "$top/varsvc" list none >/dev/null || true

exec python3 - "$program" <<'PYTHON'
import itertools, os, re, resource, shutil, subprocess, sys, tempfile, time

GUID = "8be4df61-93ca-11d2-aa0d-00e098032b8c"
SHORT_GUID = GUID.replace("-", "")
RUNS = 15
# What a call, its answer and its place in the history take in their lists, and what the allocator adds to a block, of which the least has 32
# bytes.
CALL, ANSWER, PLACE, HEAD, LEAST = 88, 176, 176, 16, 32
SLACK = 256 * 1024
# Sizes of data from 1 to 200 bytes, small ones mostly, so that 13,000 sets fit a script.
SIZES = (1, 3, 8, 200, 5, 13, 2, 10, 1, 20, 4, 7, 11, 60, 1, 2, 9, 7, 3, 6, 2, 2, 1, 5)


def block(size):
    return max(LEAST, (size + HEAD + 15) // 16 * 16) if size else 0


class Kind:
    """The lines of a script, and the bytes of its names, its data and the replies' data."""

    def __init__(self):
        self.lines, self.held = [], 0

    def call(self, line, name=0, data=0, reply=0):
        self.lines.append("0 " + line)
        self.held += CALL + ANSWER + PLACE + block(2 * name) + block(data) + block(reply)
        if line.startswith("set "):
            # A change keeps the call once more, and the bytes that it turned: a record, state bytes, and the list of these pieces.
            self.held += block(2 * name) + block(data) + block(62 + 2 * name + data) + block(144) + 3 * LEAST

    def text(self, size=0):
        text = "\n".join(self.lines) + "\n"
        if size:
            text += "#" * (size - len(text) - 1) + "\n"
        return text.encode()


def mixed(calls):
    """Sets and gets in turn over 64 names."""
    kind = Kind()
    for i in range(calls):
        name = chr(ord("0") + i // 2 % 64)
        if i % 2 == 0:
            kind.call(f"set {GUID} {name} 6 {i // 2 % 256:02x}", 1, 1)
        else:
            kind.call(f"get {GUID} {name} 9", 1, 0, 1)
    return kind


def gets(calls):
    """Gets over 64 names."""
    kind = Kind()
    for i in range(64):
        kind.call(f"set {GUID} N{i:03} 6 {i:02x}", 4, 1)
    for i in range(calls - 64):
        kind.call(f"get {GUID} N{i % 64:03} 9", 4, 0, 1)
    return kind


def sets(calls):
    """Sets over 200 keys, of 1 to 200 bytes, which are not kept in the image."""
    kind = Kind()
    for i, size in zip(range(calls), itertools.cycle(SIZES)):
        data = bytes((i // 200 + j) % 256 for j in range(size)).hex()
        kind.call(f"set {SHORT_GUID} {chr(65 + i % 200 // 20)}{chr(97 + i % 20)} 6 {data}", 2, size)
    return kind


def kept(calls):
    """Sets over 40 keys that are kept in the image, of 1 to 24 bytes."""
    kind = Kind()
    for i in range(calls):
        size = 1 + i % 24
        data = bytes((i // 40 + j) % 256 for j in range(size)).hex()
        kind.call(f"set {SHORT_GUID} K{i % 40:02} 7 {data}", 3, size)
    return kind


def appends(calls):
    """Appends of one byte to one variable, up to near the largest record."""
    kind = Kind()
    first = 33592 - calls
    kind.call(f"set {GUID} A 6 " + "5a" * first, 1, first)
    for i in range(calls):
        kind.call(f"set {GUID} A 0x46 {i % 256:02x}", 1, 1)
    return kind


def walks(calls):
    """Walks at runtime over 200 keys, of which half are hidden."""
    kind = Kind()
    for i in range(200):
        kind.call(f"set {GUID} W{i:03} {6 if i % 2 else 2} {i:02x}", 4, 1)
    kind.call("exitboot")
    names = ["-"] + [f"W{i:03}" for i in range(1, 200, 2)]
    for i in range(calls - 201):
        kind.call(f"next {GUID} {names[i % len(names)]} 64", 4, 0, 8)
    return kind


def large(calls):
    """Gets of a variable of 33,000 bytes."""
    kind = Kind()
    kind.call(f"set {GUID} Big 6 " + "a5" * 33000, 3, 33000)
    for _ in range(calls):
        kind.call(f"get {GUID} Big 33000", 3, 0, 33000)
    return kind


def measure(program, text, runs):
    """The least time of some runs in seconds, the system's share of it, the peak in bytes, the report's length, and the instructions."""
    best, share = None, 0
    with tempfile.TemporaryFile() as source, tempfile.TemporaryFile() as sink, tempfile.TemporaryDirectory() as folder:
        source.write(text)
        blank, image = os.path.join(folder, "blank.fd"), os.path.join(folder, "vars.fd")
        subprocess.run([program, "format", blank], check=True)

        def run(words):
            source.seek(0)
            sink.seek(0)
            sink.truncate()
            shutil.copy(blank, image)
            start = time.perf_counter()
            done = subprocess.run(words + [program, "run", image], stdin=source, stdout=sink, stderr=subprocess.PIPE, check=True)
            return time.perf_counter() - start, done.stderr

        for _ in range(runs):
            before = resource.getrusage(resource.RUSAGE_CHILDREN)
            took, _ = run([])
            after = resource.getrusage(resource.RUSAGE_CHILDREN)
            if best is None or took < best:
                best, share = took, (after.ru_stime - before.ru_stime) / took
        # GNU time is small, so that what the child had before its own start doesn't count.
        _, peak = run(["/usr/bin/time", "-f", "%M"])
        length = os.fstat(sink.fileno()).st_size
        count = None
        if shutil.which("valgrind"):
            _, told = run(["valgrind", "--tool=callgrind", "--callgrind-out-file=/dev/null"])
            count = int(re.search(rb"Collected : (\d+)", told).group(1))
    return best, share, int(peak) * 1024, length, count


def generated(program):
    """The script that the program makes of a number: 4,000 calls, of which 2,000 are kept."""
    text = subprocess.run([program, "make", "7"], stdout=subprocess.PIPE, check=True).stdout
    took, share, peak, length, count = measure(program, text, RUNS)
    with tempfile.TemporaryDirectory() as folder:
        image = os.path.join(folder, "vars.fd")
        subprocess.run([program, "format", image], check=True)
        subprocess.run([program, "run", image], input=text, stdout=subprocess.DEVNULL, check=True)
        report = subprocess.run([program, "check", image], stdout=subprocess.PIPE, check=True).stdout.decode()
    counted = "" if count is None else f", {count / 1e6:.1f} million instructions"
    slots = re.search(r"work clean (\d+)", report)[1]
    print(f"make 7, 4,000 calls: {took * 1000:.2f} ms ({share:.0%} in the system){counted}; {slots} writes through the spare; peak {peak / 2**20:.1f} MiB")


def main():
    program = sys.argv[1]
    idle, _, least, _, _ = measure(program, b"", RUNS)
    print(f"an empty script: {idle * 1000:.2f} ms, peak {least / 2**20:.1f} MiB")
    failed = []
    for name, make, few, many in (
        ("sets and gets in turn", mixed, 2000, 20000),
        ("gets", gets, 2000, 20000),
        ("sets of 1 to 200 bytes", sets, 1300, 13000),
        ("sets that are kept", kept, 1300, 13000),
        ("appends of one byte", appends, 1000, 10000),
        ("walks at runtime", walks, 2000, 20000),
        ("gets of 33,000 bytes", large, 200, 2000),
        ("gets behind a long comment", gets, 1000, 10000),
    ):
        times = []
        for calls in (few, many):
            kind = make(calls)
            text = kind.text(1048576 if name.endswith("comment") else 0)
            took, share, peak, length, count = measure(program, text, RUNS if make is not large else 5)
            times.append(took)
            bound = least + len(text) + kind.held + SLACK
            counted = "" if count is None else f", {count / 1e6:.1f} million instructions"
            print(
                f"{name}, {calls:,} calls: {took * 1000:.2f} ms ({share:.0%} in the system){counted}; script {len(text):,} and report {length:,} bytes; "
                f"peak {peak / 2**20:.1f} MiB of at most {bound / 2**20:.1f}"
            )
            if peak >= bound:
                failed.append(f"{name}: too much memory")
        ratio = times[1] / times[0]
        # A call costs a pass over a store at most, and the store of a short script isn't full.
        print(f"    ten times the calls take {ratio:.1f} times the time (at most 20)")
        if ratio > 20:
            failed.append(f"{name}: too slow")
    generated(program)
    if failed:
        sys.exit("; ".join(failed))


main()
PYTHON
