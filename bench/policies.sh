#!/usr/bin/env bash
# Times of sets beside a full table of policies: 1,024 entries of one namespace, and 16,000 sets of a name that none, one or all of them
# cover, in the last case with the entry that counts registered first, and last. A script holds no more: it has at most 1,048,576 bytes.
# usage: bench/policies.sh [PROGRAM]      (default: the program that ./varsvc builds)
set -eu
top="$(cd "$(dirname "${BASH_SOURCE[0]}")/.." && pwd)"
program="${1:-$top/crates/varsvc/out/varsvc}"
[ -x "$program" ] || "$top/varsvc" list none >/dev/null || true

exec python3 - "$program" <<'PYTHON'
import os, struct, subprocess, sys, tempfile, time

VENDOR = "8be4df6193ca11d2aa0d00e098032b8c"
STORED = bytes.fromhex("61dfe48bca93d211aa0d00e098032b8c")
DIGITS = "0123456789"
ENTRIES = 1024
SETS = 16_000
RUNS = 5
MOST_BYTES = 1_048_576
MOST_SECONDS = 2.0


def entry(name):
    """A policy without limits, by EDK II's VARIABLE_POLICY_ENTRY."""
    units = (name + "\0").encode("utf-16-le")
    header = struct.pack("<IHH16sIIIIB3x", 0x10000, 44 + len(units), 44, STORED, 0, 0xFFFFFFFF, 0, 0, 0)
    return (header + units).hex()


def names():
    """The 1,024 names that have the digits in their places or `#` instead: each covers the ten digits."""
    for bits in range(ENTRIES):
        yield "".join("#" if bits >> i & 1 else digit for i, digit in enumerate(DIGITS))


def script(entries, name):
    lines = [f"0 register {entry(other)}" for other in entries]
    lines += [f"0 set {VENDOR} {name} 6 {i % 256:02x}" for i in range(SETS)]
    text = ("\n".join(lines) + "\n").encode()
    assert len(text) <= MOST_BYTES
    return text


def measure(program, text):
    """The least time of some runs in seconds, and the report."""
    best = None
    with tempfile.TemporaryDirectory() as folder:
        # The variables are volatile, so the image stays as it is.
        image = os.path.join(folder, "vars.fd")
        subprocess.run([program, "format", image], check=True)
        for _ in range(RUNS):
            begin = time.monotonic()
            done = subprocess.run([program, "run", image], input=text, stdout=subprocess.PIPE, check=True)
            seconds = time.monotonic() - begin
            best = seconds if best is None else min(best, seconds)
    return best, done.stdout.decode()


def main(program):
    first, last = list(names()), list(names())[::-1]
    cases = [
        ("no policies", [], DIGITS),
        ("none covers", first, "abcdefghij"),
        ("one covers", first, "1234567890"),
        ("all, first", first, DIGITS),
        ("all, last", last, DIGITS),
    ]
    base = None
    slow = False
    for label, entries, name in cases:
        seconds, report = measure(program, script(entries, name))
        changes = int(report.split("\n", 1)[0].split()[1])
        assert changes == SETS + len(entries), (label, changes)
        base = seconds if base is None else base
        extra = (seconds - base) / SETS * 1e6
        print(f"{label:12} {seconds:7.3f} s   a set {seconds / SETS * 1e6:7.2f} us   beside no policies {extra:+7.2f} us")
        slow = slow or seconds > MOST_SECONDS
    print(f"bound: {MOST_SECONDS} s a script")
    return 1 if slow else 0


sys.exit(main(sys.argv[1]))
PYTHON
