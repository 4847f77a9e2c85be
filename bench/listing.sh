#!/usr/bin/env bash
# Time of listing and checking full stores, beside that of copying the same file to standard output by cat.
# Needs python3.
# usage: bench/listing.sh [PROGRAM]      (default: the program that ./varsvc builds)
set -eu
top="$(cd "$(dirname "${BASH_SOURCE[0]}")/.." && pwd)"
program="${1:-$top/crates/varsvc/out/varsvc}"
[ -x "$program" ] || "$top/varsvc" list none >/dev/null || true

exec python3 - "$program" <<'PYTHON'
import struct, subprocess, sys, tempfile, time, uuid

RUNS = 400
SYSTEM_NV_DATA = uuid.UUID("fff12b8d-7696-4c8b-a985-2747075b4f50").bytes_le
AUTHENTICATED = uuid.UUID("aaf32c78-947b-439a-a180-2e144ec37792").bytes_le
GLOBAL = uuid.UUID("8be4df61-93ca-11d2-aa0d-00e098032b8c").bytes_le
VOLUME, IMAGE, FIRST = 57344, 131072, 100


def record(name, data):
    """An ADDED record with attributes 7, up to the next multiple of 4."""
    units = "".join(name).encode("utf-16-le") + b"\0\0"
    head = struct.pack("<HBBI8x16x4xII", 0x55AA, 0x3F, 0, 7, len(units), len(data))
    whole = head + GLOBAL + units + data
    return whole + b"\xff" * (-len(whole) % 4)


def image(records):
    volume = b"\0" * 16 + SYSTEM_NV_DATA + struct.pack("<Q4sIHHHBBIIQ", 0x20000, b"_FVH", 0x4FEFF, 72, 0xF919, 0, 0, 2, 32, 4096, 0)
    store = AUTHENTICATED + struct.pack("<IBBHI", 0xDFB8, 0x5A, 0xFE, 0, 0)
    text = volume + store + b"".join(records)
    assert len(volume + store) == FIRST and len(text) <= VOLUME
    return text + b"\xff" * (IMAGE - len(text))


def full_stores():
    """The most variables, the most of some hundreds of bytes, and one variable of the largest size with what is left."""
    room = VOLUME - FIRST
    # From the last key to the first, so that no order of the records helps.
    yield "894 variables without data", [record([chr(0x1000 - i)], b"") for i in range(room // 64)]
    yield "160 variables of 290 bytes", [record([chr(0x1000 - i)], bytes(290)) for i in range(room // 356)]
    yield "2 large variables", [record(["A"], bytes(33000)), record(["B"], bytes(24000))]


def least(words, path):
    """The least time of some runs in seconds."""
    best = None
    with open("/dev/null", "wb") as sink:
        for _ in range(RUNS):
            start = time.perf_counter()
            subprocess.run(words + [path], stdin=subprocess.DEVNULL, stdout=sink, check=True)
            took = time.perf_counter() - start
            best = took if best is None else min(best, took)
    return best


def main():
    program = sys.argv[1]
    worst = most = 0
    for name, records in full_stores():
        with tempfile.NamedTemporaryFile() as file:
            file.write(image(records))
            file.flush()
            listed = subprocess.run([program, "list", file.name], capture_output=True, check=True).stdout
            assert listed.startswith(b"variables %d\n" % len(records)), listed[:40]
            checked = subprocess.run([program, "check", file.name], capture_output=True, check=True).stdout
            assert b"\nvariables %d used " % len(records) in checked, checked
            copy, listing = least(["cat"], file.name), least([program, "list"], file.name)
            checking = least([program, "check"], file.name)
        worst = max(worst, listing / copy)
        most = max(most, checking / listing)
        print(f"{name}: copying {copy * 1000:.2f} ms, listing {listing * 1000:.2f} ms, {listing / copy:.2f} times ({len(listed)} bytes)")
        print(f"{name}: checking {checking * 1000:.2f} ms, {checking / copy:.2f} times the copying, {checking / listing:.2f} times the listing")
    print(f"at most {worst:.2f} times the time of copying (at most 3)")
    print(f"a check takes at most {most:.2f} times a listing (at most 1.5)")
    if worst > 3 or most > 1.5:
        sys.exit("too slow")


main()
PYTHON
