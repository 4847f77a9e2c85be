#!/usr/bin/env bash
# Times of policy texts of 1,024 lines beside 1,024 registers of a script, and of an audit of 894 variables by 1,024 policies of their namespace
# beside a listing of the same image. Needs python3.
# usage: bench/audit.sh [PROGRAM]      (default: the program that ./varsvc builds)
set -eu
top="$(cd "$(dirname "${BASH_SOURCE[0]}")/.." && pwd)"
program="${1:-$top/crates/varsvc/out/varsvc}"
[ -x "$program" ] || "$top/varsvc" list none >/dev/null || true

exec python3 - "$program" <<'PYTHON'
import struct, subprocess, sys, tempfile, time, uuid

RUNS = 50
GLOBAL = uuid.UUID("8be4df61-93ca-11d2-aa0d-00e098032b8c")
SYSTEM_NV_DATA = uuid.UUID("fff12b8d-7696-4c8b-a985-2747075b4f50").bytes_le
AUTHENTICATED = uuid.UUID("aaf32c78-947b-439a-a180-2e144ec37792").bytes_le
VOLUME, IMAGE, FIRST = 57344, 131072, 100


def record(name):
    """An ADDED record without data, attributes 7, of 64 bytes."""
    units = name.encode("utf-16-le") + b"\0\0"
    return struct.pack("<HBBI8x16x4xII", 0x55AA, 0x3F, 0, 7, len(units), 0) + GLOBAL.bytes_le + units


def image(records):
    volume = b"\0" * 16 + SYSTEM_NV_DATA + struct.pack("<Q4sIHHHBBIIQ", 0x20000, b"_FVH", 0x4FEFF, 72, 0xF919, 0, 0, 2, 32, 4096, 0)
    store = AUTHENTICATED + struct.pack("<IBBHI", 0xDFB8, 0x5A, 0xFE, 0, 0)
    text = volume + store + b"".join(records)
    return text + b"\xff" * (IMAGE - len(text))


def least(words, text):
    """The least time of some runs in seconds, and what was printed."""
    best, printed = None, b""
    for _ in range(RUNS):
        start = time.perf_counter()
        printed = subprocess.run(words, input=text, capture_output=True, check=True).stdout
        took = time.perf_counter() - start
        best = took if best is None else min(best, took)
    return best, printed


def main():
    program = sys.argv[1]
    with tempfile.NamedTemporaryFile() as file:
        file.write(image([record(chr(0x1000 - i)) for i in range((VOLUME - FIRST) // 64)]))
        file.flush()
        # A unit each, of which none covers a variable but the last; and one for the rest of the namespace.
        names = [f"%{0x2000 + i:04x}" for i in range(1022)] + ["%1000", "-"]
        text = "".join(f"{GLOBAL} {name} 1 - 0 0 none\n" for name in names).encode()
        listing, listed = least([program, "list", file.name], b"")
        assert listed.startswith(b"variables 894\n"), listed[:40]
        audit, audited = least([program, "audit", file.name], text)
        assert audited.startswith(b"policies 1024\nviolations 894\n"), audited[:60]
    reading, script = least([program, "entries"], text)
    assert script.count(b"\n") == 1024
    with tempfile.NamedTemporaryFile() as blank:
        blank.write(image([]))
        blank.flush()
        registers, _ = least([program, "run", blank.name], script)
    print(f"1,024 lines {reading * 1000:.2f} ms, 1,024 registers {registers * 1000:.2f} ms: {reading / registers:.2f} times (at most 2)")
    print(f"audit of 894 variables by 1,024 policies {audit * 1000:.2f} ms, listing {listing * 1000:.2f} ms: {audit / listing:.2f} times (at most 50)")
    if reading > 2 * registers or audit > 50 * listing:
        sys.exit("too slow")


main()
PYTHON
