#!/usr/bin/env bash
# Runs scripts on copies of images of real firmware: sets 20 variables and deletes 5 of them, and compares what the image keeps then with what
# a reader of EDK II's format, written here in Python, makes of its volume: start marks, state bits, sizes, alignment, and variables.
# usage: bench/real.sh IMAGE..      (such as the files of Debian's package `ovmf`: OVMF_VARS.fd, OVMF_VARS.ms.fd)
set -eu
top="$(cd "$(dirname "${BASH_SOURCE[0]}")/.." && pwd)"
program="${VARSVC:-$top/crates/varsvc/out/varsvc}"
[ -x "$program" ] || "$top/varsvc" list none >/dev/null || true

exec python3 - "$program" "$@" <<'PYTHON'
import os, re, shutil, struct, subprocess, sys, tempfile, uuid

GUID = "8be4df61-93ca-11d2-aa0d-00e098032b8c"


def volume(bytes):
    """The variables of a volume by GUID and name, as EDK II reads them, and how many records stand in which state."""
    assert bytes[40:44] == b"_FVH" and sum(struct.unpack("<36H", bytes[:72])) % 65536 == 0
    header = struct.unpack_from("<H", bytes, 48)[0]
    store_size, store_format, store_state = struct.unpack_from("<IBB", bytes, header + 16)
    assert (store_format, store_state) == (0x5A, 0xFE)
    at, end = header + 28, header + store_size
    added, moving, states = {}, {}, {}
    while at + 60 <= end and bytes[at:at + 2] == b"\xaa\x55":
        assert at % 4 == 0
        state, attributes = bytes[at + 2], struct.unpack_from("<I", bytes, at + 4)[0]
        name_size, data_size = struct.unpack_from("<II", bytes, at + 36)
        stop = at + 60 + name_size + data_size
        assert stop <= end and name_size % 2 == 0
        states[state] = states.get(state, 0) + 1
        key = (uuid.UUID(bytes_le=bytes[at + 44:at + 60]), bytes[at + 60:at + 60 + name_size].decode("utf-16-le")[:-1])
        if state == 0x3F:
            assert key not in added
            added[key] = (attributes, bytes[at + 60 + name_size:stop])
        elif state == 0x3E:
            moving[key] = (attributes, bytes[at + 60 + name_size:stop])
        at = (stop + 3) & ~3
    assert not bytes[at:end].strip(b"\xff")
    return {**moving, **added}, states


def listed(program, image):
    done = subprocess.run([program, "list", image], stdout=subprocess.PIPE, check=True)
    found = {}
    for line in done.stdout.decode().split("\n")[1:-2]:
        guid, name, attributes, _, data = line.split()
        name = re.sub("%([0-9a-f]{4})", lambda unit: chr(int(unit[1], 16)), name)
        found[uuid.UUID(guid), name] = (int(attributes, 0), b"" if data == "-" else bytes.fromhex(data))
    return found


def main():
    program = sys.argv[1]
    with tempfile.TemporaryDirectory() as folder:
        for source in sys.argv[2:]:
            image = os.path.join(folder, "vars.fd")
            shutil.copy(source, image)
            before = listed(program, image)
            sets = {f"Boot{i:04}": bytes((i + j) % 256 for j in range(6 + i)) for i in range(20)}
            gone = [f"Boot{i:04}" for i in range(0, 20, 4)]
            lines = [f"0 set {GUID} {name} 7 {data.hex()}" for name, data in sets.items()]
            lines += [f"0 set {GUID} {name} 7 -" for name in gone]
            done = subprocess.run([program, "run", image], input="\n".join(lines).encode(), stdout=subprocess.PIPE, check=True)
            assert done.stdout.decode().startswith("history 25\n"), done.stdout
            wanted = dict(before)
            for name, data in sets.items():
                if name in gone:
                    wanted.pop((uuid.UUID(GUID), name), None)
                else:
                    wanted[uuid.UUID(GUID), name] = (7, data)
            assert listed(program, image) == wanted
            found, states = volume(open(image, "rb").read()[:0xE000])
            assert found == wanted
            print(f"{source}: {len(before)} variables before, {len(found)} after; records by state " +
                  ", ".join(f"0x{state:02X}: {count}" for state, count in sorted(states.items())))


main()
PYTHON
