#!/usr/bin/env bash
# Kills the program at random times of a long run, and says what its image keeps then: it must open, and keep what the history's changes
# leave up to one of them, and nothing else, also behind a run of no call.
# usage: bench/kill.sh [TIMES] [PROGRAM]      (default: 200, and the program that ./varsvc builds)
set -eu
top="$(cd "$(dirname "${BASH_SOURCE[0]}")/.." && pwd)"
times="${1:-200}"
program="${2:-$top/crates/varsvc/out/varsvc}"
[ -x "$program" ] || "$top/varsvc" list none >/dev/null || true

exec python3 - "$program" "$times" <<'PYTHON'
import os, random, shutil, subprocess, sys, tempfile, time

GUID = "8be4df61-93ca-11d2-aa0d-00e098032b8c"
KEYS, SETS = 40, 12000
program, times = sys.argv[1], int(sys.argv[2])


def script():
    """Sets of 1 to 24 bytes over some keys, and deletions now and then."""
    lines = []
    for i in range(SETS):
        name = f"K{i * 7 % KEYS:02}"
        data = bytes((i + j) % 256 for j in range(1 + i % 24)).hex()
        lines.append(f"0 set {GUID} {name} 7 {data if i % 29 else '-'}")
    return "\n".join(lines).encode() + b"\n"


def run(verb, image, text=b""):
    return subprocess.run([program, verb, image], input=text, stdout=subprocess.PIPE)


def variables(image):
    """What the listing of an image says: its variables, as the data by name."""
    done = run("list", image)
    assert done.returncode == 0, done
    lines = done.stdout.decode().split("\n")[1:-2]
    return {line.split()[1]: line.split()[4] for line in lines}


def main():
    random.seed(7)
    text = script()
    with tempfile.TemporaryDirectory() as folder:
        blank, image = os.path.join(folder, "blank"), os.path.join(folder, "image")
        run("format", blank)
        shutil.copy(blank, image)
        start = time.perf_counter()
        whole = run("run", image, text)
        took = time.perf_counter() - start
        assert whole.returncode == 0
        changes = [line.split() for line in whole.stdout.decode().split("\n")[1:] if " set " in line]
        held, fronts = {}, {frozenset(): 0}
        for number, words in enumerate(changes, 1):
            if words[7] == "-":
                held.pop(words[5], None)
            else:
                held[words[5]] = words[7]
            fronts.setdefault(frozenset(held.items()), number)
        places = []
        for _ in range(times):
            shutil.copy(blank, image)
            child = subprocess.Popen([program, "run", image], stdin=subprocess.PIPE, stdout=subprocess.DEVNULL)
            child.stdin.write(text)
            child.stdin.close()
            time.sleep(random.random() * took)
            child.kill()
            child.wait()
            kept = variables(image)
            place = fronts.get(frozenset(kept.items()))
            assert place is not None, "no front of the history"
            assert run("run", image).returncode == 0
            assert variables(image) == kept
            places.append(place)
        inside = sum(0 < place < len(changes) for place in places)
        print(f"{len(changes)} changes in {took * 1000:.0f} ms; {times} kills, {inside} of them behind the first change and before the last;")
        print(f"each image opened and kept a front of the history: from {min(places)} to {max(places)} changes")


main()
PYTHON
