#!/usr/bin/env bash
# Fails and stops each write to the image's file in runs of several kinds: a variable put in place; one put through the spare, which is blank or
# used, or with all slots of the work area used; a deletion; and an opening that finishes a pending write; once, twice in a row, and twice with one
# write between. What the image keeps then is compared with a model: what the answered changes leave, or that with the one set that failed. Each
# image is listed, run on with no call, listed again, and set once more.
# It fails each read of the script and each write of the report too. Needs strace and python3.
# usage: bench/failing.sh [PROGRAM]      (default: the program that ./varsvc builds)
set -eu
top="$(cd "$(dirname "${BASH_SOURCE[0]}")/.." && pwd)"
program="${1:-$top/crates/varsvc/out/varsvc}"
[ -x "$program" ] || "$top/varsvc" list none >/dev/null || true

exec python3 - "$program" <<'PYTHON'
import os, shutil, subprocess, sys, tempfile

GUID = "8be4df61-93ca-11d2-aa0d-00e098032b8c"
PROGRAM = os.path.abspath(sys.argv[1])


def line(name, data, attributes="7"):
    return f"0 set {GUID} {name} {attributes} {data}"


def get(name):
    return f"0 get {GUID} {name} 65536"


LONG, WIDE = "11" * 30000, "22" * 26000
BEHIND = [line("V", "01", "6"), get("A"), line("W", "02", "6"), line("B", "05"), line("A", "03"), line("V", "-", "6"), line("C", "07")]
CASES = {
    "in place": ([line("A", "01"), line("B", "04")], [line("A", "02")] + BEHIND),
    "through the spare": ([line("L", LONG), line("M", WIDE)], [line("M", "33" * 26000)] + BEHIND),
    "deletion": ([line("A", "01"), line("B", "04")], [line("A", "-")] + BEHIND),
    "one set again": ([line("A", "01")], [line("A", "02"), line("A", "02"), line("A", "01"), line("A", "03")]),
}
WAYS = {"once": [0], "twice": [0, 1], "with one between": [0, 2], "three times": [0, 1, 2]}


def run(verb, image, text="", traced=()):
    done = subprocess.run([*traced, PROGRAM, verb, image], input=text.encode(), stdout=subprocess.PIPE)
    return done.returncode, done.stdout.decode()


def variables(image):
    """What the listing of an image says: its variables, as the data by name."""
    status, text = run("list", image)
    assert status == 0, text
    return {words[1]: words[4] for words in map(str.split, text.split("\n")[1:-2])}


def injected(image, fault, numbers, call="write"):
    words = ["strace", "-f", "-qq", "-o", "/dev/null", "-P", image, "-e", f"trace={call}"]
    # One rule a system call: a first number and a step say which are to fail.
    step = numbers[1] - numbers[0] if len(numbers) > 1 else None
    last = numbers[-1]
    when = str(numbers[0]) if step is None else f"{numbers[0]}..{last}+{step}"
    return [*words, "-e", f"inject={call}:{fault}:when={when}"]


def writes(image, text):
    """How many writes to the image a run makes."""
    log = image + ".log"
    status, _ = run("run", image, text, ["strace", "-f", "-qq", "-o", log, "-P", image, "-e", "trace=write"])
    assert status == 0
    with open(log) as lines:
        return sum(" write(" in one for one in lines)


def changed(kept, words):
    """The non-volatile variables behind a set."""
    after = dict(kept)
    if words[4] == "7":
        if words[5] == "-":
            after.pop(words[3], None)
        else:
            after[words[3]] = words[5]
    return after


def replies(report):
    lines = report.split("\n")
    first = next(number for number, one in enumerate(lines) if one.startswith("processor 0 "))
    return [one.split()[3:] for one in lines[first + 1 : -2]]


def allowed(before, calls, answers):
    """What an image may keep: the history's variables, or those with a set in doubt."""
    kept, doubts = before, []
    for call, answer in zip(calls, answers):
        words = call.split()
        if words[1] != "set":
            continue
        if answer[0] == "DEVICE_ERROR":
            assert words[4] == "7", call
            # The heal failed and the first stays in doubt, or it was done and the second is in doubt: a report doesn't tell which.
            doubts = doubts + [changed(kept, words)]
        elif answer == ["SUCCESS"]:
            kept = changed(kept, words)
            # A change of a non-volatile variable ends the doubt.
            doubts = [] if words[4] == "7" else doubts
        else:
            assert answer in (["SUCCESS", "same"], ["NOT_FOUND"]), answer
    return [kept, *doubts]


def fronts(before, calls):
    kept = [before]
    for call in calls:
        words = call.split()
        if words[1] == "set":
            kept.append(changed(kept[-1], words))
    return kept


def look(image, may, what):
    """Lists an image, runs no call on it, lists it again, and sets a variable. Says whether it keeps other than the first of what it may."""
    kept = variables(image)
    assert kept in may, what
    assert run("run", image)[0] == 0, what
    assert variables(image) == kept, what
    status, report = run("run", image, line("N", "09") + "\n")
    assert status == 0 and replies(report) == [["SUCCESS"]], what
    assert variables(image) == {**kept, "N": "09"}, what
    return kept != may[0]


def fail_writes(name, image, copy, before, calls):
    text = "\n".join(calls) + "\n"
    shutil.copy(image, copy)
    count = writes(copy, text)
    tried = failed = more = 0
    for way, offsets in WAYS.items():
        for number in range(1, count + 1):
            shutil.copy(image, copy)
            status, report = run("run", copy, text, injected(copy, "error=EIO", [number + offset for offset in offsets]))
            what = (name, way, number)
            if status == 7:
                may = [before]
            else:
                assert status == 0, what
                may = allowed(before, calls, replies(report))
                failed += sum(answer[0] == "DEVICE_ERROR" for answer in replies(report))
            more += look(copy, may, what)
            tried += 1
    for number in range(1, count + 1):
        shutil.copy(image, copy)
        run("run", copy, text, injected(copy, "signal=KILL", [number]))
        look(copy, fronts(before, calls), (name, "killed", number))
        tried += 1
    print(f"{name}: {count} writes; {tried} runs that failed or were killed, {failed} replies DEVICE_ERROR; each image is as it may be, {more} with a set")
    print("    that failed")


def fail_texts(image, copy, folder, before, calls):
    text = "\n".join(calls) + "\n"
    script, report = os.path.join(folder, "script"), os.path.join(folder, "report")
    with open(script, "w") as file:
        file.write(text)
    for call, path, status in ("read", script, 6), ("write", report, 5):
        number, tried = 1, 0
        while True:
            shutil.copy(image, copy)
            with open(script) as source, open(report, "w") as sink:
                done = subprocess.run([*injected(path, "error=EIO", [number], call), PROGRAM, "run", copy], stdin=source, stdout=sink)
            if done.returncode == 0:
                break
            assert done.returncode == status, (call, number, done.returncode)
            look(copy, [before] if status == 6 else fronts(before, calls)[-1:], (call, number))
            number, tried = number + 1, tried + 1
        print(f"{call} of the {'script' if call == 'read' else 'report'}: {tried} failed, status {status}")


def pending(image, copy, text):
    """An image with a pending write: a run through the spare that was killed in it."""
    shutil.copy(image, copy)
    count = writes(copy, text)
    for number in range(count, 0, -1):
        shutil.copy(image, copy)
        run("run", copy, text, injected(copy, "signal=KILL", [number]))
        if "work pending" in run("check", copy)[1]:
            return True
    return False


def use_slots(image):
    """Puts one variable through the spare until all slots of the work area are used."""
    byte = 0
    while "work clean 255" not in run("check", image)[1]:
        byte = byte % 255 + 1
        assert run("run", image, line("M", f"{byte:02x}" * 26000) + "\n")[0] == 0


def main():
    with tempfile.TemporaryDirectory() as folder:
        image, copy = os.path.join(folder, "image"), os.path.join(folder, "copy")
        for name, (first, calls) in CASES.items():
            if os.path.exists(image):
                os.remove(image)
            run("format", image)
            assert run("run", image, "\n".join(first) + "\n")[0] == 0
            fail_writes(name, image, copy, variables(image), calls)
        first, calls = CASES["through the spare"]
        run("format", image)
        assert run("run", image, "\n".join([*first, line("M", "44" * 26000)]) + "\n")[0] == 0
        assert "spare used" in run("check", image)[1]
        fail_writes("through a spare that is used", image, copy, variables(image), calls)
        use_slots(image)
        fail_writes("through the spare, all slots used", image, copy, variables(image), calls)
        run("format", image)
        assert run("run", image, "\n".join(first) + "\n")[0] == 0
        assert pending(image, copy, line("M", "44" * 26000) + "\n")
        shutil.copy(copy, image)
        fail_writes("opening that finishes a write", image, copy, variables(image), BEHIND)
        fail_texts(image, copy, folder, variables(image), BEHIND)


main()
PYTHON
