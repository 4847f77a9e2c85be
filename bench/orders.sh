#!/usr/bin/env bash
# Plays a script of two processors and three calls in every order of their steps: one sets a variable twice, the other gets it. Each state that an
# order comes to is played once, and in each power is lost, with the next flash step torn in each of the three ways. What is printed is compared with
# a model of the table of steps in Python. It prints how many plays there were, and how many listings came out of each cut: the old variables or the
# new ones, and no third.
# usage: bench/orders.sh [PROGRAM]      (default: the program that ./varsvc builds)
set -eu
top="$(cd "$(dirname "${BASH_SOURCE[0]}")/.." && pwd)"
program="${1:-$top/crates/varsvc/out/varsvc}"
[ -x "$program" ] || "$top/varsvc" play </dev/null >/dev/null

exec python3 - "$program" <<'PYTHON'
import collections, concurrent.futures, os, subprocess, sys

VENDOR = "8be4df61-93ca-11d2-aa0d-00e098032b8c"
CALLS = [[("set", "01"), ("set", "02")], [("get", None)]]
WRITER = 255

State = collections.namedtuple("State", "lock held made writer_lock log processors")


def first():
    return State(0, 0, 0, 0, (), ((("start",), ()), (("start",), ())))


def flash_steps(log):
    """A first record takes four steps of the flash, another value of a key six."""
    return 6 if log else 4


def step(state, p):
    """The state behind a processor's next step, by the table of steps in docs/ARCHITECTURE.md; None where it changes nothing."""
    point, answers = state.processors[p]
    if len(answers) == len(CALLS[p]):
        return None

    def to(point, answers=answers, **words):
        processors = list(state.processors)
        processors[p] = (point, answers)
        return state._replace(processors=tuple(processors), **words)

    def answer(place, *route, **words):
        return to(("start",), answers + ((place,) + route,), **words)

    name, rest = point[0], point[1:]
    if name == "start" and CALLS[p][len(answers)][0] == "get":
        return to(("ask enter", state.lock)) if state.lock else to(("load made",), lock=p + 1)
    if name == "start":
        return None if state.writer_lock else to(("decide",), writer_lock=p + 1)
    if name == "load made":
        return to(("load held", state.made))
    if name == "load held":
        made = rest[0]
        return to(("take cache", made)) if state.held == made else to(("merge enter", made, state.held))
    if name == "take cache":
        return to(("look",) + rest)
    if name == "look":
        return to(("unlock",) + rest)
    if name == "unlock":
        return answer(rest[0], "cache", lock=0)
    if name == "merge enter":
        return None if state.writer_lock else to(("merge load made",) + rest, writer_lock=p + 1)
    if name == "merge load made":
        return to(("merge take cache",) + rest + (state.made,))
    if name == "merge take cache":
        return to(("merge",) + rest)
    if name == "merge":
        return to(("merge put cache",) + rest, held=rest[2])
    if name == "merge put cache":
        return to(("merge leave",) + rest)
    if name == "merge leave":
        return to(("merge unlock",) + rest, writer_lock=0)
    if name == "merge unlock":
        made, held, place = rest
        return answer(place, "merged", made, held, lock=0)
    if name == "ask enter":
        return None if state.writer_lock else to(("ask look",) + rest, writer_lock=p + 1)
    if name == "ask look":
        return to(("ask leave",) + rest + (state.made,))
    if name == "ask leave":
        return answer(rest[1], "writer", rest[0], writer_lock=0)
    if name == "decide":
        return to(("write", state.made, flash_steps(state.log)))
    if name == "write" and rest[1]:
        return to(("write", rest[0], rest[1] - 1))
    if name == "write":
        return to(("try lock", rest[0]), log=state.log + ((p, len(answers)),))
    if name == "try lock":
        return to(("defer", rest[0], state.lock)) if state.lock else to(("flush take cache",) + rest, lock=WRITER)
    if name == "flush take cache":
        return to(("flush",) + rest)
    if name == "flush":
        return to(("flush swap held",) + rest, made=state.made + 1)
    if name == "flush swap held":
        return to(("flush put cache",) + rest, held=state.made)
    if name == "flush put cache":
        return to(("flush unlock",) + rest)
    if name == "flush unlock":
        return to(("leave", rest[0], "flushed"), lock=0)
    if name == "defer":
        return to(("leave", rest[0], "deferred", rest[1]), made=state.made + 1)
    assert name == "leave", name
    return answer(*rest, writer_lock=0)


def states():
    """An order of steps to each state, and the state."""
    orders = {first(): ()}
    left = collections.deque(orders)
    while left:
        state = left.popleft()
        for p in (0, 1):
            behind = step(state, p)
            if behind is not None and behind not in orders:
                orders[behind] = orders[state] + (p,)
                left.append(behind)
    return orders


def call_text(call):
    verb, data = call
    return f"set {VENDOR} X 0x00000007 {data}" if verb == "set" else f"get {VENDOR} X 9"


def value(log, place):
    return CALLS[log[place - 1][0]][log[place - 1][1]][1] if place else None


def reply(call, log, place):
    if call[0] == "set":
        return "SUCCESS"
    data = value(log, place)
    return f"SUCCESS 0x00000007 {data}" if data else "NOT_FOUND"


def report(state):
    lines = [f"history {len(state.log)}"]
    lines += [f"{n} {p} {i} {call_text(CALLS[p][i])}" for n, (p, i) in enumerate(state.log)]
    for p, (_, answers) in enumerate(state.processors):
        lines.append(f"processor {p} calls {len(answers)}")
        for i, (place, *route) in enumerate(answers):
            lines.append(f"{i} {place} {' '.join(map(str, route))} {reply(CALLS[p][i], state.log, place)}")
    return "\n".join(lines + ["end"]) + "\n"


def listing(data):
    variables = [f"{VENDOR} X 0x00000007 - {data}"] if data else []
    return "\n".join(["power", f"variables {len(variables)}"] + variables + ["end"]) + "\n"


def script(order, cut):
    lines = [f"{p} {call_text(call)}" for p, calls in enumerate(CALLS) for call in calls]
    lines += ["schedule"] + [f"{p} 1" for p in order] + ([f"power {cut}"] if cut else [])
    return ("\n".join(lines) + "\n").encode()


def play(program, order, cut):
    done = subprocess.run([program, "play"], input=script(order, cut), stdout=subprocess.PIPE, check=True)
    return done.stdout.decode()


def planned(state):
    """Which change is being made, how many of its steps of the flash are left, and what it sets, before it stands in the history."""
    for p, (point, answers) in enumerate(state.processors):
        if point[0] == "write":
            return len(answers), point[2], CALLS[p][len(answers)][1]
    return None


def judge(program, state, order):
    """The listings behind the three cuts of a state; the session's report and each listing must be one that the model allows."""
    wanted = report(state)
    assert play(program, order, None) == wanted, (order, wanted)
    old = value(state.log, len(state.log))
    change = planned(state)
    allowed = {listing(old)} | ({listing(change[2])} if change else set())
    found = set()
    for cut in ("before", "half", "after"):
        text = play(program, order, cut)
        assert text.startswith(wanted), (order, cut, text)
        assert text[len(wanted):] in allowed, (order, cut, text)
        found.add(text[len(wanted):])
    return change, found


def main(program):
    orders = states()
    cuts = collections.defaultdict(set)
    with concurrent.futures.ThreadPoolExecutor(os.cpu_count()) as pool:
        for change, found in pool.map(lambda item: judge(program, *item), orders.items()):
            if change:
                cuts[change[:2]] |= found
    ends = sum(1 for state in orders if step(state, 0) is None and step(state, 1) is None)
    print(f"{len(orders)} states, {ends} of them ends, {4 * len(orders)} plays; each report and listing is one that the model allows")
    for (change, left), found in sorted(cuts.items(), key=lambda item: (item[0][0], -item[0][1])):
        print(f"change {change}, {left} steps of the flash left: {len(found)} listings")
    for change in sorted({change for change, _ in cuts}):
        found = set().union(*(listings for (other, _), listings in cuts.items() if other == change))
        print(f"change {change}, all cuts: {len(found)} listings")
    return 1 if any(len(found) > 2 for found in cuts.values()) else 0


sys.exit(main(sys.argv[1]))
PYTHON
