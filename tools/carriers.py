#!/usr/bin/env python3
"""Cases for the scripted carrier, the slip and the relay between them, and what must come of them.

Written from the rules alone (docs/CARRIERS.md): it shares no code with the library. It writes
crates/vectors_carriers/stdin and stdout, the same ones every time, or compares them with --check.

A line of the input is one call:
    open PLACES COUNT/FAULT/POSITION ..   a fresh scripted carrier, and a fresh slip beside it
    post HEX                              '-' is the empty frame
    collect LENGTH                        into a buffer of that many bytes, each 238 before
    relay LENGTH                          from the scripted carrier through such a buffer to the slip
    slip LENGTH                           a collect from the slip
and the line of the output is its answer, then, after a call that touches the scripted carrier,
    | PLACES FAULTS-LEFT COUNT USED-ENTRIES | the waiting frames
"""
import pathlib
import random
import sys

LONGEST = 64
LAST_COUNT = 10**9
HOME = pathlib.Path(__file__).resolve().parent.parent / "crates" / "vectors_carriers"


class Carrier:
    """A carrier as the rules tell it: a list, a number of places and the entries yet to come."""

    def __init__(self, places, script):
        self.places = places
        self.script = list(script)
        self.pending = list(script)
        self.line = []
        self.calls = 0

    def faults(self):
        if self.calls == LAST_COUNT:
            return
        self.calls += 1
        due = [entry for entry in self.pending if entry[0] == self.calls]
        self.pending = [entry for entry in self.pending if entry[0] != self.calls]
        for _, fault, position in due:
            if position >= len(self.line):
                continue
            if fault == "lose":
                del self.line[position]
            elif fault == "move":
                self.line.append(self.line.pop(position))
            elif len(self.line) < self.places:
                self.line.append(self.line[position])

    def post(self, frame):
        if not 1 <= len(frame) <= LONGEST:
            return 1
        if len(self.line) == self.places:
            return 7
        self.line.append(frame)
        self.faults()
        return None

    def collect(self, room):
        if room < LONGEST:
            return 8, None
        self.faults()
        return None, (self.line.pop(0) if self.line else None)

    def seen(self):
        used = len(self.script) - len(self.pending)
        frames = "".join(" " + frame.hex() for frame in self.line)
        return f" | {self.places} {len(self.pending)} {self.calls} {used} |{frames}"


def legal(places, script):
    return (
        1 <= places <= 16
        and len(script) <= 64
        and all(1 <= count <= LAST_COUNT and 0 <= position <= 15 for count, _, position in script)
    )


def told(frame, room):
    return f" {len(frame)} {frame.hex()} +{room - len(frame)}"


def frame_of(rnd):
    """Mostly short frames; now and then an empty, a longest or a too long one."""
    kind = rnd.random()
    if kind < 0.05:
        return b""
    if kind < 0.08:
        return bytes(rnd.randrange(256) for _ in range(64))
    if kind < 0.11:
        return bytes(rnd.randrange(256) for _ in range(rnd.choice([65, 66, 100])))
    return bytes(rnd.randrange(256) for _ in range(rnd.randint(1, 4)))


def room_of(rnd):
    return rnd.choice([0, 1, 63]) if rnd.random() < 0.1 else rnd.choice([64, 65, 80])


def entry_of(rnd, calls, wide):
    count = rnd.randint(1, calls)
    position = rnd.randint(0, 15) if wide else rnd.choice([0, 0, 0, 1, 1, 2, 3])
    return (count, rnd.choice(["lose", "repeat", "move"]), position)


def written(script):
    return "".join(f" {count}/{fault}/{position}" for count, fault, position in script)


def cases(rnd):
    lines, answers = [], []

    def open_with(places, script):
        lines.append(f"open {places}{written(script)}")
        if not legal(places, script):
            answers.append("refused 9")
            return None
        answers.append("opened")
        return Carrier(places, script), Carrier(1, [])

    def call(pair, kind, given):
        carrier, slip = pair
        if kind == "post":
            lines.append(f"post {given.hex() or '-'}")
            refusal = carrier.post(given)
            answers.append((f"refused {refusal}" if refusal else "posted") + carrier.seen())
            return
        lines.append(f"{kind} {given}")
        refusal, frame = (slip if kind == "slip" else carrier).collect(given)
        if refusal:
            answer = f"refused {refusal}"
        elif frame is None:
            answer = "nothing"
        elif kind == "relay":
            kept = slip.post(frame)
            answer = (f"kept {kept}" if kept else "moved") + told(frame, given)
        else:
            answer = "frame" + told(frame, given)
        answers.append(answer if kind == "slip" else answer + carrier.seen())

    def play(pair, calls, posts):
        for _ in range(calls):
            pick = rnd.random()
            if pick < posts:
                call(pair, "post", frame_of(rnd))
            else:
                call(pair, "collect" if pick < 0.8 else "relay" if pick < 0.93 else "slip", room_of(rnd))

    # the worked example of docs/CARRIERS.md
    pair = open_with(3, [(2, "repeat", 0), (3, "lose", 0), (4, "move", 0), (4, "repeat", 1), (9, "lose", 7)])
    for kind, given in [
        ("post", b"\xaa"),
        ("post", b"\xbb"),
        ("collect", 64),
        ("post", b"\xcc"),
        ("post", b"\xdd"),
        ("collect", 63),
        ("collect", 64),
        ("collect", 64),
        ("collect", 64),
        ("collect", 64),
        ("post", b"\xee"),
    ]:
        call(pair, kind, given)
    # openings at and past each limit
    for places in [0, 1, 2, 15, 16, 17, 1000]:
        open_with(places, [])
    one = (1, "lose", 0)
    for script in [
        [(0, "lose", 0)],
        [(1, "lose", 15)],
        [(1, "repeat", 16)],
        [(LAST_COUNT, "move", 0)],
        [(LAST_COUNT + 1, "move", 0)],
        [one, (2, "repeat", 99), one],
        [one] * 64,
        [one] * 65,
    ]:
        open_with(4, script)
        open_with(0, script)
    # many small carriers with short scripts
    for _ in range(320):
        places = rnd.choice([1, 1, 2, 2, 3, 3, 4, 5, 16])
        calls = rnd.randint(4, 14)
        script = [entry_of(rnd, calls, False) for _ in range(rnd.randint(0, 6))]
        if rnd.random() < 0.03:
            script.insert(rnd.randint(0, len(script)), (rnd.choice([0, LAST_COUNT + 1]), "lose", 0))
        pair = open_with(places, script)
        if pair:
            play(pair, calls, rnd.choice([0.4, 0.5, 0.6]))
    # full carriers, long scripts, every position
    for _ in range(12):
        calls = 40
        pair = open_with(rnd.choice([8, 16]), [entry_of(rnd, calls, True) for _ in range(rnd.randint(20, 64))])
        play(pair, calls, 0.62)
    return lines, answers


def main():
    lines, answers = cases(random.Random(1976))
    texts = {"stdin": "\n".join(lines) + "\n", "stdout": "\n".join(answers) + "\n"}
    if sys.argv[1:] == ["--check"]:
        behind = [name for name, text in texts.items() if (HOME / name).read_text() != text]
        if behind:
            sys.exit(f"behind: {' '.join(behind)}; run tools/carriers.py")
        return
    for name, text in texts.items():
        (HOME / name).write_text(text)
    print(f"{len(lines)} calls on {sum(line.startswith('open') for line in lines)} carriers")


main()
