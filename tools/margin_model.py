#!/usr/bin/env python3
"""What `margin` has to print for a scenario, from docs/SCENARIO.md and the model of the annex.

With a file it prints that scenario's answer; without one it writes the stdin and stdout of crates/margin."""
import pathlib
import struct
import sys

from annex_model import Refused, Row, Terms, panel_row, sheet_row, standard_percentage, total, value, weigh
from books_model import Pledgor, Secured

WORDS = {
    7: "the carrier is full",
    9: "terms, places or script are out of range",
    10: "a lot, class or face is out of range, or the lot is in another state",
    11: "the day is not later, or the last day has not ended",
    12: "the row, exposure or a quote is absent, out of range or of another day",
    13: "the state of the day does not allow it",
    14: "what was delivered is below the amount",
    15: "weighing the row does not give the finding",
}

FIELDS = {
    "quiet": "day {} exposure {}",
    "call": "day {} exposure {} amount {}",
    "offer": "day {} exposure {} amount {}",
    "agree": "day {}",
    "dispute": "day {} undisputed {}",
    "resolve": "day {} exposure {} amount {}",
    "delivery": "day {} lot {} class {} face {}",
    "substitute": "lot {} class {} face {} for lot {}",
    "ask": "day {} lot {}",
    "return": "lot {}",
    "decline": "lot {}",
    "satisfied": "day {}",
    "release": "day {}",
}
STEPS = set("notify resolve confirm reply answer deliver substitute ask release book show".split())


def number(word):
    return None if word == "-" else int(word)


class Carrier:
    """A scripted carrier: `script` has (call count, fault, position)."""

    def __init__(self, places, script):
        fit = 1 <= places <= 16 and len(script) <= 64
        if not fit or any(not 1 <= c <= 10**9 or p > 15 for c, _, p in script):
            raise Refused(9)
        self.places, self.script, self.waiting, self.count = places, script, [], 0

    def left(self):
        return sum(1 for c, _, _ in self.script if c > self.count)

    def strike(self, day):
        """Counts a call; its entries act in their order."""
        self.count += 1
        ws = self.waiting
        for c, fault, p in self.script:
            if c != self.count:
                continue
            if p >= len(ws):
                did = "nothing, no such frame"
            elif fault == "lose":
                did = "lost a frame"
                ws.pop(p)
            elif fault == "move":
                did = "moved a frame to the end"
                ws.append(ws.pop(p))
            elif len(ws) < self.places:
                did = "repeated a frame at the end"
                ws.append(ws[p])
            else:
                did = "nothing, no free place"
            yield f"{day} fault {fault} {p}: {did}"

    def post(self, day, frame):
        if len(self.waiting) == self.places:
            yield f"{day} post refused 7: {WORDS[7]}"
            return
        yield f"{day} posted"
        self.waiting.append(frame)
        yield from self.strike(day)

    def collect(self, day):
        yield from self.strike(day)
        yield f"{day} collected {self.waiting.pop(0) if self.waiting else 'nothing'}"


def read(text):
    terms = percentages = places = None
    lots, rows, panels, values, script = [], [], [], [], []
    own_lots, own_rows, steps = [], [], []
    for line in text.splitlines():
        words = line.split()
        if not words or line.startswith("#"):
            continue
        if words[0] == "terms":
            n = [int(words[i]) for i in (2, 4, 5, 7, 8)]
            terms = n
        elif words[0] == "schedule":
            percentages = [standard_percentage(c) for c in range(8)] if words[1] == "standard" else [int(w) for w in words[1:]]
        elif words[0] == "lot":
            lots.append((words[5], int(words[2]), int(words[4])))
        elif words[0] == "row":
            rows.append(Row(int(words[1]), number(words[3]), [number(w) for w in words[5:13]]))
        elif words[0] == "panel":
            panels.append((int(words[1]), [int(w) for w in words[3:]]))
        elif words[0] == "value":
            values.append((int(words[1]), words[2]))
        elif words[0] == "carrier":
            places = int(words[2])
        elif words[0] == "fault":
            script.append((int(words[2]), words[3], int(words[4])))
        elif words[0] == "own-lot":
            own_lots.append((int(words[2]), int(words[4])))
        elif words[0] == "own-row":
            own_rows.append(Row(int(words[1]), number(words[3]), [number(w) for w in words[5:13]]))
        elif words[0] in STEPS:
            steps.append(words)
    terms = Terms(terms[0], terms[1:3], terms[3:5], percentages)
    return terms, lots, rows, panels, values, places, script, (own_lots, own_rows, steps)


def first_frame(day, exposure, notice):
    """The frame of a finding as message 1 of an agreement, acknowledging nothing: kind, day, exposure,
    amount; then number, acknowledgement, tag, version and the frame's length."""
    kind, *amount = notice.split()
    body = bytes([{"quiet": 1, "call": 2, "offer": 3}[kind]]) + struct.pack(">Iq", day, exposure)
    for a in amount:
        body += struct.pack(">Q", int(a))
    return (body + struct.pack(">IIBBH", 1, 1, 0x44, 1, len(body) + 12)).hex().upper()


def day_lines(terms, lots, rows, panels, day, source):
    yield f"source {source}"
    if source == "sheet":
        row = sheet_row(rows, day)
    else:
        row = panel_row(day, next((q for d, q in panels if d == day), []), day)
    v = total(terms, row, lots)
    exposure = row.check()
    yield f"exposure {exposure}"
    for n, (state, cls, face) in enumerate(lots):
        yield f"lot {n} class {cls} face {face} {state} value {value(terms, row, cls, face)}"
    yield f"v {v}"
    support, delivery, excess, notice = weigh(terms, exposure, v)
    yield f"credit-support-amount {support}"
    yield f"delivery-amount {delivery}"
    yield f"return-amount {excess}"
    yield f"finding {notice}"
    yield f"frame {first_frame(day, exposure, notice)}"


def said(message):
    return f"{message[0]} {FIELDS[message[0]].format(*message[1:])}"


def shown(s, p, forth, back):
    yield f"secured day {s.day} {s.state} amount {s.amount}"
    yield f"secured delivered {s.delivered} freed {s.freed} v {s.v()} uncovered {s.uncovered()}"
    for n, (state, c, f) in enumerate(s.lots):
        if state != "absent":
            yield f"secured position lot {n} class {c} face {f} {state}"
    yield f"pledgor day {p.day} {p.state} amount {p.amount}"
    for n, (place, c, f) in enumerate(p.lots):
        if place != "home":
            yield f"pledgor position lot {n} class {c} face {f} {place}"
    yield f"under-way to-pledgor {len(forth)} to-secured {len(back)}"


def agreement_lines(terms, rows, panels, own_lots, own_rows, steps):
    s, p = Secured(terms), Pledgor(terms, own_lots)
    forth, back = [], []
    for words in steps:
        if words[0] == "show":
            yield from shown(s, p, forth, back)
            continue
        name, args = " ".join(words), [int(w) for w in words[1:] if w.isdigit()]
        try:
            if words[0] == "book":
                book, queue = (s, back) if words[1] == "secured" else (p, forth)
                if not queue:
                    yield f"{name}: nothing under way"
                    continue
                message = queue.pop(0)
                yield f"{name}: {'booked' if book.book(message) else 'misfit'} {said(message)}"
                continue
            if words[0] == "notify":
                row = sheet_row(rows, args[0])
                message = s.notify(s.weigh(row), row)
            elif words[0] == "resolve":
                quotes = next((q for d, q in panels if d == s.day), [])
                row = sheet_row(rows, s.day) if words[1] == "sheet" else panel_row(s.day, quotes, s.day)
                message = s.resolve(row.exposure)
            elif words[0] in ("confirm", "reply"):
                message = getattr(s, words[0])(*args)
            elif words[0] == "answer":
                message = p.answer(sheet_row(own_rows, p.day))
            else:
                message = getattr(p, words[0])(*args)
            (forth if words[0] in ("notify", "resolve", "confirm", "reply") else back).append(message)
            yield f"{name}: issued {said(message)}"
        except Refused as refused:
            yield f"{name}: refused {refused.number}: {WORDS[refused.number]}"


def answer(text):
    terms, lots, rows, panels, values, places, script, (own_lots, own_rows, steps) = read(text)
    lines = []
    try:
        what = "terms"
        terms.check()
        what = "carrier"
        carrier = None if places is None else Carrier(places, script)
    except Refused as refused:
        return [f"{what} refused {refused.number}: {WORDS[refused.number]}"]
    for day, source in values:
        try:
            for line in day_lines(terms, lots, rows, panels, day, source):
                lines.append(f"day {day} {line}")
        except Refused as refused:
            lines.append(f"day {day} refused {refused.number}: {WORDS[refused.number]}")
            continue
        if carrier is not None:
            lines += carrier.post(f"day {day}", line.split()[1])
            lines += carrier.collect(f"day {day}")
            lines.append(f"day {day} waiting {len(carrier.waiting)} faults-left {carrier.left()}")
    while carrier is not None:
        lines += carrier.collect("end")
        if lines[-1].endswith("nothing"):
            break
    if steps:
        try:
            lines += agreement_lines(terms, rows, panels, own_lots, own_rows, steps)
        except Refused as refused:
            lines.append(f"refused {refused.number}: {WORDS[refused.number]}")
    return lines


def steps_of(path):
    """A scenario without its terms and its schedule, to follow another."""
    lines = path.read_text().splitlines()
    return "\n" + "\n".join(line for line in lines if not line.startswith(("terms", "schedule"))) + "\n"


def main():
    if len(sys.argv) > 1:
        print("\n".join(answer(pathlib.Path(sys.argv[1]).read_text())))
        return
    top = pathlib.Path(__file__).resolve().parent.parent
    text = (top / "examples" / "lossy-carrier.txt").read_text() + steps_of(top / "examples" / "dispute.txt")
    (top / "crates" / "margin" / "stdin").write_text(text)
    (top / "crates" / "margin" / "stdout").write_text("\n".join(answer(text)) + "\n")


if __name__ == "__main__":
    main()
