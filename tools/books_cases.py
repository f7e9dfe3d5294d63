#!/usr/bin/env python3
"""Random lists of calls and bookings on two books: writes crates/vectors_books/stdin and, from the model beside
this file, the stdout that the library has to give. After every step both books are told whole."""
import copy
import pathlib
import random

from annex_model import Refused, Row, Terms, standard_percentage
from books_model import Pledgor, Secured

rng = random.Random(5)
STANDARD = [standard_percentage(c) for c in range(8)]


def text(x):
    return "-" if x is None else str(x)


def row_words(row):
    return [row.day, text(row.exposure), *map(text, row.prices)]


def message_words(m):
    return " ".join(map(str, m))


def told(s, p):
    secured = [f"{n}:{st}:{c}:{f}" for n, (st, c, f) in enumerate(s.lots) if st != "absent"]
    pledgor = "".join(place[0] for place, _, _ in p.lots)
    return (
        f"secured {s.state} {s.day} {s.amount} delivered {s.delivered} freed {s.freed} v {s.v()} uncovered {s.uncovered()}"
        f" lots {','.join(secured) or '-'} pledgor {p.state} {p.day} {p.amount} lots {pledgor or '-'}"
    )


class Agreement:
    """Two books and the messages under way, oldest first."""

    def __init__(self, terms, lots):
        terms.check()
        self.p = Pledgor(terms, lots)
        self.s = Secured(terms)
        self.forth, self.back = [], []


def some_terms():
    t = rng.choice([0, 500, 1_000])
    return Terms(
        t,
        [rng.choice([1, 100, 300]), rng.choice([1, 100, 300])],
        [rng.choice([0, 0, 50]), rng.choice([0, 0, 70])],
        rng.choice([STANDARD, STANDARD, [10_000] * 8, [rng.randrange(10_001) for _ in range(8)]]),
    )


def some_row(day):
    exposure = rng.choice([0, 300, 700, 1_000, 1_500, 2_500, 4_000, -500, rng.randrange(-500, 5_000)])
    prices = [rng.choice([10_000, 10_000, 9_900, 10_300, 5_000, None]) for _ in range(8)]
    x = rng.random()
    if x < 0.02:
        exposure = rng.choice([None, 10**13 + 1, -(10**13) - 1])
    elif x < 0.03:
        prices[rng.randrange(8)] = 20_001
    elif x < 0.04:
        day = rng.choice([0, 10**9 + 1])
    return Row(day, exposure, prices)


def some_day(book):
    return max(0, book.day + rng.choice([-1, 0, 0, 0, 1]))


def some_message(a):
    """A message that may or may not fit, from either end."""
    day = some_day(a.s)
    lot = rng.choice([0, 1, 2, 3, 31, 32])
    cls, face = rng.choice([0, 3, 7, 8]), rng.choice([1, 400, 10**10, 0, 10**10 + 1])
    amount = rng.choice([0, a.s.amount, max(0, a.s.amount - 1), a.s.amount + 1])
    exposure = rng.choice([0, -1, 5_000])
    return rng.choice(
        [
            ("quiet", day, exposure),
            ("call", day, exposure, amount),
            ("offer", day, exposure, amount),
            ("agree", day),
            ("dispute", day, amount),
            ("resolve", day, exposure, amount),
            ("delivery", day, lot, cls, face),
            ("substitute", lot, cls, face, rng.choice([0, 1, 2, 32])),
            ("ask", day, lot),
            ("return", lot),
            ("decline", lot),
            ("satisfied", day),
            ("release", day),
        ]
    )


def step(a, wild):
    """One command and what it answers."""
    s, p = a.s, a.p
    lot = rng.randrange(len(p.lots) + 1) if rng.random() < 0.95 else rng.choice([31, 32, 255])
    posted = [n for n, l in enumerate(p.lots) if l[0] == "posted"]
    home = [n for n, l in enumerate(p.lots) if l[0] == "home"]
    owed = [n for n, l in enumerate(s.lots) if l[0] in ("owed-back", "decline-owed")]
    pick = lambda some: rng.choice(some) if some and rng.random() < 0.85 else lot
    command = rng.choices(
        ["weigh", "notify", "resolve", "confirm", "reply", "answer", "deliver", "substitute", "ask", "release", "book", "inject"],
        [1, 7, 3, 5, 6, 7, 9, 5, 6, 2, 22, 3 if wild else 0],
    )[0]
    words = [command]
    if command == "weigh":
        row = some_row(s.day + rng.choice([0, 1, 2]))
        words += row_words(row)
        run = lambda: (lambda f: f"finding {f[0]} {f[1]}")(s.weigh(row))
    elif command == "notify":
        row = some_row(s.day + rng.choice([0, 1, 1, 1, 3]))
        again = row if rng.random() < 0.9 else some_row(row.day)
        words += row_words(row) + row_words(again)

        def run():
            finding = s.weigh(row)
            m = s.notify(finding, again)
            a.forth.append(m)
            return f"issued {message_words(m)}"

    elif command == "resolve":
        day = rng.choice([s.day, s.day, s.day, s.day + 1])
        exposure = rng.choice([None, 0, 600, 1_500, 4_000, 10**13 + 1])
        words += [day, text(exposure)]

        def run():
            m = s.resolve(exposure if day == s.day else None)
            a.forth.append(m)
            return f"issued {message_words(m)}"

    elif command in ("confirm", "reply"):
        args = [pick(owed)] if command == "reply" else []
        words += args

        def run():
            m = getattr(s, command)(*args)
            a.forth.append(m)
            return f"issued {message_words(m)}"

    elif command == "book":
        end = rng.choice(["secured", "pledgor"])
        words.append(end)

        def run():
            queue = a.back if end == "secured" else a.forth
            if not queue:
                return "nothing"
            m = queue.pop(0)
            return f"{'booked' if (s if end == 'secured' else p).book(m) else 'misfit'} {message_words(m)}"

    elif command == "inject":
        end, m = rng.choice(["secured", "pledgor"]), some_message(a)
        words += [end, *m]
        run = lambda: "booked" if (s if end == "secured" else p).book(m) else "misfit"
    else:
        if command == "answer":
            row = some_row(p.day if rng.random() < 0.9 else p.day + 1)
            words += row_words(row)
            args = [row]
        elif command == "substitute":
            args = [pick(home), pick(posted)]
            words += args
        elif command == "release":
            args = []
        else:
            args = [pick(home if command == "deliver" else posted)]
            words += args

        def run():
            m = getattr(p, command)(*args)
            a.back.append(m)
            return f"issued {message_words(m)}"

    try:
        answer = run()
    except Refused as refused:
        answer = f"refused {refused.number}"
    return " ".join(map(str, words)), f"{answer} | {told(s, p)}"


def likely_step(a, wild):
    """A step that is mostly not refused: a refused one is tried again on a copy, eight times at most."""
    for _ in range(8):
        before = rng.getstate()
        answer = step(copy.deepcopy(a), wild)[1]
        if rng.random() < 0.1 or not answer.startswith(("refused", "nothing")):
            rng.setstate(before)
            break
    return step(a, wild)


def opened():
    terms = some_terms()
    if rng.random() < 0.05:
        terms.secured_minimum = 0
    count = rng.choice([0, 2, 4, 6, 8, 10])
    lots = [(rng.randrange(8), rng.choice([150, 400, 900, 1_500, 3_000, 5_000])) for _ in range(count)]
    x = rng.random()
    if x < 0.03:
        lots += [(8, 5)]
    elif x < 0.06:
        lots = [(0, 1)] * 33
    words = [
        "open", terms.threshold, terms.pledgor_minimum, terms.secured_minimum, terms.pledgor_independent,
        terms.secured_independent, *terms.percentages, len(lots), *[w for lot in lots for w in lot],
    ]
    try:
        a = Agreement(terms, lots)
        return " ".join(map(str, words)), f"opened | {told(a.s, a.p)}", a
    except Refused as refused:
        return " ".join(map(str, words)), f"refused {refused.number}", None


def main():
    given, expected = [], []
    misfits = 0
    for n in range(40):
        words, answer, a = opened()
        given.append(words)
        expected.append(answer)
        wild = n % 4 == 3
        for _ in range(140 if a else 0):
            words, answer = likely_step(a, wild)
            given.append(words)
            expected.append(answer)
            misfits += not wild and answer.startswith("misfit")
    folder = pathlib.Path(__file__).resolve().parent.parent / "crates" / "vectors_books"
    folder.mkdir(exist_ok=True)
    (folder / "stdin").write_text("\n".join(given) + "\n")
    (folder / "stdout").write_text("\n".join(expected) + "\n")
    print(f"{len(given)} steps, {misfits} misfits without a stranger's message")


main()
