#!/usr/bin/env python3
"""Cases of amounts, schedule, sheets and panels: writes crates/vectors_amounts/stdin and, from the model
beside this file, the stdout that the library has to give."""
import pathlib
import random

from annex_model import Refused, Row, Terms, panel_row, sheet_row, standard_percentage, total, value, weigh

rng = random.Random(19940601)
SECURED = ["absent", "held", "held", "held", "owed-back", "decline-owed"]
PLEDGOR = ["home", "posted", "posted", "asked"]
STANDARD = [standard_percentage(c) for c in range(8)]
U64, U32 = 2**64 - 1, 2**32 - 1


def near(*edges):
    """One of the edges, or a number beside it."""
    return max(0, rng.choice(edges) + rng.choice([-1, 0, 0, 1]))


def amount(high):
    return rng.choice([0, 1, high, rng.randrange(high + 1), rng.randrange(min(high, 10**7) + 1)])


def any_terms(wild):
    percentages = rng.choice([STANDARD, [10_000] * 8, [0] * 8, [rng.randrange(10_001) for _ in range(8)]])
    terms = [
        amount(10**13),
        max(1, amount(10**12)),
        max(1, amount(10**12)),
        amount(10**12),
        amount(10**12),
        *percentages,
    ]
    if wild:
        at = rng.randrange(13)
        edge = 10**13 if at == 0 else 10**12 if at < 5 else 10_000
        terms[at] = rng.choice([0, near(edge), edge + 1, U64 if at < 5 else U32])
    return terms


def any_exposure(wild):
    if wild and rng.random() < 0.5:
        return rng.choice([None, 10**13 + 1, -(10**13) - 1, 2**63 - 1, -(2**63)])
    sign = rng.choice([-1, 1, 1])
    return rng.choice([0, sign * 10**13, sign * rng.randrange(10**13), sign * rng.randrange(10**7)])


def any_price(wild):
    if wild and rng.random() < 0.1:
        return rng.choice([20_001, U32])
    return rng.choice([None, 0, 10_000, 20_000, rng.randrange(20_001), rng.randrange(9_000, 11_000)])


def any_row(wild, day=None):
    if day is None:
        day = rng.choice([1, 7, 10**9, rng.randrange(1, 10**9)])
        if wild and rng.random() < 0.3:
            day = rng.choice([0, 10**9 + 1, U32])
    return Row(day, any_exposure(wild), [any_price(wild) for _ in range(8)])


def any_lot(wild):
    cls = rng.randrange(8)
    face = rng.choice([1, 10**10, rng.randrange(1, 10**10 + 1), rng.randrange(1, 10**7)])
    if wild and rng.random() < 0.1:
        cls, face = rng.choice([(8, face), (255, face), (cls, 0), (cls, 10**10 + 1), (cls, U64)])
    return cls, face


def text(x):
    return "-" if x is None else str(x)


def row_words(row):
    return [row.day, text(row.exposure), *map(text, row.prices)]


def made(words):
    return Terms(words[0], words[1:3], words[3:5], words[5:])


def weigh_case(terms, row, lots):
    t = made(terms)
    t.check()
    v = total(t, row, lots)
    exposure = row.check()
    return " ".join(map(str, (v, *weigh(t, exposure, v))))


def posted_case(terms, row, lots):
    t = made(terms)
    t.check()
    return str(total(t, row, lots))


def value_case(terms, row, lot):
    t = made(terms)
    t.check()
    return str(value(t, row, *lot))


def row_answer(row):
    return " ".join(map(str, row_words(row)))


def cases():
    for c in list(range(16)) + [255]:
        yield ["standard", c], standard_percentage, (c,)
    base = [1_000_000, 500_000, 500_000, 0, 0, *STANDARD]
    for exposure in (1_499_999, 1_500_000, 0, -1, 10**13, -(10**13), 999_999, 1_000_000):
        row = Row(7, exposure, [10_000] * 8)
        yield ["weigh", *base, *row_words(row), 0], weigh_case, (base, row, [])
    for face in (499_999, 500_000, 1_234_567):
        for exposure in (0, 1_000_000, 1_500_000):
            row = Row(7, exposure, [10_000] * 8)
            lots = [("held", 0, face), ("owed-back", 0, 10**10)]
            words = [w for lot in lots for w in lot]
            yield ["weigh", *base, *row_words(row), 2, *words], weigh_case, (base, row, lots)
    for i in range(2600):
        wild = i % 3 == 0
        terms, row = any_terms(wild and i % 2 == 0), any_row(wild)
        count = rng.choice([0, 1, 2, 3, 8, 31, 32, 33]) if wild else rng.randrange(33) if i % 5 == 0 else rng.randrange(6)
        lots = [(rng.choice(SECURED), *any_lot(wild)) for _ in range(count)]
        words = [w for lot in lots for w in lot]
        yield ["weigh", *terms, *row_words(row), count, *words], weigh_case, (terms, row, lots)
    for i in range(400):
        wild = i % 4 == 0
        terms, row = any_terms(False), any_row(wild)
        count = rng.randrange(8)
        lots = [(rng.choice(PLEDGOR), *any_lot(wild)) for _ in range(count)]
        words = [w for lot in lots for w in lot]
        yield ["posted", *terms, *row_words(row), count, *words], posted_case, (terms, row, lots)
    for i in range(800):
        wild = i % 4 == 0
        terms, row, lot = any_terms(False), any_row(wild), any_lot(wild)
        yield ["value", *terms, *row_words(row), *lot], value_case, (terms, row, lot)
    for i in range(500):
        rows = [any_row(True, rng.randrange(1, 5)) for _ in range(rng.randrange(6))]
        day = rng.randrange(0, 6)
        words = [w for row in rows for w in row_words(row)]
        yield ["sheet", day, len(rows), *words], lambda rs, d: row_answer(sheet_row(rs, d)), (rows, day)
    for quotes in ([10, 11, 11, 13], [-1, -2], [], [10**13] * 4, [-(10**13)] * 4, [1] * 5, [10**13 + 1]):
        yield ["panel", 7, 7, *quotes], lambda o, q, d: row_answer(panel_row(o, q, d)), (7, quotes, 7)
    for i in range(700):
        low = rng.choice([3, 20, 10**7, 10**13])
        quotes = [rng.randrange(-low, low + 1) for _ in range(rng.choice([0, 1, 2, 3, 4, 4, 5]))]
        if quotes and i % 10 == 0:
            quotes[rng.randrange(len(quotes))] = rng.choice([10**13 + 1, -(10**13) - 1, 2**63 - 1, -(2**63)])
        own, day = rng.choice([(3, 3), (3, 3), (3, 4)])
        yield ["panel", own, day, *quotes], lambda o, q, d: row_answer(panel_row(o, q, d)), (own, quotes, day)


def main():
    folder = pathlib.Path(__file__).resolve().parent.parent / "crates" / "vectors_amounts"
    given, expected = [], []
    for words, run, args in cases():
        given.append(" ".join(map(str, words)))
        try:
            expected.append(str(run(*args)))
        except Refused as refused:
            expected.append(f"refused {refused.number}")
    (folder / "stdin").write_text("\n".join(given) + "\n")
    (folder / "stdout").write_text("\n".join(expected) + "\n")
    print(f"{len(given)} cases")


main()
