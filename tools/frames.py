#!/usr/bin/env python3
"""Cases for the wire format, written from docs/WIRE.md and from nothing else.

Writes crates/vectors_frames/stdin, one case to a line, and crates/vectors_frames/stdout, what the
program has to answer. Every run of it makes the same cases.
"""
import os
import random

RNG = random.Random(20260101)
U32 = 2**32
U64 = 2**64

# kind: (name, [(field, bytes, signed, least, most)])
DAY = ("day", 4, False, 1, 10**9)
EXPOSURE = ("exposure", 8, True, -(10**13), 10**13)
LOT = ("lot", 1, False, 0, 31)
CLASS = ("class", 1, False, 0, 7)
FACE = ("face", 8, False, 1, 10**10)
OLD = ("old", 1, False, 0, 31)


def amount(least):
    return ("amount", 8, False, least, 2 * 10**13)


KINDS = {
    0x01: ("Quiet", [DAY, EXPOSURE]),
    0x02: ("Call", [DAY, EXPOSURE, amount(1)]),
    0x03: ("Offer", [DAY, EXPOSURE, amount(1)]),
    0x04: ("Agree", [DAY]),
    0x05: ("Dispute", [DAY, amount(0)]),
    0x06: ("Resolve", [DAY, EXPOSURE, amount(0)]),
    0x07: ("Delivery", [DAY, LOT, CLASS, FACE]),
    0x08: ("Substitute", [LOT, CLASS, FACE, OLD]),
    0x09: ("Ask", [DAY, LOT]),
    0x0A: ("Return", [LOT]),
    0x0B: ("Decline", [LOT]),
    0x0C: ("Satisfied", [DAY]),
    0x0E: ("Release", [DAY]),
}
COLUMNS = ["day", "exposure", "amount", "lot", "class", "face", "old"]


def body_of(kind, values):
    out = bytes([kind])
    for (_, width, signed, _, _), v in zip(KINDS[kind][1], values):
        out += v.to_bytes(width, "big", signed=signed)
    return out


def trailer(number, ack, tag, version, back):
    return number.to_bytes(4, "big") + ack.to_bytes(4, "big") + bytes([tag, version]) + back.to_bytes(2, "big")


def data(kind, values, number, ack):
    body = body_of(kind, values)
    return body + trailer(number, ack, 0x44, 1, len(body) + 12)


def alone(ack):
    return trailer(0, ack, 0x4B, 1, 12)


# --- what a frame says -------------------------------------------------------------------------

def refused(number, layer="-", message="-", position="-"):
    return f"refused {number} {layer} {message} {position}"


def first_unfit(kind, values):
    at = 1
    for (_, width, _, least, most), v in zip(KINDS[kind][1], values):
        if not least <= v <= most:
            return at
        at += width
    return None


def read(frame):
    if not 12 <= len(frame) <= 64:
        r = refused(1, "frame")
        return r, r
    start = len(frame) - 12
    t = frame[start:]
    number = int.from_bytes(t[0:4], "big")
    ack = int.from_bytes(t[4:8], "big")
    tag, version, back = t[8], t[9], int.from_bytes(t[10:12], "big")
    body = frame[:start]
    unfit = None
    if (number != 0) if tag == 0x4B else not 1 <= number <= 10**6:
        unfit = 0
    elif not 1 <= ack <= 10**6 + 1:
        unfit = 4
    elif tag not in (0x44, 0x4B):
        unfit = 8
    elif version != 1:
        unfit = 9
    elif back != len(frame):
        unfit = 10
    if unfit is not None:
        r = refused(2, "frame", "-", start + unfit)
        return r, r
    if tag == 0x4B:
        r = refused(3, "message", 0, 0) if body else f"acknowledgement {ack}"
        return r, r
    wrong = refused(3, "message", number, 0)
    if not body or body[0] not in KINDS:
        return wrong, wrong
    name, fields = KINDS[body[0]]
    if len(body) != 1 + sum(f[1] for f in fields):
        return wrong, wrong
    values, at = [], 1
    for _, width, signed, _, _ in fields:
        values.append(int.from_bytes(body[at:at + width], "big", signed=signed))
        at += width
    unfit = first_unfit(body[0], values)
    if unfit is not None:
        r = refused(3, "message", number, unfit)
        return r, r
    said = ", ".join(f"{f[0]}: {v}" for f, v in zip(fields, values))
    return f"data {number} {ack} {body.hex()}", f"data {number} {ack} {name} {{ {said} }}"


def write(room, number, ack, kind, values):
    before = b"\xee" * room
    length = len(body_of(kind, values))
    if not 1 <= number <= 10**6:
        return refused(2, "frame", "-", length) + " " + before.hex()
    if not 1 <= ack <= 10**6 + 1:
        return refused(2, "frame", "-", length + 4) + " " + before.hex()
    unfit = first_unfit(kind, values)
    if unfit is not None:
        return refused(3, "message", number, unfit) + " " + before.hex()
    if room < 64:
        return refused(8) + " " + before.hex()
    frame = data(kind, values, number, ack)
    return f"wrote {len(frame)} " + (frame + before[len(frame):]).hex()


def acknowledge(room, ack):
    before = b"\xee" * room
    if not 1 <= ack <= 10**6 + 1:
        return refused(2, "frame", "-", 4) + " " + before.hex()
    if room < 64:
        return refused(8) + " " + before.hex()
    frame = alone(ack)
    return f"wrote {len(frame)} " + (frame + before[len(frame):]).hex()


# --- the cases ---------------------------------------------------------------------------------

def fit_value(field):
    _, _, _, least, most = field
    return RNG.choice([least, most, RNG.randint(least, most), RNG.randint(least, min(most, least + 300))])


def unfit_values(field):
    _, width, signed, least, most = field
    low = -(2 ** (8 * width - 1)) if signed else 0
    high = 2 ** (8 * width - 1) - 1 if signed else 2 ** (8 * width) - 1
    picks = [least - 1, most + 1, low, high, RNG.randint(most + 1, high)]
    return [v for v in picks if low <= v <= high and not least <= v <= most]


def fit_values(kind):
    return [fit_value(f) for f in KINDS[kind][1]]


def fit_number():
    return RNG.choice([1, 2, 255, 256, 65536, 10**6, RNG.randint(1, 10**6)])


def fit_ack():
    return RNG.choice([1, 2, 10**6, 10**6 + 1, RNG.randint(1, 10**6 + 1)])


CASES = []


def ask_read(frame):
    CASES.append(("read " + frame.hex(), " | ".join(read(frame))))


def ask_write(room, number, ack, kind, values):
    named = {f[0]: v for f, v in zip(KINDS[kind][1], values)}
    columns = " ".join(str(named.get(c, 0)) for c in COLUMNS)
    CASES.append((f"write {room} {ack} {number} {kind} {columns}", write(room, number, ack, kind, values)))


def ask_acknowledge(room, ack):
    CASES.append((f"acknowledge {room} {ack}", acknowledge(room, ack)))


BAD_NUMBERS = [0, 10**6 + 1, 10**6 + 2, 2**24, U32 - 1]
BAD_ACKS = [0, 10**6 + 2, 10**6 + 3, 2**24, U32 - 1]

# the frame that everyone compares
ask_read(data(0x04, [7], 1, 1))
ask_write(64, 1, 1, 0x04, [7])

# every kind: fit, each field out of its range, two at once, damaged trailers, other lengths
for kind, (_, fields) in KINDS.items():
    for _ in range(24):
        ask_read(data(kind, fit_values(kind), fit_number(), fit_ack()))
    for i, field in enumerate(fields):
        for v in unfit_values(field):
            values = fit_values(kind)
            values[i] = v
            ask_read(data(kind, values, fit_number(), fit_ack()))
            ask_write(RNG.choice([0, 63, 64, 70]), fit_number(), fit_ack(), kind, values)
    for _ in range(6):
        values = fit_values(kind)
        for i, field in enumerate(fields):
            if RNG.random() < 0.6:
                values[i] = RNG.choice(unfit_values(field))
        ask_read(data(kind, values, fit_number(), fit_ack()))
    body = body_of(kind, fit_values(kind))
    full = len(body) + 12
    for n in BAD_NUMBERS:
        ask_read(body + trailer(n, fit_ack(), 0x44, 1, full))
        ask_read(body + trailer(n, fit_ack(), 0x4B, 1, full))
    for a in BAD_ACKS:
        ask_read(body + trailer(fit_number(), a, 0x44, 1, full))
    for tag in [0x00, 0x43, 0x45, 0x4A, 0x4C, 0xFF, 0x4B]:
        ask_read(body + trailer(fit_number(), fit_ack(), tag, 1, full))
        ask_read(body + trailer(0, fit_ack(), tag, 1, full))
    for version in [0, 2, 0xFF]:
        ask_read(body + trailer(fit_number(), fit_ack(), 0x44, version, full))
    for back in [0, full - 1, full + 1, full - 12, 256 * full % 65536, 65535]:
        ask_read(body + trailer(fit_number(), fit_ack(), 0x44, 1, back))
    for n in range(0, 53):
        longer = (body + bytes(RNG.randrange(256) for _ in range(60)))[:n]
        ask_read(longer + trailer(fit_number(), fit_ack(), 0x44, 1, n + 12))
    for _ in range(10):
        ask_write(RNG.choice([64, 65, 70]), fit_number(), fit_ack(), kind, fit_values(kind))
    for room in [0, 1, len(body), full, 63, 64]:
        ask_write(room, fit_number(), fit_ack(), kind, fit_values(kind))
    for n in BAD_NUMBERS + [U32, U32 + 1, U64 - 1]:
        ask_write(RNG.choice([0, 64]), n, RNG.choice([fit_ack(), 0]), kind, fit_values(kind))
    for a in BAD_ACKS + [U32, U32 + 1, U64 - 1]:
        ask_write(RNG.choice([0, 64]), fit_number(), a, kind, fit_values(kind))
    # each byte of a fit frame changed
    frame = data(kind, fit_values(kind), fit_number(), fit_ack())
    for i in range(len(frame)):
        ask_read(frame[:i] + bytes([frame[i] ^ (1 << RNG.randrange(8))]) + frame[i + 1:])

# every first byte, with fields of every length that some kind has
for kind in range(256):
    n = RNG.choice([1, 4, 5, 11, 12, 14, 20])
    fields = bytes([0] * (n - 1) + [1])
    ask_read(bytes([kind]) + fields + trailer(fit_number(), fit_ack(), 0x44, 1, n + 13))
for kind in (0x00, 0x0D, 0x0F):
    for n in (0, 1, 4, 5, 11, 12, 14, 20):
        ask_read(bytes([kind]) + bytes(n) + trailer(fit_number(), fit_ack(), 0x44, 1, n + 13))

# acknowledgements alone, with and without a body
for _ in range(40):
    ask_read(alone(fit_ack()))
    ask_acknowledge(RNG.choice([64, 70]), fit_ack())
for a in BAD_ACKS:
    ask_read(alone(a))
for a in BAD_ACKS + [U32, U32 + 1, U64 - 1]:
    ask_acknowledge(0, a)
    ask_acknowledge(64, a)
for room in (0, 1, 11, 12, 13, 63):
    ask_acknowledge(room, fit_ack())
for n in BAD_NUMBERS[1:]:
    ask_read(trailer(n, fit_ack(), 0x4B, 1, 12))
for n in range(1, 53):
    ask_read(bytes(n) + trailer(0, fit_ack(), 0x4B, 1, n + 12))

# every length from 0 to 70, of nothing in particular and of a trailer that would fit
for n in range(71):
    ask_read(bytes(n))
    ask_read(bytes([0xFF] * n))
    ask_read(bytes(RNG.randrange(256) for _ in range(n)))
    if n >= 12:
        ask_read(bytes(RNG.randrange(15) for _ in range(n - 12)) + trailer(fit_number(), fit_ack(), 0x44, 1, n))

here = os.path.join(os.path.dirname(os.path.abspath(__file__)), "..", "crates", "vectors_frames")
with open(os.path.join(here, "stdin"), "w") as f:
    f.writelines(c[0] + "\n" for c in CASES)
with open(os.path.join(here, "stdout"), "w") as f:
    f.writelines(c[1] + "\n" for c in CASES)
print(len(CASES), "cases")
