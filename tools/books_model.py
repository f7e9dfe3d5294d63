"""The two books of an agreement, in plain Python, written from docs/BOOKS.md and not from the library.

A call raises Refused with the number of docs/REFUSALS.md and changes nothing, or returns the message that it
issues. Booking a message returns whether it fits; one that does not changes nothing. Messages are tuples whose
first item is the kind."""
from annex_model import Refused, Row, check_lot, lot_value, weigh

ENDED = {"unset", "quiet", "satisfied"}
OPEN = {"agreed", "disputed", "resolved"}


def due(terms, exposure, v):
    """The Delivery Amount, or zero below the pledgor's minimum."""
    delivery = weigh(terms, exposure, v)[1]
    return delivery if delivery >= terms.pledgor_minimum else 0


class Secured:
    def __init__(self, terms):
        self.terms = terms
        self.row = Row(0, None, [None] * 8)
        self.exposure = 0
        self.state, self.day, self.amount = "unset", 0, 0
        self.before = self.delivered = self.freed = 0
        self.lots = [("absent", 0, 0)] * 32

    # amounts
    def total(self, row):
        return sum(lot_value(self.terms, row, c, f) for s, c, f in self.lots if s in ("held", "decline-owed"))

    def value(self, cls, face):
        return lot_value(self.terms, self.row, cls, face)

    def v(self):
        return self.total(self.row)

    def uncovered(self):
        return self.exposure + self.terms.pledgor_independent - self.terms.secured_independent - self.v()

    # calls
    def weigh(self, row):
        if self.state not in ENDED or row.day <= self.day:
            raise Refused(11)
        exposure = row.check()
        return row.day, weigh(self.terms, exposure, self.total(row))[3]

    def notify(self, finding, row):
        try:
            again = self.weigh(row)
        except Refused:
            raise Refused(15)
        if again != finding:
            raise Refused(15)
        day, notice = finding
        kind, *amount = notice.split()
        self.before = self.total(row)
        self.row, self.exposure, self.delivered, self.freed = row, row.exposure, 0, 0
        self.day, self.amount = day, int(amount[0]) if amount else 0
        self.state = {"quiet": "quiet", "call": "called", "offer": "offered"}[kind]
        return (kind, day, row.exposure, self.amount) if amount else (kind, day, row.exposure)

    def resolve(self, exposure):
        """`exposure` is what the valuer means for the book's own day, or None."""
        if exposure is not None and abs(exposure) > 10**13:
            raise Refused(12)
        if self.state != "disputed":
            raise Refused(13)
        self.exposure = self.exposure if exposure is None else exposure
        self.amount = due(self.terms, self.exposure, self.before)
        self.state = "resolved"
        return "resolve", self.day, self.exposure, self.amount

    def confirm(self):
        if self.state not in ("agreed", "resolved", "released"):
            raise Refused(13)
        if self.state != "released" and self.delivered < self.amount:
            raise Refused(14)
        self.state = "satisfied"
        return "satisfied", self.day

    def reply(self, lot):
        state, cls, face = self.lots[lot] if lot < 32 else ("absent", 0, 0)
        if state == "owed-back":
            self.lots[lot] = ("absent", 0, 0)
            return "return", lot
        if state == "decline-owed":
            self.lots[lot] = ("held", cls, face)
            return "decline", lot
        raise Refused(10)

    # booking
    def new_fits(self, lot, cls, face):
        return lot < 32 and cls < 8 and 1 <= face <= 10**10 and self.lots[lot][0] == "absent"

    def held(self, lot):
        return lot < 32 and self.lots[lot][0] == "held"

    def owe(self, lot, back):
        _, cls, face = self.lots[lot]
        self.lots[lot] = ("owed-back" if back else "decline-owed", cls, face)

    def book(self, message):
        kind, *f = message
        if kind == "agree" and self.state == "called" and f[0] == self.day:
            self.state = "agreed"
        elif kind == "dispute" and self.state == "called" and f[0] == self.day and f[1] < self.amount:
            self.state = "disputed"
        elif kind == "release" and self.state == "offered" and f[0] == self.day:
            self.state = "released"
        elif kind == "delivery" and f[0] <= self.day and self.new_fits(*f[1:]):
            day, lot, cls, face = f
            self.lots[lot] = ("held", cls, face)
            if self.state in OPEN and day == self.day:
                self.delivered += self.value(cls, face)
        elif kind == "substitute" and self.new_fits(*f[:3]) and self.held(f[3]):
            lot, cls, face, old = f
            _, oc, of = self.lots[old]
            good = self.day > 0 and self.value(cls, face) >= self.value(oc, of)
            self.lots[lot] = ("held", cls, face)
            self.owe(old, good)
        elif kind == "ask" and f[0] <= self.day and self.held(f[1]):
            day, lot = f
            worth = self.value(*self.lots[lot][1:])
            back = self.state == "offered" and day == self.day and self.freed + worth <= self.amount
            if back:
                self.freed += worth
            self.owe(lot, back)
        else:
            return False
        return True


class Pledgor:
    def __init__(self, terms, lots):
        if len(lots) > 32:
            raise Refused(10)
        for cls, face in lots:
            check_lot(cls, face)
        self.terms = terms
        self.state, self.day, self.amount = "unset", 0, 0
        self.lots = [["home", c, f] for c, f in lots]

    def at(self, lot):
        return self.lots[lot][0] if lot < len(self.lots) else None

    def need(self, lot, place):
        if self.at(lot) != place:
            raise Refused(10)

    # calls
    def answer(self, row):
        exposure = row.check()
        if row.day != self.day:
            raise Refused(12)
        if self.state != "called":
            raise Refused(13)
        v = sum(lot_value(self.terms, row, c, f) for p, c, f in self.lots if p == "posted")
        own = due(self.terms, exposure, v)
        if own >= self.amount:
            self.state = "agreed"
            return "agree", self.day
        self.state = "disputed"
        return "dispute", self.day, own

    def deliver(self, lot):
        self.need(lot, "home")
        if self.state not in OPEN:
            raise Refused(13)
        self.lots[lot][0] = "posted"
        return "delivery", self.day, lot, self.lots[lot][1], self.lots[lot][2]

    def substitute(self, new, old):
        self.need(new, "home")
        self.need(old, "posted")
        self.lots[new][0], self.lots[old][0] = "posted", "asked"
        return "substitute", new, self.lots[new][1], self.lots[new][2], old

    def ask(self, lot):
        self.need(lot, "posted")
        if self.state != "offered":
            raise Refused(13)
        self.lots[lot][0] = "asked"
        return "ask", self.day, lot

    def release(self):
        if self.state != "offered":
            raise Refused(13)
        self.state = "released"
        return "release", self.day

    # booking
    def book(self, message):
        kind, *f = message
        if kind in ("quiet", "call", "offer") and self.state in ENDED and f[0] > self.day:
            self.state = {"quiet": "quiet", "call": "called", "offer": "offered"}[kind]
            self.day, self.amount = f[0], f[2] if len(f) > 2 else 0
        elif kind == "resolve" and self.state == "disputed" and f[0] == self.day:
            self.state, self.amount = "resolved", f[2]
        elif kind == "satisfied" and self.state in ("agreed", "resolved", "released") and f[0] == self.day:
            self.state = "satisfied"
        elif kind in ("return", "decline") and self.at(f[0]) == "asked":
            self.lots[f[0]][0] = "home" if kind == "return" else "posted"
        else:
            return False
        return True
