"""The amounts of the annex, in plain Python, written from docs/ANNEX.md and not from the library.

Unfit input raises Refused with the number of docs/REFUSALS.md.
"""


class Refused(Exception):
    def __init__(self, number):
        super().__init__(number)
        self.number = number


class Terms:
    def __init__(self, threshold, minimum, independent, percentages):
        self.threshold = threshold
        self.pledgor_minimum, self.secured_minimum = minimum
        self.pledgor_independent, self.secured_independent = independent
        self.percentages = percentages

    def check(self):
        fit = (
            0 <= self.threshold <= 10**13
            and all(1 <= m <= 10**12 for m in (self.pledgor_minimum, self.secured_minimum))
            and all(0 <= i <= 10**12 for i in (self.pledgor_independent, self.secured_independent))
            and len(self.percentages) == 8
            and all(0 <= q <= 10_000 for q in self.percentages)
        )
        if not fit:
            raise Refused(9)


class Row:
    """A day, an exposure or None, and eight prices or Nones."""

    def __init__(self, day, exposure, prices):
        self.day, self.exposure, self.prices = day, exposure, prices

    def check_prices(self):
        if any(p is not None and p > 20_000 for p in self.prices):
            raise Refused(12)

    def check(self):
        """The exposure of a row that can be used."""
        if self.exposure is None or not 1 <= self.day <= 10**9 or abs(self.exposure) > 10**13:
            raise Refused(12)
        self.check_prices()
        return self.exposure


def standard_percentage(cls):
    if cls > 7:
        raise Refused(10)
    return 10_000 - 25 * cls * (cls + 1)


def check_lot(cls, face):
    if cls > 7 or not 1 <= face <= 10**10:
        raise Refused(10)


COUNTED = {"held", "decline-owed", "posted"}


def lot_value(terms, row, cls, face):
    price = row.prices[cls]
    return 0 if price is None else face * price * terms.percentages[cls] // 10**8


def value(terms, row, cls, face):
    check_lot(cls, face)
    row.check_prices()
    return lot_value(terms, row, cls, face)


def total(terms, row, lots):
    """V of a table of (state, class, face)."""
    counted = [(c, f) for s, c, f in lots if s in COUNTED]
    if len(lots) > 32:
        raise Refused(10)
    for c, f in counted:
        check_lot(c, f)
    row.check_prices()
    return sum(lot_value(terms, row, c, f) for c, f in counted)


def weigh(terms, exposure, v):
    """Credit Support, Delivery and Return Amount, and what is to be notified."""
    if abs(exposure) > 10**13:
        raise Refused(12)
    support = max(0, exposure + terms.pledgor_independent - terms.secured_independent - terms.threshold)
    delivery, excess = max(0, support - v), max(0, v - support)
    if delivery >= terms.pledgor_minimum:
        notice = f"call {delivery}"
    elif excess >= terms.secured_minimum:
        notice = f"offer {excess}"
    else:
        notice = "quiet"
    return support, delivery, excess, notice


def sheet_row(rows, day):
    """The first row of the day decides; without one nothing is known."""
    for row in rows:
        if row.day == day:
            return row
    return Row(day, None, [None] * 8)


def panel_row(own_day, quotes, day):
    if len(quotes) > 4 or any(abs(q) > 10**13 for q in quotes):
        raise Refused(12)
    mean = sum(quotes) // len(quotes) if quotes and own_day == day else None
    return Row(day, mean, [None] * 8)
