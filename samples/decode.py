#!/usr/bin/env python3
"""A second decoder of the link file, written from docs/FORMAT.md alone.

  decode.py [bytes|drift] < FILE    prints the list of the file, or `refused N at P` (status 1)
  decode.py --cases < sheet_a.link  prints the table of changed files that crates/file_cases prints

It shares no code with the library, so that the two can be compared.
"""
import sys

LONGEST = 20492
MOST_POINTS = 1024
MARKS = ("free", "kept", "barred")


class Kind:
    def __init__(self, code, signed, prices, budgets):
        self.code = code
        self.signed = signed
        self.prices = prices
        self.budgets = budgets

    def amount(self, four, admitted):
        """The value that four bytes are the form of, or None if it is not admitted."""
        value = int.from_bytes(four, "big", signed=self.signed)
        low, high = admitted
        return value if low <= value <= high else None


KINDS = {
    "bytes": Kind(1, True, (-1000000, 1000000), (-2147483648, 2147483647)),
    "drift": Kind(2, False, (0, 65535), (0, 65535)),
}


class Refused(Exception):
    def __init__(self, number, place):
        super().__init__(number, place)
        self.number = number
        self.place = place


def u16(data, at):
    return data[at] * 256 + data[at + 1]


def decode(data, kind):
    """The point count, the budget and the links (first, second, mark, price) of a file."""
    if len(data) < 12 or len(data) > LONGEST:
        raise Refused(11, 0)
    if data[0] != 1:
        raise Refused(12, 0)
    stated = int.from_bytes(data[1:5], "big")
    if stated != len(data) - 5:
        raise Refused(13, 1)
    if data[5] != kind.code:
        raise Refused(14, 5)
    points = u16(data, 6)
    if points == 0 or points > MOST_POINTS:
        raise Refused(15, 6)
    budget = kind.amount(data[8:12], kind.budgets)
    if budget is None:
        raise Refused(16, 8)
    if (stated - 7) % 10 != 0:
        raise Refused(17, 1)
    links = []
    for start in range(12, len(data), 10):
        if data[start] != 9:
            raise Refused(17, start)
        first = u16(data, start + 1)
        second = u16(data, start + 3)
        if first >= points or second >= points or first == second:
            raise Refused(18, start + 1)
        mark = data[start + 5]
        if mark > 2:
            raise Refused(19, start + 5)
        price = kind.amount(data[start + 6:start + 10], kind.prices)
        if price is None:
            raise Refused(20, start + 6)
        links.append((first, second, mark, price))
    return points, budget, links


def listing(data, kind):
    """The text of the list."""
    points, budget, links = decode(data, kind)
    lines = [f"points {points} links {len(links)} kind {kind.code} budget {budget}\n"]
    for number, (first, second, mark, price) in enumerate(links):
        lines.append(f"{number} {first} {second} {MARKS[mark]} {price}\n")
    return "".join(lines)


# The table of cases: changed copies of a sheet, and what the check answers for each. Neighbouring cases with the
# same answer share one line: first and last case, how many, the answer. A run of files that pass also shows a
# checksum (32-bit FNV-1a) over the lists of all its files, one after the other.

FNV_START = 2166136261
FNV_FACTOR = 16777619


def folded(digest, text):
    for byte in text.encode("ascii"):
        digest = (digest ^ byte) * FNV_FACTOR % 2 ** 32
    return digest


def answer(data, kind):
    """What the check answers, and the text that is printed."""
    try:
        return "pass", listing(data, kind)
    except Refused as refusal:
        got = f"{refusal.number} at {refusal.place}"
        return got, f"refused {got}\n"


def runs(cases, kind):
    """The lines for `cases`, pairs of a label and a file."""
    lines, current = [], None
    for label, data in cases:
        got, text = answer(data, kind)
        if current is None or current["answer"] != got:
            current = {"first": label, "count": 0, "answer": got, "digest": FNV_START}
            lines.append(current)
        current["last"] = label
        current["count"] += 1
        if got == "pass":
            current["digest"] = folded(current["digest"], text)
    for run in lines:
        tail = f" {run['digest']:08x}" if run["answer"] == "pass" else ""
        yield f"{run['first']}..{run['last']} {run['count']}: {run['answer']}{tail}\n"


def tally(files, kind):
    """How often each number is answered, and a checksum over all that is printed."""
    counts, passed, digest = dict.fromkeys(range(11, 21), 0), 0, FNV_START
    for data in files:
        got, text = answer(data, kind)
        if got == "pass":
            passed += 1
        else:
            counts[int(got.split()[0])] += 1
        digest = folded(digest, text)
    yield f"pass: {passed}\n"
    for number, count in counts.items():
        yield f"{number}: {count}\n"
    yield f"all: {digest:08x}\n"


def truncations(sheet):
    for length in range(len(sheet) + 1):
        yield str(length), sheet[:length]


def fitted(sheet):
    """The same, with the length field of what is left."""
    for length in range(12, len(sheet) + 1):
        yield str(length), sheet[:1] + (length - 5).to_bytes(4, "big") + sheet[5:length]


def with_byte(sheet, place, value):
    return sheet[:place] + bytes([value]) + sheet[place + 1:]


def changes(sheet):
    for place in range(len(sheet)):
        for value in range(256):
            yield f"{place}={value}", with_byte(sheet, place, value)


def pairs(sheet):
    """Two places at once, each one up or at 255: what is answered when two faults meet."""
    for low in range(len(sheet)):
        for high in range(low + 1, len(sheet)):
            for first in ((sheet[low] + 1) % 256, 255):
                for second in ((sheet[high] + 1) % 256, 255):
                    yield with_byte(with_byte(sheet, low, first), high, second)


def all_cases(sheet):
    drift = with_byte(sheet, 5, 2)
    by, dr = KINDS["bytes"], KINDS["drift"]
    parts = [
        ("lengths", runs(truncations(sheet), by)),
        ("lengths with the length field to match", runs(fitted(sheet), by)),
        ("changes", runs(changes(sheet), by)),
        ("changes checked as drift", runs(changes(sheet), dr)),
        ("changes of the drift sheet", runs(changes(drift), dr)),
        ("pairs", tally(pairs(sheet), by)),
        ("pairs of the drift sheet", tally(pairs(drift), dr)),
    ]
    return "".join(f"{title}\n{''.join(lines)}" for title, lines in parts)


def main(words):
    data = sys.stdin.buffer.read()
    if words == ["--cases"]:
        sys.stdout.write(all_cases(data))
        return 0
    kind = words[0] if words else "bytes"
    if len(words) > 1 or kind not in KINDS:
        sys.stderr.write(__doc__)
        return 2
    try:
        sys.stdout.write(listing(data, KINDS[kind]))
    except Refused as refusal:
        sys.stdout.write(f"refused {refusal.number} at {refusal.place}\n")
        return 1
    return 0


if __name__ == "__main__":
    sys.exit(main(sys.argv[1:]))
