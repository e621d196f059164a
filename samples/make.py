#!/usr/bin/env python3
"""Writes the sample link files next to this script; they come out the same every time."""
import pathlib

FREE, KEPT, BARRED = 0, 1, 2


def file_of(points, budget, links):
    """A link file of the kind bytes. A link is (first end, second end, mark, price)."""
    out = bytearray([1])
    out += (7 + 10 * len(links)).to_bytes(4, "big")
    out += bytes([1]) + points.to_bytes(2, "big") + budget.to_bytes(4, "big", signed=True)
    for first, second, mark, price in links:
        out += bytes([9]) + first.to_bytes(2, "big") + second.to_bytes(2, "big")
        out += bytes([mark]) + price.to_bytes(4, "big", signed=True)
    return bytes(out)


SHEET_A = file_of(4, 10, [
    (0, 1, FREE, 4),
    (1, 2, FREE, 3),
    (0, 2, FREE, 5),
    (2, 3, KEPT, 2),
    (1, 3, FREE, 6),
])

# The outline of an ampersand in font units: its outside, its upper counter and its lower counter.
CONTOURS = [
    [(700, 0), (562, 0), (498, 78), (452, 40), (398, 8), (330, -12), (258, -14), (190, -6), (132, 20),
     (86, 62), (54, 116), (42, 180), (48, 240), (70, 292), (106, 336), (152, 372), (206, 402), (172, 446),
     (146, 492), (134, 540), (138, 592), (158, 638), (194, 674), (244, 698), (302, 706), (358, 698),
     (406, 674), (440, 636), (454, 588), (446, 536), (422, 492), (384, 454), (336, 420), (410, 330),
     (488, 236), (520, 286), (540, 344), (550, 400), (640, 400), (628, 318), (600, 242), (556, 168)],
    [(298, 636), (346, 622), (362, 588), (354, 540), (312, 492), (272, 462), (226, 540), (232, 592), (256, 624)],
    [(258, 352), (204, 318), (166, 276), (140, 180), (172, 116), (212, 82), (264, 70), (330, 80), (398, 116),
     (432, 150)],
]

# The usual width of a stroke, and how far a stroke may be off and still count as one.
STROKE, SLACK = 88, 12


def ampersand():
    """61 points. Each is linked to its neighbours on the outline, and to near points across a stroke."""
    places, along = [], []
    for contour in CONTOURS:
        base = len(places)
        for k in range(len(contour)):
            along.append((base + k, base + (k + 1) % len(contour)))
        places += contour

    def apart(a, b):
        (xa, ya), (xb, yb) = places[a], places[b]
        return (xa - xb) ** 2 + (ya - yb) ** 2

    def stored(step):
        return 0 if step == 0 else 1 if abs(step) < 64 else 2

    def price(a, b):
        (xa, ya), (xb, yb) = places[a], places[b]
        return 1 + stored(xa - xb) + stored(ya - yb)

    links = [(a, b, FREE, price(a, b)) for a, b in along]
    near = {(min(a, b), max(a, b)) for a, b in along}
    across = []
    for a in range(len(places)):
        others = [b for b in range(len(places)) if b != a and (min(a, b), max(a, b)) not in near]
        for b in sorted(others, key=lambda b: (apart(a, b), b))[:2]:
            if (min(a, b), max(a, b)) not in across:
                across.append((min(a, b), max(a, b)))
    for a, b in sorted(across, key=lambda pair: (apart(*pair), pair))[:59]:
        width = apart(a, b)
        if (STROKE - SLACK) ** 2 <= width <= (STROKE + SLACK) ** 2:
            # a stroke of the usual width shares its measure with the others, which saves bytes
            mark = KEPT if a % 8 == 0 else BARRED if a % 8 == 3 else FREE
            links.append((a, b, mark, price(a, b) - 6))
        else:
            links.append((a, b, BARRED if b % 4 == 0 else FREE, price(a, b) + 2))
    return file_of(len(places), 18, links)


def largest():
    """As many points and as many links as a file may have: a ring, and a chord from each point."""
    points, state, links = 1024, 1, []
    for number in range(2048):
        state = (state * 1103515245 + 12345) % 2 ** 31
        first = number % points
        step = 1 if number < points else 2 + state // 65536 % (points - 3)
        mark = KEPT if number % 64 == 7 else BARRED if number % 16 == 11 else FREE
        price = state // 8 % 2000001 - 1000000
        links.append((first, (first + step) % points, mark, price))
    links[-2] = links[-2][:3] + (-1000000,)
    links[-1] = links[-1][:3] + (1000000,)
    return file_of(points, -418000000, links)


def refused():
    """Sheet A with equal ends in record 2."""
    out = bytearray(SHEET_A)
    out[36] = 0
    return bytes(out)


SAMPLES = {
    "sheet_a.link": SHEET_A,
    "ampersand.link": ampersand(),
    "largest.link": largest(),
    "refused.link": refused(),
}

if __name__ == "__main__":
    folder = pathlib.Path(__file__).resolve().parent
    for name, data in SAMPLES.items():
        (folder / name).write_bytes(data)
