#!/usr/bin/env python3
"""Makes the stored fit files and what must be printed of them.

    tools/cases.py            writes examples/*.fit and the inputs and outputs of the crates printbook and cases
    tools/cases.py --check    says whether the stored files are those that it would write

The reader below is a second one, in another language, and shares no code with the Rattle sources; what the programs
print is compared with it to the byte. Both have the same author, so a rule that was misread would be misread in both.
"""
import pathlib
import struct
import sys

ROOT = pathlib.Path(__file__).resolve().parent.parent
G = 2 ** 24  # grains in the value one
MOST = 65_536  # bytes that the reader gets
HEADER = ("rows", "columns", "offers", "rows place", "figures place", "offers place", "offer length", "file length")


# Writing

def header_words(m, n, k):
    figures = 32 + 8 * m * n
    offers = figures + 8 * m
    offer = 8 + 8 * (n * (n + 1) // 2 + n + m)
    return [m, n, k, 32, figures, offers, offer, offers + k * offer]


def offer(kind, s, x, w):
    return struct.pack("<2I", kind, 0) + numbers(s) + numbers(x) + numbers(w)


def numbers(values):
    return struct.pack(f"<{len(values)}q", *values)


def fit_file(rows, figures, offers):
    words = header_words(len(rows), len(rows[0]), len(offers))
    entries = [entry for row in rows for entry in row]
    return struct.pack("<8I", *words) + numbers(entries) + numbers(figures) + b"".join(offers)


# Reading

def refusal(data):
    if len(data) < 32:
        return 20
    words = list(struct.unpack_from("<8I", data))
    m, n, k = words[:3]
    if words[7] != len(data):
        return 20
    if not (1 <= m <= 64 and 1 <= n <= 8 and k <= 16):
        return 21
    if words != header_words(m, n, k):
        return 22
    return None


def printed(data):
    data = data[:MOST]
    number = refusal(data)
    if number is not None:
        return f"file refused {number}\n"
    m, n = struct.unpack_from("<2I", data)
    return f"book {m} {n}\n"


def grains(values):
    return [round(value * G) for value in values]


# The files

def single():
    """One row, one column, two offers, the second a poor one."""
    return fit_file([[G]], [3 * G], [offer(1, [G], [41943040], [0]), offer(2, [25165824], [3 * G], [0])])


def corner():
    """Three rows, two columns, one offer; the solution is 2/3 in both columns."""
    s = [3 * G // 4, -G // 4, 3 * G // 4]
    return fit_file([[G, 0], [0, G], [G, G]], [G] * 3, [offer(1, s, [10485760] * 2, [0] * 3)])


def coupons():
    """Six coupons of one printer, three figures: a fixed excess, growth with length, and growth with the print angle.

    A row has 1, the coupon's length as a part of the longest, and 0 or 1 for its angle; its figure is an excess in millimetres.
    The figures are made up for the example, and no printer was measured. S is near the inverse of the triangular factor of A, x near the solution, w near A x - b.
    """
    rows = [[1, 0.25, 0], [1, 0.25, 1], [1, 0.5, 0], [1, 0.5, 1], [1, 1, 0], [1, 1, 1]]
    excess = [0.126, 0.187, 0.155, 0.220, 0.219, 0.281]
    s = [0.408248, -0.763763, -0.408248, 1.309307, 0, 0.816497]
    x = [1575660, 2092359, 1051372]
    rows = [grains(row) for row in rows]
    figures = grains(excess)
    w = [sum(a * c for a, c in zip(row, x)) // G - b for row, b in zip(rows, figures)]
    return fit_file(rows, figures, [offer(1, grains(s), x, w)])


def largest():
    """The largest file that is accepted: 64 rows, 8 columns, 16 offers."""
    rows = [[(i * 8 + j) * 131 - 30000 for j in range(8)] for i in range(64)]
    figures = [(-1) ** i * i * 1_000_003 for i in range(64)]
    offers = [offer(1 + i % 2, [G + i] * 36, [i] * 8, [-i] * 64) for i in range(16)]
    return fit_file(rows, figures, offers)


def with_word(data, index, value):
    return data[:4 * index] + struct.pack("<I", value) + data[4 * index + 4:]


def word(data, index):
    return struct.unpack_from("<I", data, 4 * index)[0]


def resized(data, size):
    """The file cut or filled with zeros to a size, with its length word set to that size."""
    data = (data + bytes(max(0, size - len(data))))[:size]
    return with_word(data, 7, size)


def cases():
    good = single()
    yield "single", good
    yield "corner", corner()
    yield "coupons", coupons()
    yield "no-offers", fit_file([[G, 0], [0, G], [G, G]], [G] * 3, [])
    yield "smallest", fit_file([[0]], [0], [])
    yield "wide", fit_file([[G] * 8], [G], [])
    yield "largest", largest()
    yield "unknown-kind", good[:48] + struct.pack("<I", 3) + good[52:]
    yield "second-word", good[:52] + struct.pack("<I", 1) + good[56:]
    # the length of the file
    yield "empty", b""
    yield "header-cut", good[:31]
    yield "header-only", good[:32]
    yield "last-byte-cut", good[:-1]
    yield "one-byte-more", good + b"\0"
    yield "length-word-below", with_word(good, 7, len(good) - 1)
    yield "length-word-above", with_word(good, 7, len(good) + 1)
    yield "oversized", resized(good, MOST + 1)
    # the counts, each just outside its limits
    yield "rows-none", with_word(good, 0, 0)
    yield "rows-65", resized(with_word(good, 0, 65), 4000)
    yield "columns-none", with_word(good, 1, 0)
    yield "columns-9", with_word(good, 1, 9)
    yield "offers-17", with_word(good, 2, 17)
    yield "counts-before-layout", with_word(with_word(good, 0, 0), 3, 33)
    yield "length-before-counts", with_word(with_word(good, 0, 0), 7, 0)
    # the layout, and a length that only the layout contradicts
    for index in range(3, 7):
        yield f"{HEADER[index].replace(' ', '-')}-above", with_word(good, index, word(good, index) + 1)
    yield "layout-cut", resized(good, len(good) - 8)
    yield "layout-longer", resized(good, len(good) + 8)
    yield "layout-header-only", resized(good, 32)
    yield "oversized-front", with_word(resized(good, MOST + 4), 7, MOST)
    # one bit turned in each word
    for index in range(8):
        for bit in (0, 31):
            name = HEADER[index].replace(" ", "-")
            yield f"{name}-bit-{bit}", with_word(good, index, word(good, index) ^ 1 << bit)


def stored():
    """Every stored file by its path, with its bytes."""
    named = list(cases())
    for name in ("coupons", "corner", "single"):
        yield f"examples/{name}.fit", dict(named)[name]
    yield "crates/printbook/stdin", coupons()
    yield "crates/printbook/stdout", printed(coupons()).encode()
    for name, data in named:
        yield f"crates/cases/data/{name}.fit", data
    yield "crates/cases/args", "".join(f"{name}.fit\n" for name, _ in named).encode()
    yield "crates/cases/stdout", "".join(f"{name}.fit: {printed(data)}" for name, data in named).encode()


def main():
    check = sys.argv[1:] == ["--check"]
    wanted = dict(stored())
    behind = []
    for path, data in wanted.items():
        file = ROOT / path
        if check:
            if not file.is_file() or file.read_bytes() != data:
                behind.append(path)
        else:
            file.parent.mkdir(parents=True, exist_ok=True)
            file.write_bytes(data)
    for file in sorted((ROOT / "crates/cases/data").glob("*")) + sorted((ROOT / "examples").glob("*.fit")):
        if str(file.relative_to(ROOT)) not in wanted:
            behind.append(str(file.relative_to(ROOT)))
    for path in behind:
        print(f"not as tools/cases.py makes it: {path}")
    return 1 if behind else 0


if __name__ == "__main__":
    sys.exit(main())
