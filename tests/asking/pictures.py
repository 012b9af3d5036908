"""Makes the pictures of a browser small: of 256 colours at most, each point one byte."""
import struct
import zlib
from collections import Counter

SIGNATURE, MOST_COLOURS, MOST_KINDS, KIND = b"\x89PNG\r\n\x1a\n", 256, 160, 40


def chunks_of(png):
    at = len(SIGNATURE)
    while at < len(png):
        size, kind = struct.unpack(">I4s", png[at:at + 8])
        yield kind, png[at + 8:at + 8 + size]
        at += size + 12


def predicted(kind, left, up, corner):
    """What a filter of PNG takes a byte to be, by those before it."""
    if kind == 4:
        guess = left + up - corner
        return min((left, up, corner), key=lambda one: abs(guess - one))
    return (0, left, up, (left + up) // 2)[kind]


def rows_of(png):
    """How wide a picture is, and its rows of red, green and blue."""
    parts = list(chunks_of(png))
    width, height, depth, colours = struct.unpack(">IIBB", parts[0][1][:10])
    size = {2: 3, 6: 4}[colours] if depth == 8 else None
    data, before, rows = zlib.decompress(b"".join(part for kind, part in parts if kind == b"IDAT")), bytes(width * size), []
    for y in range(height):
        at = y * (width * size + 1)
        kind, row = data[at], bytearray(data[at + 1:at + 1 + width * size])
        for x in range(len(row) if kind else 0):
            left, corner = (row[x - size], before[x - size]) if x >= size else (0, 0)
            row[x] = (row[x] + predicted(kind, left, before[x], corner)) & 255
        before = bytes(row)
        rows.append([tuple(row[x:x + 3]) for x in range(0, len(row), size)])
    return width, rows


def rounded(colour):
    return tuple(min(255, (part + 2) // 4 * 4) for part in colour)


def palette_of(rows):
    """The colours that are most often seen, first one of each kind, so that a rare one is not lost; and for each colour the number of the
    nearest of them."""
    counts, kinds = Counter(rounded(colour) for row in rows for colour in row), {}
    for colour, _ in counts.most_common():
        kinds.setdefault(tuple(part // KIND for part in colour), colour)
    chosen = list(dict.fromkeys([*kinds.values()][:MOST_KINDS] + [colour for colour, _ in counts.most_common(MOST_COLOURS)]))[:MOST_COLOURS]
    near = {colour: k for k, colour in enumerate(chosen)}
    for colour in counts:
        if colour not in near:
            near[colour] = min(range(len(chosen)), key=lambda k: sum((a - b) ** 2 for a, b in zip(chosen[k], colour)))
    return chosen, near


def chunk(kind, data):
    return struct.pack(">I", len(data)) + kind + data + struct.pack(">I", zlib.crc32(kind + data))


def small(png):
    """The same picture in at most 256 colours."""
    width, rows = rows_of(png)
    chosen, near = palette_of(rows)
    lines = b"".join(b"\0" + bytes(near[rounded(colour)] for colour in row) for row in rows)
    head = struct.pack(">IIBBBBB", width, len(rows), 8, 3, 0, 0, 0)
    return SIGNATURE + chunk(b"IHDR", head) + chunk(b"PLTE", bytes(part for colour in chosen for part in colour)) + chunk(
        b"IDAT", zlib.compress(lines, 9)) + chunk(b"IEND", b"")
