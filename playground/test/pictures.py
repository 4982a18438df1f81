"""A picture made small: with at most 256 colours, by python's own library only."""
import collections
import struct
import zlib

SIGNATURE = b"\x89PNG\r\n\x1a\n"
CHANNELS = {2: 3, 6: 4}
COLOURS = 256
# Colours that differ in these bits only count as one.
COARSE = 0xF8


def pieces(data):
    at = len(SIGNATURE)
    while at < len(data):
        length, kind = struct.unpack(">I4s", data[at:at + 8])
        yield kind, data[at + 8:at + 8 + length]
        at += 12 + length


def nearest_of_three(left, up, corner):
    guess = left + up - corner
    by = (abs(guess - left), abs(guess - up), abs(guess - corner))
    return left if by[0] <= by[1] and by[0] <= by[2] else up if by[1] <= by[2] else corner


def unfiltered(kind, line, above, step):
    """A row as it was before it was filtered: what is added is foretold by the bytes to the left and above."""
    if kind == 0:
        return line
    for x, byte in enumerate(line):
        left = line[x - step] if x >= step else 0
        corner = above[x - step] if x >= step else 0
        foretold = (left, above[x], (left + above[x]) >> 1, nearest_of_three(left, above[x], corner) if kind == 4 else 0)[kind - 1]
        line[x] = (byte + foretold) & 255
    return line


def rows_of(data):
    """The width of a picture of 8 bits a channel, and its rows of colours."""
    chunks = list(pieces(data))
    width, height, depth, colour = struct.unpack(">IIBB", dict(chunks)[b"IHDR"][:10])
    assert depth == 8 and colour in CHANNELS, "a picture of another kind"
    step = CHANNELS[colour]
    raw = zlib.decompress(b"".join(body for kind, body in chunks if kind == b"IDAT"))
    size = width * step
    above = bytearray(size)
    rows = []
    for y in range(height):
        at = y * (size + 1)
        above = unfiltered(raw[at], bytearray(raw[at + 1:at + 1 + size]), above, step)
        rows.append([tuple(above[x:x + 3]) for x in range(0, size, step)])
    return width, rows


def palette_of(rows):
    """The commonest colours, and for each coarse colour the place of the nearest of them."""
    counts = collections.Counter(colour for row in rows for colour in row)
    coarse = {}
    for colour, count in counts.most_common():
        coarse.setdefault(tuple(part & COARSE for part in colour), [colour, 0])[1] += count
    common = [colour for colour, _ in sorted(coarse.values(), key=lambda one: -one[1])[:COLOURS]]
    distance = lambda one, other: sum((a - b) ** 2 for a, b in zip(one, other))
    return common, {key: min(range(len(common)), key=lambda place: distance(common[place], colour)) for key, (colour, _) in coarse.items()}


def smaller(data):
    width, rows = rows_of(data)
    common, place = palette_of(rows)
    known = {}

    def number(colour):
        if colour not in known:
            known[colour] = place[tuple(part & COARSE for part in colour)]
        return known[colour]

    raw = b"".join(b"\0" + bytes(map(number, row)) for row in rows)
    piece = lambda kind, body: struct.pack(">I", len(body)) + kind + body + struct.pack(">I", zlib.crc32(kind + body))
    head = struct.pack(">IIBBBBB", width, len(rows), 8, 3, 0, 0, 0)
    return SIGNATURE + piece(b"IHDR", head) + piece(b"PLTE", bytes(part for colour in common for part in colour)) + piece(b"IDAT", zlib.compress(raw, 9)) + piece(b"IEND", b"")
