"""An independent reader of network sheets, and a maker of sound, damaged and random ones.

It shares no code with the product: it follows docs/SHEETS.md and docs/REFUSALS.md. `answer` gives the line that
`trees` must print for any bytes; `sheets` makes bytes to try.
"""
import random
import struct

MOST = 4106


def refused(number, place, layer):
    return f"refused {number} at {place} in {layer}"


def answer(data):
    data = data[:MOST]
    crossed = len(data) > 5 and data[5] == 0x50
    letter, width = (0x50, 8) if crossed else (0x57, 6)
    if len(data) < 9:
        return refused(1, len(data), "sheet")
    length = int.from_bytes(data[0:4], "big")
    if length != len(data) - 4:
        return refused(2, 0, "sheet")
    if data[4] != 1:
        return refused(3, 4, "sheet")
    if data[5] != letter:
        return refused(4, 5, "sheet")
    sites = data[6]
    if not 1 <= sites <= 64:
        return refused(5, 6, "sheet")
    links = int.from_bytes(data[7:9], "big")
    if links > 512:
        return refused(6, 7, "sheet")
    if length != 5 + links * width:
        return refused(7, 7, "sheet")
    for link in range(links):
        start = 9 + link * width
        one, other = data[start], data[start + 1]
        if one >= sites or other >= sites:
            return refused(8, link, "network")
        if one == other:
            return refused(9, link, "network")
    return f"sites {sites} links {links}"


def sheet(kind, sites, links, version=1, length=None, count=None):
    body = bytes([version, kind, sites & 0xFF]) + struct.pack(">H", len(links) if count is None else count)
    body += b"".join(links)
    return struct.pack(">I", len(body) if length is None else length) + body


def record(rng, kind, sites, weights):
    one = rng.randrange(sites)
    other = rng.randrange(sites) if sites == 1 else (one + rng.randrange(1, sites)) % sites
    weight = struct.pack(">I", rng.choice(weights))
    if kind == 0x50:
        weight = struct.pack(">H", rng.choice([0, 1, 2, 65535])) + weight
    return bytes([one, other]) + weight


def sound(rng, most=8):
    kind = rng.choice([0x57, 0x50])
    sites = rng.choice([1, 2, 3, 4, 5, rng.randrange(1, 65), 64])
    count = 0 if sites == 1 else rng.choice([0, 1, 2, rng.randrange(most + 1)])
    weights = rng.choice([[7], [1, 2], [0, 1, 2, 3], [0, 4294967295], list(range(100))])
    return sheet(kind, sites, [record(rng, kind, sites, weights) for _ in range(count)])


def damaged(rng):
    data = bytearray(sound(rng))
    for _ in range(rng.choice([1, 1, 1, 2, 3])):
        what = rng.randrange(9)
        if what == 0 and data:
            data[rng.randrange(len(data))] = rng.randrange(256)
        elif what == 1 and data:
            data[rng.randrange(min(9, len(data)))] = rng.choice([0, 1, 2, 9, 64, 65, 80, 87, 255])
        elif what == 2:
            data = data[:rng.randrange(len(data) + 1)]
        elif what == 3:
            data += bytes(rng.randrange(256) for _ in range(rng.randrange(1, 9)))
        elif what == 4 and len(data) >= 9:
            data[0:4] = struct.pack(">I", (len(data) - 4 + rng.choice([-1, 0, 1])) & 0xFFFFFFFF)
        elif what == 5 and len(data) >= 9:
            data[7:9] = struct.pack(">H", rng.choice([0, 1, 2, 511, 512, 513, 65535]))
        elif what == 6 and len(data) >= 9:
            data[6] = rng.choice([0, 1, 2, 64, 65, 255])
        elif what == 7 and len(data) > 10:
            data[rng.choice([9, 10])] = rng.choice([0, 1, 63, 64, 255])
        elif what == 8 and len(data) > 10:
            data[10] = data[9]
    return bytes(data)


def noise(rng):
    return bytes(rng.randrange(256) for _ in range(rng.randrange(0, 40)))


def large(rng):
    kind = rng.choice([0x57, 0x50])
    sites = rng.choice([2, 63, 64])
    count = rng.choice([510, 511, 512, 513])
    data = bytearray(sheet(kind, sites, [record(rng, kind, sites, [1, 2, 3]) for _ in range(count)]))
    if rng.random() < 0.5:
        at = 9 + rng.randrange(min(count, 512)) * (8 if kind == 0x50 else 6)
        data[at] = rng.choice([data[at + 1], 64, 255])
    if rng.random() < 0.2:
        data += b"\0" * rng.choice([1, 2, 2000])
    return bytes(data)


def sheets(count, start, larges):
    """`count` byte strings, made anew from the number `start`; about one in `larges` is as long as sheets get."""
    rng = random.Random(start)
    for _ in range(count):
        if larges and rng.randrange(larges) == 0:
            yield large(rng)
        else:
            yield rng.choice([sound, damaged, damaged, noise])(rng)
