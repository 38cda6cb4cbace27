"""Makes network sheets to try a program on: sound, damaged and random, small and as large as sheets get.

`sheets` mixes them by chance, anew from a number; `edges` are those where the number of rows matters.
"""
import random
import struct

METRES, PAIRS = 0x57, 0x50
LARGEST = 4294967295


def sheet(kind, sites, records, version=1, length=None, count=None):
    body = bytes([version, kind, sites & 0xFF]) + struct.pack(">H", len(records) if count is None else count)
    body += b"".join(records)
    return struct.pack(">I", len(body) if length is None else length) + body


def record(kind, one, other, weight):
    """The bytes of a link; the weight is a pair of crossings and metres."""
    crossings = struct.pack(">H", weight[0]) if kind == PAIRS else b""
    return bytes([one, other]) + crossings + struct.pack(">I", weight[1])


def weights(rng):
    """What weights a network may have: few of them, so that many trees cost the same, or many."""
    return rng.choice([
        [(0, 7)],
        [(0, 1), (0, 2)],
        [(0, 0), (0, 1), (0, 2), (0, 3)],
        [(0, 0), (0, LARGEST)],
        [(0, 900), (1, 10)],
        [(2, 5), (2, 6), (3, 5)],
        [(65535, LARGEST), (65535, 0), (0, LARGEST)],
        [(rng.randrange(3), metres) for metres in range(100)],
    ])


def some_ends(rng, sites):
    one = rng.randrange(sites)
    return one, (one + rng.randrange(1, sites)) % sites


def tree_ends(rng, sites):
    """The ends of links that make a tree by chance: each site is joined to an earlier one."""
    names = rng.sample(range(sites), sites)
    return [rng.sample([names[at], names[rng.randrange(at)]], 2) for at in range(1, sites)]


def written(rng, sites, ends, heights=None, kind=None):
    kind = kind or rng.choice([METRES, PAIRS])
    heights = heights or weights(rng)
    return sheet(kind, sites, [record(kind, *pair, rng.choice(heights)) for pair in ends])


def loose(rng):
    """Any links between any sites; most often the sites are not joined."""
    sites = rng.choice([1, 2, 3, 4, 5, rng.randrange(1, 65), 64])
    count = 0 if sites == 1 else rng.choice([0, 1, 2, rng.randrange(9)])
    return written(rng, sites, [some_ends(rng, sites) for _ in range(count)])


def joined(rng, most_sites=7, more=6):
    """A tree and a few links more, some of them parallel."""
    sites = rng.randrange(1, most_sites + 1)
    ends = tree_ends(rng, sites)
    if sites > 1:
        ends += [some_ends(rng, sites) for _ in range(rng.randrange(more + 1))]
        ends += [rng.choice(ends) for _ in range(rng.choice([0, 0, 1, 2]))]
    rng.shuffle(ends)
    return written(rng, sites, ends)


def tree(rng):
    sites = rng.choice([1, 2, rng.randrange(1, 65), 64])
    return written(rng, sites, tree_ends(rng, sites))


def wide(rng):
    """Joined, with more sites and links than `joined` has."""
    return joined(rng, 64, 40)


def parted(rng):
    """Two joined halves with nothing between them."""
    sites = rng.randrange(2, 20)
    cut = rng.randrange(1, sites)
    ends = tree_ends(rng, cut) + [[cut + site for site in pair] for pair in tree_ends(rng, sites - cut)]
    ends += [rng.choice(ends) for _ in range(rng.randrange(4))] if ends else []
    rng.shuffle(ends)
    return written(rng, sites, ends)


def chain(rng, lengths, heights):
    """Cycles in a chain, each of links of one weight: the cheapest trees are as many as the product of the lengths."""
    kind = rng.choice([METRES, PAIRS])
    records, first = [], 0
    for length in lengths:
        height = rng.choice(heights)
        last = first + length - 1
        for site in range(first, last + 1):
            records.append(record(kind, site, first if site == last else site + 1, height))
        first = last
    rng.shuffle(records)
    return sheet(kind, first + 1, records)


def small_chain(rng):
    return chain(rng, [rng.randrange(2, 5) for _ in range(rng.randrange(1, 4))], weights(rng))


def full(rng):
    """As many sites or links as a sheet may have, or one link more, sometimes damaged or with bytes behind it."""
    sites = rng.choice([2, 63, 64])
    count = rng.choice([511, 512, 512, 512, 513])
    ends = tree_ends(rng, sites)
    ends += [some_ends(rng, sites) for _ in range(count - len(ends))]
    rng.shuffle(ends)
    kind = rng.choice([METRES, PAIRS])
    data = bytearray(written(rng, sites, ends, None, kind))
    if rng.random() < 0.3:
        at = 9 + rng.randrange(min(count, 512)) * (8 if kind == PAIRS else 6)
        data[at] = rng.choice([data[at + 1], 64, 255])
    if rng.random() < 0.2:
        data += b"\0" * rng.choice([1, 2, 2000])
    return bytes(data)


def damaged(rng):
    data = bytearray(rng.choice([loose, joined])(rng))
    for _ in range(rng.choice([1, 1, 1, 2, 3])):
        what = rng.randrange(9)
        if what == 0 and data:
            data[rng.randrange(len(data))] = rng.randrange(256)
        elif what == 1 and data:
            data[rng.randrange(min(9, len(data)))] = rng.choice([0, 1, 2, 9, 64, 65, 80, 87, 255])
        elif what == 2:
            data = data[:rng.randrange(len(data) + 1)]
        elif what == 3:
            data += bytes(rng.randrange(256) for _ in range(rng.randrange(1, 9)))
        elif what == 4 and len(data) >= 9:
            data[0:4] = struct.pack(">I", (len(data) - 4 + rng.choice([-1, 0, 1])) & 0xFFFFFFFF)
        elif what == 5 and len(data) >= 9:
            data[7:9] = struct.pack(">H", rng.choice([0, 1, 2, 511, 512, 513, 65535]))
        elif what == 6 and len(data) >= 9:
            data[6] = rng.choice([0, 1, 2, 64, 65, 255])
        elif what == 7 and len(data) > 10:
            data[rng.choice([9, 10])] = rng.choice([0, 1, 63, 64, 255])
        elif what == 8 and len(data) > 10:
            data[10] = data[9]
    return bytes(data)


def noise(rng):
    return bytes(rng.randrange(256) for _ in range(rng.randrange(0, 40)))


def complete(sites, kind=METRES, height=(0, 7)):
    ends = [(one, other) for one in range(sites) for other in range(one + 1, sites)]
    return sheet(kind, sites, [record(kind, *pair, height) for pair in ends])


def edges():
    """Where the number of rows matters: about 1,000 of them, none, one; and the longest sheets."""
    rng = random.Random(1000)
    thousand = [[10, 10, 10], [2, 4, 5, 5, 5], [2, 2, 2, 5, 25]]
    about = [[27, 37], [3, 9, 37], [7, 11, 13], [13, 7, 11], [2] * 10, [64]]
    families = [[(0, 7)], [(0, 900), (1, 10)], [(2, 5), (2, 6), (3, 5)]]
    for number, lengths in enumerate(thousand + about):
        yield chain(rng, lengths, families[number % 3])
    for sites in range(1, 9):
        yield complete(sites)
        yield complete(sites, PAIRS, (1, LARGEST))
    for kind in (METRES, PAIRS):
        yield sheet(kind, 1, [])
        yield sheet(kind, 2, [])
        yield sheet(kind, 64, [])
        heaviest = [record(kind, site, site + 1, (65535, LARGEST)) for site in range(63)]
        yield sheet(kind, 64, heaviest)
        yield sheet(kind, 64, heaviest * 8 + heaviest[:8])
        for count in (512, 513):
            yield sheet(kind, 2, [record(kind, 0, 1, (0, link % 2)) for link in range(count)])
        tied = [record(kind, *some_ends(rng, 64), (link % 2, 3)) for link in range(512)]
        yield sheet(kind, 64, tied)
        yield sheet(kind, 64, tied) + b"\0"
        yield sheet(kind, 64, tied) + b"\0" * 5000


def sheets(count, start, larges):
    """`count` byte strings, made anew from the number `start`; about one in `larges` is as large as sheets get."""
    rng = random.Random(start)
    makers = [loose, joined, joined, tree, parted, small_chain, damaged, damaged, damaged, noise]
    for _ in range(count):
        if larges and rng.randrange(larges) == 0:
            yield rng.choice([full, wide])(rng)
        else:
            yield rng.choice(makers)(rng)
