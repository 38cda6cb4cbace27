"""An independent reader of network sheets, which lists their cheapest trees too.

It shares no code with the product: it follows docs/SHEETS.md, docs/REFUSALS.md and docs/DEFINITIONS.md.
`answer` gives all that `trees` must print for any bytes.

  python3 tests/report/oracle.py SHEET      prints the answer to a sheet
  python3 tests/report/oracle.py --self     holds it to the worked example, and to trying every set of links on small networks

How the trees are listed: of the links of one weight, every cheapest tree has as many as join what those of lower weight
leave apart, and which ones a tree takes of one weight does not bear on what it may take of another. So the choices are
listed weight by weight, in rank order, and every combination of them is a row.
"""
import itertools
import random
import sys

MOST = 4106
LIMIT = 1000
METRES, PAIRS = 0x57, 0x50


class Refused(Exception):
    def __init__(self, number, place, layer):
        super().__init__(f"refused {number} at {place} in {layer}")


def read(data):
    """The kind, the number of sites and the links of a sheet, each as one end, the other end and the weight."""
    data = data[:MOST]
    kind = PAIRS if len(data) > 5 and data[5] == PAIRS else METRES
    width = 8 if kind == PAIRS else 6
    if len(data) < 9:
        raise Refused(1, len(data), "sheet")
    length = int.from_bytes(data[0:4], "big")
    if length != len(data) - 4:
        raise Refused(2, 0, "sheet")
    if data[4] != 1:
        raise Refused(3, 4, "sheet")
    if data[5] != kind:
        raise Refused(4, 5, "sheet")
    sites = data[6]
    if not 1 <= sites <= 64:
        raise Refused(5, 6, "sheet")
    count = int.from_bytes(data[7:9], "big")
    if count > 512:
        raise Refused(6, 7, "sheet")
    if length != 5 + count * width:
        raise Refused(7, 7, "sheet")
    links = []
    for link in range(count):
        one, other, *weight = data[9 + link * width:9 + (link + 1) * width]
        if one >= sites or other >= sites:
            raise Refused(8, link, "network")
        if one == other:
            raise Refused(9, link, "network")
        metres = int.from_bytes(bytes(weight[-4:]), "big")
        crossings = int.from_bytes(bytes(weight[:-4]), "big")
        links.append((one, other, (crossings, metres)))
    return kind, sites, links


def ranking(links):
    return sorted(range(len(links)), key=lambda link: (links[link][2], link))


def merges(labels, ends, most):
    """How many of the parts that `labels` tells apart can be merged along the ends, counted up to `most`."""
    leader, made = {}, 0
    for one, other in ends:
        if made == most:
            break
        one, other = labels[one], labels[other]
        while one in leader:
            one = leader[one]
        while other in leader:
            other = leader[other]
        if one != other:
            leader[one] = other
            made += 1
    return made


def merged(labels, one, other):
    old, new = labels[one], labels[other]
    return [new if label == old else label for label in labels]


def choices(labels, numbers, links, most):
    """The first `most` ways to merge all that the numbered links can merge, without a cycle, earlier rows first."""
    ends = [links[number][:2] for number in numbers]
    size = merges(labels, ends, len(labels))
    found, open_ways = [], [(0, labels, ())]
    while open_ways and len(found) < most:
        at, parts, row = open_ways.pop()
        while len(row) < size:
            one, other = ends[at]
            at += 1
            if parts[one] != parts[other]:
                needed = size - len(row)
                if merges(parts, ends[at:], needed) == needed:
                    open_ways.append((at, parts, row))
                parts, row = merged(parts, one, other), row + (numbers[at - 1],)
        found.append(row)
    return found


def rows(sites, links, most):
    """The first `most` rows of the full list."""
    labels, classes = list(range(sites)), []
    for _, numbers in itertools.groupby(ranking(links), key=lambda link: links[link][2]):
        found = choices(labels, list(numbers), links, most)
        classes.append(found)
        for number in found[0]:
            labels = merged(labels, *links[number][:2])
    if len(set(labels)) > 1:
        return []
    combined = itertools.product(*classes)
    return [sum(row, ()) for row in itertools.islice(combined, most)]


def total(row, links):
    return tuple(sum(links[link][2][side] for link in row) for side in (0, 1))


def answer(data):
    try:
        kind, sites, links = read(data)
    except Refused as refusal:
        return f"{refusal}\n"
    listed = rows(sites, links, LIMIT + 1)
    written = listed[:LIMIT]
    lines = [f"sites {sites} links {len(links)}"]
    lines += [" ".join(map(str, row)) or "-" for row in written]
    crossings, metres = total(written[0], links) if written else (0, 0)
    each = "-" if not written else f"{crossings}/{metres}" if kind == PAIRS else f"{metres}"
    ended = "Z" if not written else "L" if len(listed) > LIMIT else "X"
    lines.append(f"trees {len(written)} each {each} ended {ended}")
    return "\n".join(lines) + "\n"


def rows_by_trial(sites, links):
    """The full list again, by its definition: every set of links is tried."""
    spanning = []
    for row in itertools.combinations(ranking(links), sites - 1):
        if merges(list(range(sites)), [links[link][:2] for link in row], sites) == sites - 1:
            spanning.append(row)
    least = min((total(row, links) for row in spanning), default=None)
    return [row for row in spanning if total(row, links) == least]


FOUR_SITES = bytes.fromhex(
    "00000023 01 57 04 0005 000100000002 010200000002 000200000002 020300000001 010300000002")
FOUR_SITES_ANSWER = "sites 4 links 5\n3 0 1\n3 0 2\n3 0 4\n3 1 2\n3 2 4\ntrees 5 each 5 ended X\n"


def self_test(count=3000, start=7):
    assert answer(FOUR_SITES) == FOUR_SITES_ANSWER
    rng = random.Random(start)
    most = 0
    for _ in range(count):
        sites = rng.randrange(1, 7)
        size = 0 if sites == 1 else rng.randrange(0, 11)
        heights = rng.choice([[(0, 1)], [(0, 1), (0, 2)], [(0, 5), (1, 0), (1, 2)], [(0, n) for n in range(9)]])
        ends = [rng.sample(range(sites), 2) for _ in range(size)]
        links = [(one, other, rng.choice(heights)) for one, other in ends]
        listed, tried = rows(sites, links, 10000), rows_by_trial(sites, links)
        assert listed == tried, (sites, links, listed, tried)
        cut = rng.randrange(1, 40)
        assert rows(sites, links, cut) == tried[:cut], (sites, links, cut)
        most = max(most, len(listed))
    print(f"{count} networks alike, with up to {most} cheapest trees")


if __name__ == "__main__":
    if sys.argv[1:] == ["--self"]:
        self_test()
    else:
        with open(sys.argv[1], "rb") as file:
            sys.stdout.write(answer(file.read()))
