#!/usr/bin/env python3
"""Makes sample cards (NAME.card) and the text that `cardlist` must print for each (NAME.txt).

The text is computed here from the rules alone, by Floyd-Warshall over the bounds; each distance is then
confirmed by a timetable that attains it and by a chain of bounds that forbids more.
"""
import pathlib

from pack import Bits, card

HORIZON = 1_000_000
HERE = pathlib.Path(__file__).resolve().parent


def edges(n, bounds):
    """(i, j, most): T(j) - T(i) is at most `most`."""
    for i in range(n):
        yield i, 0, 0
        yield 0, i, HORIZON
    for start, end, lower, upper in bounds:
        if upper is not None:
            yield start, end, upper
        if lower is not None:
            yield end, start, -lower


def distances(n, bounds):
    """The greatest gaps over all timetables, or None where there is no timetable."""
    d = [[HORIZON] * n for _ in range(n)]
    for i in range(n):
        d[i][i] = 0
    for i, j, most in edges(n, bounds):
        d[i][j] = min(d[i][j], most)
    one = [row[:] for row in d]
    for k in range(n):
        for i in range(n):
            for j in range(n):
                if d[i][k] + d[k][j] < d[i][j]:
                    d[i][j] = d[i][k] + d[k][j]
        if any(d[i][i] < 0 for i in range(n)):
            return None
    confirm(n, bounds, d, one)
    return d


def confirm(n, bounds, d, one):
    """No timetable has a greater gap than d, and each d is attained by one."""
    for i in range(n):
        times = [d[i][k] - d[i][0] for k in range(n)]
        assert times[0] == 0 and all(0 <= t <= HORIZON for t in times)
        assert all(times[b] - times[a] <= most for a, b, most in edges(n, bounds))
        # times[j] - times[i] is d[i][j]; and a chain of bounds from i to j says that it is never more
        reached = {i}
        while True:
            more = {
                j
                for j in range(n)
                for k in reached
                if j not in reached and d[i][k] + one[k][j] == d[i][j]
            }
            if not more:
                break
            reached |= more
        assert len(reached) == n


def listing(n, bounds):
    d = distances(n, bounds)
    if d is None:
        return "refused 9\n"
    together = lambda i, j: d[i][j] + d[j][i] == 0
    lines, leader = [], []
    for e in range(n):
        members = [m for m in range(n) if together(e, m)]
        first = min(m for m in members if all(d[m][k] >= 0 for k in members))
        leader.append(first)
        lines.append(f"step {e} {first} {d[first][e]}")
    leaders = sorted(set(leader))
    links = []
    for a in leaders:
        for c in leaders:
            if a == c:
                continue
            others = [b for b in leaders if b not in (a, c) and d[a][b] + d[b][c] == d[a][c]]
            if d[a][c] >= 0:
                if c != 0 and not any(d[b][c] >= 0 for b in others):
                    links.append((a, c, 0, d[a][c]))
            elif not any(d[a][b] < 0 for b in others):
                links.append((c, a, 1, -d[a][c]))
    for trigger, target, kind, seconds in sorted(links):
        lines.append(f"link {trigger} {target} {('most', 'least')[kind]} {seconds}")
    return "".join(line + "\n" for line in lines)


def numbers(seed):
    """A stream of numbers that stays the same everywhere."""
    while True:
        seed = (seed * 6364136223846793005 + 1442695040888963407) % 2**64
        yield seed >> 33


def full_job():
    """64 steps and 512 bounds around a timetable, each with some room."""
    draw = numbers(7)
    pick = lambda n: next(draw) % n
    times = [0] + [100 + pick(900_000) for _ in range(63)]
    bounds = []
    for start in range(1, 64):  # a few steps move together
        if start % 9 == 0:
            gap = times[start] - times[start - 1]
            bounds.append((start - 1, start, gap, gap))
    while len(bounds) < 512:
        start, end = pick(64), pick(64)
        if start == end:
            continue
        gap = times[end] - times[start]
        lower, upper = gap - 1 - pick(4000), gap + 1 + pick(4000)
        form = pick(4)
        bounds.append((start, end, None if form == 1 else lower, None if form == 2 else upper))
    reach = lambda z: z is None or -HORIZON <= z <= HORIZON
    assert all(reach(lower) and reach(upper) for _, _, lower, upper in bounds)
    return 64, bounds


# A washer's job: two baths with their valves, a lamp with its shutter, and a dryer.
WASHER = (
    10,
    [
        (0, 1, 30, 90),  # the first bath fills after the start
        (1, 2, 5, 5),  # its valve shuts 5 seconds after it fills
        (1, 3, 12, 12),  # and the film enters 12 seconds after
        (3, 4, 60, 75),  # the film leaves the first bath
        (4, 5, -8, -8),  # the second bath's valve opens 8 seconds before that
        (4, 6, 20, None),  # the lamp is lit some time after
        (6, 7, 0, 0),  # with its shutter, at the same time
        (7, 8, None, 200),  # the scan ends soon after
        (8, 6, None, -15),  # though not too soon
        (9, 3, None, 0),  # the dryer is warm once the film enters, or later
        (0, 9, 40, 600),
    ],
)


# Small jobs, each for one rule.
SMALL = {
    "chain": (4, [(0, 1, 10, 20), (1, 2, 30, 40), (2, 3, 10, 20), (0, 3, 60, 70)]),  # eight links
    "rigid": (3, [(0, 1, 10, 20), (1, 2, 30, 40), (0, 2, 0, 40)]),  # one group and no link
    "pair": (3, [(0, 1, 5, 10), (1, 2, 0, 0)]),  # a group of two, whose links must not drop each other
    "unbound": (2, []),  # no bound but the horizon
    "one_step": (1, []),
    "self_bound": (2, [(1, 1, 0, 2)]),
    "refused_self_bound": (2, [(1, 1, 1, 2)]),
    "refused_one_short": (3, [(0, 1, 10, 20), (1, 2, 30, 40), (0, 2, 0, 39)]),
}


def spoiled(record):
    """A card of three steps whose record at place 1 is spoiled."""
    good = [(0, 1, 10, 20), (1, 2, 1, 2), (1, 2, 0, None)]
    bits = Bits()
    for value, width in zip(record, (6, 6, 1, 1, 21, 21)):
        bits.put(value, width)
    whole = card(3, good)
    return whole[:10] + bits.bytes() + whole[17:]


def noise():
    draw = numbers(11)
    return bytes(next(draw) % 256 for _ in range(4096))


def refused_open(data):
    """The number of the refusal of a card that does not open; the program reads one byte more than the longest card."""
    data = data[: 3 + 7 * 512 + 1]
    if len(data) < 3:
        return 1
    head = int.from_bytes(data[:3], "big")
    count = head >> 4 & 1023
    if head >> 20 != 1 or head & 15 != 0 or count > 512:
        return 2
    assert len(data) != 3 + 7 * count
    return 1


def save(name, data, text):
    (HERE / f"{name}.card").write_bytes(data)
    (HERE / f"{name}.txt").write_text(text)


def main():
    two = bytes.fromhex("10 40 10 00 1C 00 01 40 00 14")
    assert two == card(2, [(0, 1, 10, 20)])
    text = listing(2, [(0, 1, 10, 20)])
    assert text == "step 0 0 0\nstep 1 1 0\nlink 0 1 most 20\nlink 0 1 least 10\n"
    save("two_steps", two, text)
    save("washer", card(*WASHER), listing(*WASHER))
    save("full", card(*full_job()), listing(*full_job()))
    for name, job in SMALL.items():
        save(name, card(*job), listing(*job))

    for name, data in [
        ("refused_empty", b""),
        ("refused_two_bytes", b"\x10\x40"),
        ("refused_noise", noise()),
        ("refused_edition", b"\x20\x40\x10"),
        ("refused_short", b"\x10\x40\x10"),
    ]:
        save(name, data, f"refused {refused_open(data)}\n")
    save("refused_step", spoiled((1, 3, 1, 1, 1, 2)), "refused 3 at 1\n")
    save("refused_reach", spoiled((1, 2, 1, 1, 1, HORIZON + 1)), "refused 4 at 1\n")
    save("refused_end", spoiled((1, 2, 0, 1, 1, 2)), "refused 5 at 1\n")
    none = (3, [(0, 1, 10, 20), (1, 2, 5, None), (0, 2, None, 14)])
    assert listing(*none) == "refused 9\n"
    save("refused_no_timetable", card(*none), "refused 9\n")


if __name__ == "__main__":
    main()
