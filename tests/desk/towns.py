"""towns.py PROGRAM COUNT: show and make are inverse.

For towns of chance, with hours and without, the text and the file are written down here a second time, by
docs/FORMAT.md. The command has to make this file of this text, and show this text of this file.
"""
import random
import struct
import subprocess
import sys
import tempfile

BLOCK, HEAD, SUMMED = 512, 8, 508


def road_points(chance, period, count):
    """Points that keep the rules: the first at tick 0, ticks rising, nobody overtakes, at midnight too."""
    ticks = [0] + sorted(chance.sample(range(1, period), count - 1))
    first = chance.randint(1, period)
    points = [(0, first)]
    for before, tick in zip(ticks, ticks[1:]):
        low = max(1, points[-1][1] - (tick - before))
        points.append((tick, chance.randint(low, min(period, first + period - tick))))
    return points


def town(chance, large):
    period = chance.choice([1, 2, 5, 10, 60, 1000, 2879, 2880])
    places = chance.randint(1, 512) if large else chance.randint(1, 9)
    cells = chance.choice([1, 2, chance.randint(1, 64), 64])
    hours = chance.randint(0, 1)
    roads = 0 if places == 1 else chance.randint(0, 2048 if large else 12)
    all_day = chance.randint(0, 3) == 0
    where = []
    for _ in range(places):
        close = period if all_day or not hours else chance.randint(1, period)
        opens = 0 if all_day or not hours else chance.randrange(close)
        where.append((chance.randrange(cells), opens, close))
    ways = []
    for _ in range(roads):
        ends = chance.sample(range(places), 2)
        count = min(period, chance.choice([1, 1, 2, 3, 5, 12]))
        ways.append((ends[0], ends[1], road_points(chance, period, count)))
    number = chance.choice([0, 1, chance.getrandbits(32), 4294967295])
    return number, period, cells, hours, where, ways


def largest():
    """A town that has as much of everything as the limits allow: its file has 558 blocks."""
    chance = random.Random("largest")
    where = [(chance.randrange(64), 0, 2880) for _ in range(512)]
    counts = [31] * 2047 + [65535 - 31 * 2047]
    ways = [(*chance.sample(range(512), 2), road_points(chance, 2880, count)) for count in counts]
    return 4294967295, 2880, 64, 1, where, ways


def text_of(number, period, cells, hours, where, ways):
    points = sum(len(way[2]) for way in ways)
    lines = [f"# {len(where)} places, {len(ways)} roads, {points} points; a tick is half a minute",
             f"network {number} period {period} cells {cells} hours {hours}"]
    for place, (cell, opens, close) in enumerate(where):
        lines.append(f"place {place} cell {cell}" + (f" open {opens} close {close}" if hours else ""))
    point = 0
    for road, (start, end, its) in enumerate(ways):
        lines.append(f"road {road} from {start} to {end}")
        for tick, travel in its:
            lines.append(f"point {point} tick {tick} travel {travel}")
            point += 1
    return ("\n".join(lines) + "\n").encode()


def checked(block):
    a, b = 1, 0
    for (word,) in struct.iter_unpack("<H", block[:SUMMED]):
        a = (a + word) % 65535
        b = (b + a) % 65535
    return block[:SUMMED] + struct.pack("<HH", a, b)


def blocks(kind, entries, first):
    per = (SUMMED - HEAD) // len(entries[0]) if entries else 1
    made = []
    for at in range(0, len(entries), per if kind != 1 else 1):
        part = entries[at:at + per]
        body = struct.pack("<BBHI", kind, 0, len(part), first + len(made)) + b"".join(part)
        made.append(checked(body.ljust(BLOCK, b"\0")))
    return made


def file_of(number, period, cells, hours, where, ways):
    points = [point for way in ways for point in way[2]]
    header = struct.pack("<IHHHHIB", number, period, len(where), len(ways), cells, len(points), hours)
    made = blocks(1, [header], 0)
    if hours:
        made += blocks(9, [struct.pack("<HHH", *place) for place in where], len(made))
    else:
        made += blocks(2, [struct.pack("<H", place[0]) for place in where], len(made))
    made += blocks(3, [struct.pack("<HHH", start, end, len(its)) for start, end, its in ways], len(made))
    made += blocks(4, [struct.pack("<HH", *point) for point in points], len(made))
    return b"".join(made)


def run(program, words, given):
    return subprocess.run([program] + words, input=given, capture_output=True, check=True).stdout


def main(program, count):
    for seed in range(count + 1):
        one = town(random.Random(seed), seed % 25 == 24) if seed < count else largest()
        text, file = text_of(*one), file_of(*one)
        made = run(program, ["make", "-", "-o", "-"], text)
        shown = run(program, ["show", "-"], file)
        if made != file or shown != text:
            with tempfile.NamedTemporaryFile(delete=False) as kept:
                kept.write(text)
            sys.exit(f"towns: town {seed} is made or shown otherwise; its text is {kept.name}")
    assert len(file) == 558 * BLOCK
    print(f"towns: {count} towns, and the largest, are made and shown as they are")


if __name__ == "__main__":
    main(sys.argv[1], int(sys.argv[2]))
