"""trips.py PROGRAM NETWORK PLAN COUNT: trips as they are printed, driven once more by the network's text.

Each road has to begin where and when the one before it ended, and to take as long as the straight line
between its points says, rounded up. Plain trip, flagged trip and the sheet for the day have to tell the same
arrival, and `shut until` has to be the first tick at which the target is open.
"""
import random
import re
import subprocess
import sys

CLOCK = r"tick (\d+) = (\d\d):(\d\d):(\d\d)"
DAY = CLOCK + r", day (\d+)"


def run(*words):
    return subprocess.run(words, capture_output=True, check=True, text=True).stdout.splitlines()


def read_town(lines):
    town = {"period": int(lines[1].split()[3]), "places": [], "roads": []}
    for words in (line.split() for line in lines[2:]):
        if words[0] == "place":
            town["places"].append((int(words[5]), int(words[7])))
        elif words[0] == "road":
            town["roads"].append((int(words[3]), int(words[5]), []))
        else:
            town["roads"][-1][2].append((int(words[3]), int(words[5])))
    return town


def travel(town, road, tick):
    points = town["roads"][road][2]
    tick %= town["period"]
    closed = points + [(town["period"], points[0][1])]
    for (t1, v1), (t2, v2) in zip(closed, closed[1:]):
        if t1 <= tick < t2:
            return -(-(v1 * (t2 - tick) + v2 * (tick - t1)) // (t2 - t1))
    raise ValueError("the first point is not at tick 0")


def tick_of(town, groups):
    """The tick of a match of DAY; its clock and its day have to be the tick's."""
    tick, hours, minutes, seconds, day = (int(group) for group in groups)
    assert tick // town["period"] + 1 == day
    assert tick % town["period"] * 30 == hours * 3600 + minutes * 60 + seconds
    return tick


def drive(town, lines, start, target, leave):
    """The arrival that a printed trip comes to."""
    match = re.fullmatch(rf"leaves place (\d+) at {DAY}", lines[0])
    assert int(match.group(1)) == start and tick_of(town, match.groups()[1:]) == leave
    here, now, count = start, leave, 0
    for line in lines[1:]:
        match = re.fullmatch(rf"road (\d+) from place (\d+) to place (\d+), {DAY}, to {DAY}", line)
        if match is None:
            break
        road, tail, head = (int(group) for group in match.groups()[:3])
        assert (tail, head) == town["roads"][road][:2] and tail == here
        assert tick_of(town, match.groups()[3:8]) == now
        here, now, count = head, now + travel(town, road, now), count + 1
        assert tick_of(town, match.groups()[8:]) == now
    lines = lines[1 + count:]
    match = re.fullmatch(rf"arrives at place (\d+) at {DAY}: ([\d.]+) min by (\d+) roads?", lines[0])
    assert here == target == int(match.group(1)) and tick_of(town, match.groups()[1:6]) == now
    assert float(match.group(7)) * 2 == now - leave and int(match.group(8)) == count
    opens = now
    while not town["places"][target][0] <= opens % town["period"] < town["places"][target][1]:
        opens += 1
    shut = [re.fullmatch(rf"place {target} is shut until {DAY}", line) for line in lines[1:]]
    assert [tick_of(town, match.groups()) for match in shut] == ([] if opens == now else [opens])
    return now


def main(program, network, plan, count):
    town = read_town(run(program, "show", network))
    chance = random.Random(5)
    for _ in range(int(count)):
        ends = [chance.randrange(len(town["places"])) for _ in range(2)]
        leave = chance.randrange(town["period"])
        words = [str(end) for end in ends]
        sheet = run(program, "day", network, *words)[leave]
        match = re.fullmatch(rf"{ends[0]} to {ends[1]}: leave {CLOCK}, arrive {DAY}, [\d.]+ min", sheet)
        arrival = tick_of(town, match.groups()[4:])
        for files in ([network], [network, plan]):
            lines = run(program, "trip", *files, *words, str(leave))
            if drive(town, lines, *ends, leave) != arrival:
                sys.exit(f"trips: {ends} at {leave}: the day's sheet says {arrival}, and the trip {lines}")
    print(f"trips: {count} trips arrive when they say")


if __name__ == "__main__":
    main(*sys.argv[1:])
