"""lay_out.py FOLDER: lays out Harbour town, and writes its two texts, roads.gr and town.txt, into FOLDER.

240 places stand in twelve rows of twenty, with the river between the sixth row and the seventh. Three bridges
and a ferry cross it. Streets take as long at every hour; main streets and bridges have a rush in the morning,
towards the harbour in the south-east, and one in the evening, back from it. roads.gr has the same roads
without the hour: each takes what it takes at midnight, and the ferry twenty minutes with its wait.
"""
import os
import sys

COLUMNS, ROWS, RIVER = 20, 12, 6
HOUR, MINUTE, DAY = 120, 2, 2880
DISTRICTS = (7, 14)        # the columns at which a new district begins
CROSSINGS = (1, 4, 7, 10)  # the rows in which a street leads from one district to the next
BRIDGES = (3, 10, 17)
FERRY = 13
MAIN_ROWS, MAIN_COLUMNS = (4, 7), (3, 10, 17)
STATIONS = {21: (5, 23), 58: (6, 20), 87: (0, 24), 130: (6, 22), 171: (8, 18), 205: (7, 21), 238: (6, 14)}


def place(row, column):
    return row * COLUMNS + column


def cell(row, column):
    return sum(column >= first for first in DISTRICTS) + (3 if row >= RIVER else 0)


def chance(one, other):
    """A number that looks like chance, and goes by the two ends alone."""
    mixed = (one * 2654435761 + other * 40503 + 12345) % 4294967296
    return (mixed ^ mixed >> 13) * 69069 % 4294967296 >> 16


def constant(ticks):
    return [(0, ticks)]


def rush(ticks, morning, evening):
    """Longer by so many ticks at eight in the morning and at half past five."""
    points = [(0, ticks)]
    if morning:
        points += [(6 * HOUR + 60, ticks), (8 * HOUR, ticks + morning), (8 * HOUR + 60, ticks + morning),
                   (10 * HOUR, ticks)]
    if evening:
        points += [(15 * HOUR + 60, ticks), (17 * HOUR, ticks + evening), (18 * HOUR, ticks + evening),
                   (19 * HOUR + 60, ticks)]
    return points


def ferry(first, last, every, crossing):
    """Who comes between two ferries waits: the travel falls by a tick with each tick."""
    points = [(0, first + crossing)]
    for tick in range(first, last + 1, every):
        following = tick + every if tick < last else DAY + first
        points += [(tick, crossing), (tick + 1, following - tick - 1 + crossing)]
    return points


def street(roads, one, other, main):
    """A main street, whose rush goes to the other end in the morning, or a street, or a one-way lane."""
    pick = chance(one, other)
    if main:
        roads.append((one, other, rush(3, 2, 0)))
        roads.append((other, one, rush(3, 0, 2)))
        return
    roads.append((one, other, constant(4 + pick % 5)))
    if pick % 11 > 0:
        roads.append((other, one, constant(4 + pick % 5)))


def lay_out():
    roads = []
    for row in range(ROWS):
        for column in range(COLUMNS):
            here = place(row, column)
            if column + 1 < COLUMNS and (column + 1 not in DISTRICTS or row in CROSSINGS):
                street(roads, here, place(row, column + 1), row in MAIN_ROWS)
            if row + 1 < ROWS and row + 1 != RIVER:
                street(roads, here, place(row + 1, column), column in MAIN_COLUMNS)
    for number, column in enumerate(BRIDGES):
        north, south = place(RIVER - 1, column), place(RIVER, column)
        roads.append((north, south, rush(4, 18 - 4 * number, 4)))
        roads.append((south, north, rush(4, 3, 20 - 4 * number)))
    north, south = place(RIVER - 1, FERRY), place(RIVER, FERRY)
    roads.append((north, south, ferry(6 * HOUR, 21 * HOUR, 30 * MINUTE, 7)))
    roads.append((south, north, ferry(6 * HOUR + 15 * MINUTE, 21 * HOUR + 15 * MINUTE, 30 * MINUTE, 7)))
    return roads


def write_dimacs(path, roads):
    with open(path, "w", encoding="ascii") as file:
        file.write("c Harbour town: the roads as they are at midnight. A weight is a travel in ticks of\n"
                   "c half a minute, the ferry's wait among them. Places are numbered from 1, row by row.\n"
                   f"p sp {COLUMNS * ROWS} {len(roads)}\n")
        for start, end, points in roads:
            file.write(f"a {start + 1} {end + 1} {min(points[0][1], 40)}\n")


def write_town(path, roads):
    with open(path, "w", encoding="ascii") as file:
        file.write("# Harbour town: six districts, rush hours, a ferry, and stations that open and close.\n"
                   f"network 240 period {DAY} cells 6 hours 1\n")
        for row in range(ROWS):
            for column in range(COLUMNS):
                here = place(row, column)
                file.write(f"place {here} cell {cell(row, column)}")
                if here in STATIONS:
                    file.write(" open {:02}:00:00 close {:02}:00:00".format(*STATIONS[here]))
                file.write("\n")
        for number, (start, end, points) in enumerate(roads):
            file.write(f"road {number} from {start} to {end}\n")
            for tick, travel in points:
                file.write(f"point tick {tick} travel {travel}\n")


def main(folder):
    roads = lay_out()
    write_dimacs(os.path.join(folder, "roads.gr"), roads)
    write_town(os.path.join(folder, "town.txt"), roads)


if __name__ == "__main__":
    main(sys.argv[1])
