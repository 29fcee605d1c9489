"""fuzz.py PROGRAM LIBRARY SEED COUNT: files and texts with damage of chance, through every command.

Every call has to end with status 0, 1 or 2 and speak accordingly; what it says of files has to be the number
and the places that the library itself answers, asked through the shared object LIBRARY. PROGRAM is best built
with the address sanitiser, whose reports come with another status.
"""
import ctypes
import os
import random
import re
import subprocess
import sys
import tempfile

from towns import checked, file_of, text_of, town

HERE = os.path.dirname(os.path.abspath(__file__))
EXAMPLES = os.path.join(HERE, "..", "..", "examples")
NUMBERS = [b"0", b"1", b"65535", b"65536", b"4294967295", b"4294967296", b"-1", b"99999999999999999999", b"x",
           b"", b"00:00:30", b"24:00:00", b"2880", b"2881"]


def read(*names):
    with open(os.path.join(EXAMPLES, *names), "rb") as file:
        return file.read()


def damaged_file(chance, file):
    """Changes bytes, cuts or repeats blocks, and mostly mends the blocks' checks, to come to later rules."""
    file = bytearray(file)
    for _ in range(chance.choice([0, 1, 1, 2, 5])):
        at = chance.randrange(len(file) + 1)
        what = chance.randrange(6)
        if what < 3 and at < len(file):
            file[at] = chance.choice([0, 1, 2, 5, 9, 255, chance.getrandbits(8)])
        elif what == 3:
            del file[at:]
        elif what == 4:
            block = at // 512 * 512
            file[block:block] = file[block:block + 512]
        else:
            file += bytes(chance.choices(range(256), k=chance.choice([1, 512, 1024])))
    if chance.random() < 0.8:
        whole = len(file) // 512 * 512
        file[:whole] = b"".join(checked(bytes(file[at:at + 512])) for at in range(0, whole, 512))
    return bytes(file)


def damaged_text(chance, text):
    lines = text.split(b"\n")
    for _ in range(chance.choice([0, 1, 1, 2, 4])):
        at = chance.randrange(len(lines))
        words = lines[at].split(b" ")
        what = chance.randrange(6)
        if what < 2:
            words[chance.randrange(len(words))] = chance.choice(NUMBERS)
        elif what == 2:
            others = NUMBERS + [b"cell", b"#", b"\0", b"\xff"]
            words.insert(chance.randrange(len(words) + 1), chance.choice(others))
        elif what == 3:
            del words[chance.randrange(len(words))]
        elif what == 4:
            lines.insert(chance.randrange(len(lines) + 1), lines[at])
        else:
            words = [bytes(chance.choices(range(256), k=chance.randrange(200)))]
        lines[at] = b" ".join(words)
    return b"\n".join(lines)


class Library:
    """The two functions that judge files, as the header has them."""

    def __init__(self, path):
        self.library = ctypes.CDLL(path)

    @staticmethod
    def said(refusal, answer):
        return (refusal, list(answer[:3])) if refusal else None

    def open(self, network):
        answer = (ctypes.c_uint32 * 10)()
        room = [512] * 3 + [2048] * 3 + [65535] * 2
        tables = [word for size in room for word in ((ctypes.c_uint16 * size)(), ctypes.c_size_t(size))]
        return self.said(self.library.varnwalnut_open_network(
            network, ctypes.c_size_t(len(network)), *tables, answer, ctypes.c_size_t(10)), answer)

    def check(self, network, plan):
        answer = (ctypes.c_uint32 * 5)()
        return self.said(self.library.varnwalnut_check_plan(
            network, ctypes.c_size_t(len(network)), plan, ctypes.c_size_t(len(plan)), answer,
            ctypes.c_size_t(5)), answer)


def told(done):
    """The refusal and the places that a call has told, with zeros for those without a name."""
    match = re.fullmatch(rb"refused (\d+): [^()]*(?:\((.*)\))?\n", done.stderr)
    if match is None:
        return None
    parts = [part.split(b" = ")[0] for part in (match.group(2) or b"").split(b", ") if part]
    places = [int(re.search(rb"(\d+)$", part).group(1)) for part in parts]
    return int(match.group(1)), places + [0] * (3 - len(places))


def lawful(done):
    if done.returncode == 0:
        return done.stderr == b""
    if done.returncode == 1:
        return told(done) is not None and done.stdout == b""
    return done.returncode == 2 and b"varnwalnut" in done.stderr and b"Sanitizer" not in done.stderr


def one_case(program, library, folder, chance):
    kept = {name: os.path.join(folder, name) for name in ("network", "plan", "text", "out")}
    bases = [(read("quay_town", "network.blk"), read("quay_town", "plan.blk")),
             (read("ferry_town", "network.blk"), read("quay_town", "plan.blk"))]
    network, plan = chance.choice(bases)
    if chance.random() < 0.4:
        network = file_of(*town(chance, False))
    network, plan = damaged_file(chance, network), damaged_file(chance, plan)
    if chance.random() < 0.05:
        network, plan = plan, network
    text = damaged_text(chance, text_of(*town(chance, False)))
    roads = damaged_text(chance, read("mill_town", "roads.gr"))
    for name, data in (("network", network), ("plan", plan), ("text", text)):
        with open(kept[name], "wb") as file:
            file.write(data)
    ends = [str(chance.choice([0, 1, 2, 3, 6, 9, 4294967295])) for _ in range(2)]
    leave = chance.choice(["0", "7", "00:04:00", "2879", "10"])
    calls = [(["check", kept["network"], kept["plan"]], None, ("check", network, plan)),
             (["show", kept["network"]], None, None if network[:1] == b"\5" else ("open", network)),
             (["show", kept["plan"]], None, None),
             (["show", kept["plan"], "--network", kept["network"]], None, None),
             (["trip", kept["network"], *ends, leave], None, None),
             (["trip", kept["network"], kept["plan"], *ends, leave], None, None),
             (["plan", kept["network"], "-o", kept["out"]], None, None),
             (["day", kept["network"], *ends, "--svg", "-"], None, None),
             (["make", kept["text"], "-o", kept["out"]], None, None),
             (["import", "-", "-o", "-", "--number", "7"], roads, None)]
    words, given, asked = chance.choice(calls)
    done = subprocess.run([program] + words, input=given or b"", capture_output=True, check=False)
    good = lawful(done)
    if good and asked is not None:
        answer = getattr(library, asked[0])(*asked[1:])
        good = answer == (told(done) if done.returncode == 1 else None)
    if not good:
        sys.exit(f"fuzz: {words}: status {done.returncode}, {done.stderr[:2000]!r}; files are in {folder}")
    return done.returncode


def main(program, library, seed, count):
    folder = tempfile.mkdtemp()
    statuses = [0, 0, 0]
    for case in range(int(count)):
        statuses[one_case(program, Library(library), folder, random.Random(f"{seed} {case}"))] += 1
    for name in os.listdir(folder):
        os.remove(os.path.join(folder, name))
    os.rmdir(folder)
    print(f"fuzz: {count} calls, {statuses[0]} answered, {statuses[1]} refused, {statuses[2]} wrong")


if __name__ == "__main__":
    main(*sys.argv[1:])
