"""terminal.py PROGRAM NETWORK PLAN WAITS: the command on a pseudo-terminal.

Long work shows a line with its seconds on a terminal, which is taken away again; in a pipe it shows nothing.
WAITS is a small program over tools/progress.c that waits for two alarms.
"""
import os
import pty
import re
import subprocess
import sys
import tempfile

AWAY = "\r\x1b[K"


def on_terminal(words, output=False, seconds=False):
    """Runs a call with standard error, and with `output` standard output too, on a terminal. All the seconds
    of progress are given only where they are asked for."""
    ours, theirs = pty.openpty()
    with subprocess.Popen(words, stdin=subprocess.DEVNULL, stderr=theirs,
                          stdout=theirs if output else subprocess.PIPE) as child:
        os.close(theirs)
        seen = b""
        while True:
            try:
                part = os.read(ours, 4096)
            except OSError:
                break
            if not part:
                break
            seen += part
        printed = "" if output else child.stdout.read().decode()
    os.close(ours)
    told = seen.decode().replace("\r\n", "\n")
    return child.returncode, printed, told if seconds else first_second(told)


def first_second(seen):
    """Without the seconds behind the first: a machine with other work may take some."""
    return re.sub(rf"({re.escape(AWAY)}[a-z ]+: )0 s(?:\1\d+ s)+", r"\g<1>0 s", seen)


def same(name, expected, found):
    if expected != found:
        sys.exit(f"terminal: {name}: expected {expected!r}, found {found!r}")


def calls(network, plan, folder):
    """A call of each command, and one for each kind of error."""
    text, cut, huge, out = (os.path.join(folder, name) for name in ("text", "cut", "huge", "out"))
    with open(network, "rb") as file:
        whole = file.read()
    with open(cut, "wb") as file:
        file.write(whole[:1000])
    with open(huge, "wb") as file:
        file.truncate(1 << 33)
    with open(text, "w", encoding="ascii") as file:
        file.write("network 1 period 10 cells 1 hours 0\nplace cell 1\n")
    return [["check", network, plan], ["check", plan, network], ["check", network, cut], ["check", cut, plan],
            ["check", network, huge], ["check", huge, plan], ["check", "none", plan], ["check", network],
            ["trip", network, plan, "0", "3", "00:03:30"], ["trip", network, "0", "3", "7"],
            ["trip", network, "3", "0", "7"], ["trip", network, "9", "0", "7"],
            ["trip", network, "0", "3", "99"], ["trip", network, "0", "3", "x"],
            ["trip", network, "0", "x", "7"], ["trip", folder, "0", "3", "7"],
            ["plan", network, "-o", out], ["plan", network, "-o", out + "/x"], ["plan", network],
            ["plan", cut, "-o", out], ["plan", network, "-o", folder],
            ["import", text, "-o", out, "--number", "1"], ["import", text, "-o", out],
            ["show", network], ["show", plan], ["show", plan, "--network", network], ["show", cut],
            ["show", huge], ["show", plan, "--network", cut], ["show"], ["show", network, "--svg", "x"],
            ["make", text, "-o", out], ["make", cut, "-o", out], ["make", text],
            ["day", network, "0", "3"], ["day", network, "0", "3", "--svg", out],
            ["day", network, "3", "0"], ["day", network, "0"], ["version"], ["help"], ["help", "day"],
            ["help", "none"], ["--help"], ["--version"], ["none"], []]


def alike(program, words):
    """A terminal changes nothing of what a call says, but for progress, which comes before all else."""
    piped = subprocess.run([program] + words, stdin=subprocess.DEVNULL, capture_output=True, check=False)
    status, printed, errors = on_terminal([program] + words)
    for what in ("checking", "making"):
        errors = errors.replace(f"{AWAY}{what} the plan: 0 s{AWAY}", "")
    same(f"{words}", (piped.returncode, piped.stdout.decode(), piped.stderr.decode()),
         (status, printed, errors))


def main(program, network, plan, waits):
    try:
        os.close(pty.openpty()[0])
    except OSError:
        print("terminal: there is no pseudo-terminal here: a terminal is NOT tried")
        return
    with tempfile.TemporaryDirectory() as folder:
        for words in calls(network, plan, folder):
            alike(program, words)
        out = os.path.join(folder, "out")
        same("plan", (0, f"{out}: 2048 bytes\n", f"{AWAY}making the plan: 0 s{AWAY}"),
             on_terminal([program, "plan", network, "-o", out]))
    checking = f"{AWAY}checking the plan: 0 s{AWAY}"
    same("check", (0, "accepted, with 13 finds\n", checking),
         on_terminal([program, "check", network, plan]))
    same("check, all on the terminal", (0, "", checking + "accepted, with 13 finds\n"),
         on_terminal([program, "check", network, plan], output=True))
    sentence = "refused 13: the plan's first block is wrong: kind, number, entries, byte 1 or fill\n"
    same("a refusal", (1, "", checking + sentence), on_terminal([program, "check", network, network]))
    trip = on_terminal([program, "trip", network, "0", "3", "7"], output=True)
    same("a trip has no progress", (0, False), (trip[0], AWAY in trip[2]))
    same("a wrong call", (2, "", "usage: varnwalnut check NETWORK PLAN\n"), on_terminal([program, "check"]))
    same("a missing file", (2, "", "varnwalnut: none: No such file or directory\n"),
         on_terminal([program, "show", "none"]))
    piped = subprocess.run([program, "check", network, plan], capture_output=True, check=True)
    same("in a pipe", (b"accepted, with 13 finds\n", b""), (piped.stdout, piped.stderr))
    seen = on_terminal([waits], seconds=True)[2]
    last = max(2, seen.count("waiting") - 1)
    same("the seconds", "".join(f"{AWAY}waiting: {second} s" for second in range(last + 1)) + AWAY, seen)
    same("the seconds in a pipe", b"", subprocess.run([waits], capture_output=True, check=True).stderr)
    print("terminal: all is as expected")


if __name__ == "__main__":
    main(*sys.argv[1:])
