#!/usr/bin/env python3
"""Runs the program where what is outside of it fails, or gives and takes little, and prints what came of each: the status and what was written. Each
line that differs from what is said of it is marked; the status is 0 where none does.

    plans/check_outside.py           over crates/wild_main/out/wild_main, which ./build makes
    plans/check_outside.py PROGRAM

Standard input is a directory, closed, open for writing, a pipe without data that does not wait, one that gives a byte at a time, or cut after each byte
of the smallest plan; standard output is a full device, a pipe that nobody reads or that is closed after some bytes, a file that may not grow, closed, open
for reading, or a pipe that takes a byte at a time. Nothing that fails ends the program by a signal, and what was written is a front of the text.
"""
import os
import resource
import signal
import subprocess
import sys

TOP = os.path.dirname(os.path.dirname(os.path.abspath(__file__)))
SECONDS = 60
LINK = ["link", "1"]
differences = 0


def read(name):
    with open(f"{TOP}/plans/{name}", "rb") as file:
        return file.read()


def told(name, said, found):
    """Prints a line, and marks it where it is not what is said."""
    global differences
    status, text = found
    right = said(status, text) if callable(said) else found == said
    differences += not right
    shown = text[:40].decode(errors="replace").replace("\n", "/")
    print(f"{'' if right else 'DIFFERS '}{name}: status {status}, {len(text)} bytes: {shown}{'' if len(text) <= 40 else '..'}", flush=True)


def run(words, given=b"", **places):
    """The status and the text, where standard input or output is given by its place, or closed by a shell."""
    closed = places.pop("closed", None)
    command = ["bash", "-c", f'exec "$0" "$@" {closed}', PROGRAM, *words] if closed else [PROGRAM, *words]
    places.setdefault("stdout", subprocess.PIPE)
    if "stdin" not in places:
        places["input"] = given
    try:
        ran = subprocess.run(command, stderr=subprocess.PIPE, timeout=SECONDS, **places)
    except subprocess.TimeoutExpired:
        return "none in time", b""
    return ran.returncode, (ran.stdout or b"") + ran.stderr


def reading():
    """What is given."""
    plan = read("smallest.json")
    whole = (0, read("smallest.answer"))
    fault = (4, b"read fault\n")
    place = os.open(f"{TOP}/plans", os.O_RDONLY)
    told("a directory for input", fault, run(LINK, stdin=place))
    os.close(place)
    place = os.open("/dev/null", os.O_WRONLY)
    told("an input that is open for writing", fault, run(LINK, stdin=place))
    os.close(place)
    reader, writer = os.pipe()
    os.set_blocking(reader, False)
    told("an empty pipe that does not wait", fault, run(LINK, stdin=reader))
    os.close(writer)
    told("the same pipe, closed by its writer", (3, b"not a plan: json\n"), run(LINK, stdin=reader))
    os.close(reader)
    told("an empty input", (3, b"not a plan: json\n"), run(LINK))
    told("no input", fault, run(LINK, closed="<&-"))
    told("a byte at a time", whole, slowly(plan))
    came = {run(LINK, plan[:end]) for end in range(len(plan.rstrip()))}
    for status, text in sorted(came):
        told("the smallest plan cut after each of its bytes", (3, b"not a plan: json\n"), (status, text))
    told("the same with ] behind it", (3, b"not a plan: json\n"), run(LINK, plan + b"]"))
    told("a command that reads no plan, and no input", (0, b"groups 2\nimage 472\ncount 1 16\nsum 25303\n"), run(["make", "2", "2"], closed="<&-"))


def slowly(plan):
    """The answer where the plan comes a byte at a time."""
    with subprocess.Popen([PROGRAM, *LINK], stdin=subprocess.PIPE, stdout=subprocess.PIPE) as ran:
        for byte in plan:
            ran.stdin.write(bytes([byte]))
            ran.stdin.flush()
        ran.stdin.close()
        text = ran.stdout.read()
    return ran.returncode, text


def writing():
    """What is taken."""
    plan = read("smallest.json")
    text = read("smallest.answer")
    full = os.open("/dev/full", os.O_WRONLY)
    texts = [("an image", LINK, plan), ("a refusal", LINK, b"{}"), ("no plan", LINK, b"["), ("a summary", ["make", "2", "2"], b""), ("no command", ["nothing"], b"")]
    for name, words, given in texts:
        told(f"{name}, to a full device", (5, b""), run(words, given, stdout=full))
    os.close(full)
    for name, words, given in texts:
        told(f"{name}, to a pipe that nobody reads", (5, b""), unread(words, given))
    place = os.open("/dev/null", os.O_RDONLY)
    told("to an output that is open for reading", (5, b""), run(LINK, plan, stdout=place))
    os.close(place)
    told("no output", (5, b""), run(LINK, plan, closed=">&-"))
    for most in (0, 1, 100, len(text) - 1, len(text)):
        status, taken = to_a_file(plan, most)
        told(f"to a file of {most} bytes at most", (0 if most == len(text) else 5, text[:most]), (status, taken))
    told("read a byte at a time", (0, text), read_slowly(plan))
    # more text than a pipe holds
    long = subprocess.run([f"{TOP}/plans/make_large.py", "1000"], stdout=subprocess.PIPE, check=True).stdout
    whole = run(LINK, long)[1]
    for most in (1, 4096, 65536):
        status, taken = closed_after(long, most)
        told(f"to a pipe that is closed after {most} bytes of {len(whole)}", (5, whole[:most]), (status, taken))
    status, taken = not_waiting(long)
    told("to a pipe that does not wait", lambda status, taken: status == 5 and whole.startswith(taken) and len(taken) < len(whole), (status, taken))


def unread(words, given):
    """Where nobody reads; the signal of a closed pipe is ignored, and not."""
    came = set()
    for restored in (False, True):
        reader, writer = os.pipe()
        os.close(reader)
        came.add(run(words, given, stdout=writer, restore_signals=restored)[0])
        os.close(writer)
    return (came.pop() if len(came) == 1 else came), b""


def to_a_file(plan, most):
    """Where the output may not grow beyond so many bytes."""
    def limits():
        signal.signal(signal.SIGXFSZ, signal.SIG_IGN)
        resource.setrlimit(resource.RLIMIT_FSIZE, (most, most))
    path = f"/tmp/check_outside.{os.getpid()}"
    with open(path, "w+b") as file:
        status, _ = run(LINK, plan, stdout=file, preexec_fn=limits)
        file.seek(0)
        taken = file.read()
    os.unlink(path)
    return status, taken


def closed_after(plan, most):
    """Where the reader closes the pipe behind so many bytes."""
    with subprocess.Popen([PROGRAM, *LINK], stdin=subprocess.PIPE, stdout=subprocess.PIPE, bufsize=0) as ran:
        ran.stdin.write(plan)
        ran.stdin.close()
        taken = b""
        while len(taken) < most:
            taken += ran.stdout.read(most - len(taken))
        ran.stdout.close()
        status = ran.wait(SECONDS)
    return status, taken


def read_slowly(plan):
    with subprocess.Popen([PROGRAM, *LINK], stdin=subprocess.PIPE, stdout=subprocess.PIPE, bufsize=0) as ran:
        ran.stdin.write(plan)
        ran.stdin.close()
        taken = b""
        while byte := ran.stdout.read(1):
            taken += byte
    return ran.returncode, taken


def not_waiting(plan):
    """Where the pipe is full and a write does not wait."""
    reader, writer = os.pipe()
    os.set_blocking(writer, False)
    status, _ = run(LINK, plan, stdout=writer)
    os.close(writer)
    taken = b""
    while piece := os.read(reader, 1 << 20):
        taken += piece
    os.close(reader)
    return status, taken


def commands():
    """Words that are no command."""
    usage = (2, b"usage: link W | make N W | verify | relink W | place W | space\n")
    for words in ([], [""], ["link"], ["link", ""], ["link", "0"], ["link", "65"], ["link", "+1"], ["link", " 1"], ["link", "1", "1"], ["LINK", "1"], ["relink"], ["relink", "0"], ["place"], ["place", "65"], ["space", "1"], ["Space"], ["verify", "1"], ["Verify"], ["make", "2"], ["make", "65537", "1"],
                  ["make", "2", "18446744073709551617"], [b"\xff"], ["link", b"\xff"], ["link", "1" * 100000]):
        name = str(words) if len(str(words)) < 40 else str(words)[:40] + ".."
        told(f"words {name}", usage, run(words))


PROGRAM = os.path.abspath(sys.argv[1]) if len(sys.argv) > 1 else f"{TOP}/crates/wild_main/out/wild_main"

if __name__ == "__main__":
    if not os.path.exists(PROGRAM):
        sys.exit(f"check_outside: there is no {PROGRAM}; ./build makes it")
    for check in (reading, writing, commands):
        check()
    print(f"{differences} differ")
    sys.exit(differences != 0)
