#!/usr/bin/env python3
"""Compares a program with the expected answers, in bulk.

    compare.py HARNESS PROGRAM KIND SEED COUNT [FIRST] [--layout] [--save FILE]

HARNESS is the program that build.sh makes; KIND, SEED, COUNT, FIRST are as for
generate.py. PROGRAM reads framed cases and answers as expect.py does. With
--layout it is the program `layout`: it is run once for each case, without a
frame, and held to what walk.py makes of the Rust's figures.
Prints how many cases there were of each sort of answer and how many differ; the
first that differs is shown with as few lines as a simple search finds, and with
--save written to FILE. Ends with 0 if nothing differs, with 1 otherwise.
"""

import io
import os
import re
import subprocess
import sys

import cases
import expect
import generate
import walk

CHUNK_BYTES = 900000         # replay takes 1 MB at a time
TRIALS = 600            # of the search for a smaller case
SECONDS = 300           # for one run of the program


def run(command, data):
    """Standard output, whatever the program's end; a note in place of what it did not say."""
    try:
        done = subprocess.run(command, input=data, stdout=subprocess.PIPE, timeout=SECONDS)
    except subprocess.TimeoutExpired as late:
        return (late.stdout or b"") + b"(no end within %d seconds)\n" % SECONDS
    if done.returncode != 0:
        return done.stdout + b"(ended with %d)\n" % done.returncode
    return done.stdout


def answers_of(program, frames, layout):
    if layout:
        return [run([program], frame[0]) for frame in frames]
    stream = io.BytesIO()
    for frame in frames:
        if len(frame) == 1:
            cases.write_frame(stream, frame[0])
        else:
            cases.write_text(stream, *frame)
    said = run([program], stream.getvalue())
    pieces = re.split(rb"(?m)^case (\d+)\n", said)
    found = dict(zip(map(int, pieces[1::2]), pieces[2::2]))
    answers = [found.get(k + 1, b"(no answer)\n") for k in range(len(frames))]
    if len(found) != len(frames) and pieces[0]:
        answers[0] = pieces[0] + answers[0]
    return answers


def expected_of(harness, frames, layout):
    return walk.layouts(harness, frames) if layout else expect.expected(harness, frames)


def sort_of(answer):
    if answer.startswith(b"refusal line\n"):
        return "refusal " + answer.split(b"\n")[1].split()[0].decode()
    return "accepted"


def depth_of(line):
    digits = line.split(b" ", 1)[0]
    return int(digits) if digits.isdigit() and len(digits) < 3 else None


def below(lines, i):
    """The index past the lines that stand under lines[i]."""
    j = i + 1
    while j < len(lines) and None not in (depth_of(lines[i]), depth_of(lines[j])) \
            and depth_of(lines[j]) > depth_of(lines[i]):
        j += 1
    return j


def raised(lines, by):
    """Lines with smaller depths, or None if one has no depth to take from."""
    if by is None or any(depth_of(line) is None or depth_of(line) < by for line in lines):
        return None
    return [b"%d %s" % (depth_of(line) - by, line.split(b" ", 1)[1]) for line in lines]


def shortenings(lines):
    """Fewer lines: halves, quarters, .. left out; one line's subtree alone; one
    subtree left out; one line left out; one line taken out above its subtree."""
    size = len(lines) // 2
    while size > 3:
        for at in range(0, len(lines), size):
            yield lines[:at] + lines[at + size:]
        size //= 2
    for i in range(1, len(lines)):
        yield raised(lines[i:below(lines, i)], depth_of(lines[i]))
    for i in range(len(lines)):
        yield lines[:i] + lines[below(lines, i):]
    for i in range(len(lines)):
        yield lines[:i] + lines[i + 1:]
    for i in range(len(lines)):
        under = raised(lines[i + 1:below(lines, i)], 1)
        yield under and lines[:i] + under + lines[below(lines, i):]


def smaller(data, differs):
    """A case with fewer node lines that still differs, as far as the trials reach."""
    lines = re.findall(rb"[^\n]*\n|[^\n]+", data)
    front, lines = lines[:3], lines[3:]
    trials, found = 0, True
    while found and trials < TRIALS:
        found = False
        for fewer in shortenings(lines):
            if fewer is None:
                continue
            trials += 1
            if differs(b"".join(front + fewer)):
                lines, found = fewer, True
                break
            if trials >= TRIALS:
                break
    return b"".join(front + lines)


def show(title, data, limit=40):
    lines = re.findall(rb"[^\n]*\n|[^\n]+", data)
    print("%s (%d lines, %d bytes)" % (title, len(lines), len(data)))
    for line in lines[:limit]:
        print("  " + line.decode("latin-1").encode("unicode_escape").decode()[:200])
    if len(lines) > limit:
        print("  ..")


def show_difference(frame, wanted, got):
    if len(frame) > 1:
        print("  wrap %d, img %d" % frame[1:])
    show("the case", frame[0])
    a, b = wanted.split(b"\n"), got.split(b"\n")
    at = next((i for i in range(min(len(a), len(b))) if a[i] != b[i]), min(len(a), len(b)))
    print("the answers part in line %d" % (at + 1))
    show("expected", b"\n".join(a[max(0, at - 3):at + 5]))
    show("got", b"\n".join(b[max(0, at - 3):at + 5]))


def main():
    arguments = sys.argv[1:]
    layout = "--layout" in arguments
    if layout:
        arguments.remove("--layout")
    save = None
    if "--save" in arguments:
        at = arguments.index("--save")
        save = arguments[at + 1]
        del arguments[at:at + 2]
    if len(arguments) not in (5, 6) or arguments[2] not in generate.MAKERS:
        raise SystemExit(__doc__)
    harness, program, kind = os.path.abspath(arguments[0]), os.path.abspath(arguments[1]), arguments[2]
    seed, count = int(arguments[3]), int(arguments[4])
    first = int(arguments[5]) if len(arguments) == 6 else 1

    sorts, differing, shown = {}, 0, None
    k, end = first, first + count
    while k < end:
        frames, size, start = [], 0, k
        while k < end and size < CHUNK_BYTES:
            frames.append(generate.make(kind, seed, k))
            size += len(frames[-1][0])
            k += 1
        wanted = expected_of(harness, frames, layout)
        got = answers_of(program, frames, layout)
        for i, answer in enumerate(wanted):
            sort = sort_of(answer)
            sorts[sort] = sorts.get(sort, 0) + 1
            if got[i] != answer:
                differing += 1
                shown = shown or (start + i, frames[i], answer, got[i])

    print("%s, seed %d, cases %d to %d: %s; %d differ"
          % (kind, seed, first, end - 1, ", ".join("%d %s" % (sorts[s], s) for s in sorted(sorts)), differing))
    if shown is None:
        return 0
    number, frame, answer, said = shown
    print("first difference: case %d (generate.py %s %d 1 %d)" % (number, kind, seed, number))
    if len(frame) == 1:
        def pair(data):
            return expected_of(harness, [(data,)], layout)[0], answers_of(program, [(data,)], layout)[0]

        def differs(data):
            wanted_now, got_now = pair(data)
            return wanted_now != got_now

        if differs(frame[0]):
            frame = (smaller(frame[0], differs),)
            answer, said = pair(frame[0])
        else:
            print("it does not differ when asked alone")
    show_difference(frame, answer, said)
    if save:
        with open(save, "wb") as f:
            f.write(frame[0])
    return 1


if __name__ == "__main__":
    sys.exit(main())
