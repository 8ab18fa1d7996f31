#!/usr/bin/env python3
"""The expected answers to framed cases.

    expect.py HARNESS < FRAMES > ANSWERS

HARNESS is the program that build.sh makes. Each answer stands behind a line
`case K`, K from 1. A refusal is `refusal line` and `NUMBER LINE`: 9, 8, 1, 2,
3, 13, 14, 4 from refusals.py, 5, 6 from the harness. An accepted case has the
harness's `--full` text: what `layout` prints, then every line's estimate, then
every grid. A `text` frame has `size least prefix` and the three figures.

Down the page docs/FORMAT.md places cells otherwise than the Rust: each at 0, as
wide as the page. There the Rust says which cells are printed, and where all spans
of a table are 1 how wide they are; `stacked` puts the rest in its place.
"""

import io
import os
import re
import subprocess
import sys

import cases
import refusals


def refusal(number, line):
    return b"refusal line\n%d %d\n" % (number, line)


def run(command, data):
    done = subprocess.run(command, input=data, stdout=subprocess.PIPE)
    if done.returncode != 0:
        raise SystemExit("%s ended with %d" % (command[0], done.returncode))
    return io.BytesIO(done.stdout)


TABLE = re.compile(rb"(?m)^table way cols wide\n(\d+) v (\d+) (\d+)\n((?:column width\n)(?:\d+ \d+\n)*row cell x width\n)((?:\d+ \d+ \d+ \d+\n)*)")
GRID = re.compile(rb"(?m)^grid cols\n(\d+) \d+\nrow cell first span\n((?:\d+ \d+ \d+ \d+\n)*)")


def stacked(answer):
    """The answer with every table that goes down the page placed as docs/FORMAT.md says."""
    single = {int(line): all(row.split()[3] == b"1" for row in rows.splitlines()) for line, rows in GRID.findall(answer)}

    def again(found):
        line, columns, wide, between, cells = found.groups()
        placed = [row.split() for row in cells.splitlines()]
        if single[int(line)] and any(row[3] != wide for row in placed):
            raise SystemExit("the harness has a cell of a table down the page that is not as wide as the page: %r" % answer[:2000])
        return (b"table way cols wide\n%s v %s %s\n" % (line, columns, wide) + between
                + b"".join(b"%s %s 0 %s\n" % (row[0], row[1], wide) for row in placed))

    return TABLE.sub(again, answer)


CALC = re.compile(rb"(?m)^(\d+) calc 0 0 0 ([^\n]*)$")


def worked_out(data):
    """A case with every sum's figure as a text, which is what the Rust is handed."""
    return CALC.sub(lambda found: b"%s text 0 0 0 %d" % (found[1], refusals.worth(found[2])), data)


def spans_cut(data):
    """A case with every cell's rows cut to those that its body has left, and 0 as all of these: what the Rust is handed, since its spans leave their body."""
    top, figures, rest = data.split(b"\n", 2)
    lines = rest.split(b"\n")
    parts = [line.split(b" ", 5) for line in lines]
    bodies, rows = {}, {}           # the rows of each body so far; each row's body and place in it
    path = []                       # the lines of the ancestors
    cells = []
    for k in range(1, len(lines)):
        if len(parts[k]) != 6:
            continue
        depth, kind = int(parts[k][0]), parts[k][1]
        path[depth:] = [k]
        if kind == b"body":
            bodies[k] = 0
        elif kind == b"row":
            body = path[depth - 1]
            rows[k] = (body, bodies[body])
            bodies[body] += 1
        elif kind == b"cell":
            cells.append((k, path[depth - 1]))
    for k, row in cells:
        body, place = rows[row]
        left = bodies[body] - place
        asked = int(parts[k][4])
        parts[k][4] = b"%d" % (min(asked, left) if asked else left)
        lines[k] = b" ".join(parts[k])
    return b"\n".join([top, figures] + lines)


def ask(harness, frames):
    """The harness's answers to frames that refusals.py lets pass, in order."""
    sheets, texts = io.BytesIO(), io.BytesIO()
    for frame in frames:
        if len(frame) == 1:
            cases.write_frame(sheets, worked_out(spans_cut(frame[0])))
        else:
            cases.write_text(texts, *frame)
    harness = os.path.abspath(harness)
    of_sheets = run([harness, "--full"], sheets.getvalue()) if sheets.tell() else None
    of_texts = run([harness, "--text"], texts.getvalue()) if texts.tell() else None
    answers = []
    for frame in frames:
        if len(frame) == 1:
            answer = of_sheets.read(int(of_sheets.readline().split()[1]))
            if answer.startswith(b"panic"):
                raise SystemExit("the harness failed, %s on: %r" % (answer.decode().strip(), frame[0][:2000]))
            answers.append(stacked(answer))
        else:
            answers.append(b"size least prefix\n" + of_texts.readline())
    return answers


def expected(harness, frames):
    """The answer to each frame, in order."""
    answers = []
    for frame in frames:
        refused = refusals.answer(*frame) if len(frame) == 1 else refusals.measure_answer(*frame[:2])
        answers.append(refusal(*refused) if refused else None)
    open_places = [k for k, answer in enumerate(answers) if answer is None]
    for k, answer in zip(open_places, ask(harness, [frames[k] for k in open_places])):
        answers[k] = answer
    return answers


def joined(answers):
    return b"".join(b"case %d\n" % (k + 1) + answer for k, answer in enumerate(answers))


def main():
    if len(sys.argv) != 2:
        raise SystemExit(__doc__)
    frames = list(cases.read_frames(sys.stdin.buffer))
    sys.stdout.buffer.write(joined(expected(sys.argv[1], frames)))


if __name__ == "__main__":
    main()
