#!/usr/bin/env python3
"""Makes the report out of the driver's lines and callgrind's counts.

    report.py LINES.. [--counts FOLDER] > RESULTS.md

LINES are files with what `driver times` and `driver cold` print; of several runs the least time of each call counts, on both sides.
FOLDER holds the callgrind.out.* of `driver counts`.
Ratios are the Rust's figure by ours: above 1 we are faster.
"""

import collections
import os
import re
import sys

Sheet = collections.namedtuple("Sheet", "lines bytes tables entries columns wrap width cuts")
# Instructions of one call; of these, those inside memset and memcpy, where callgrind counts about one for each byte.
Count = collections.namedtuple("Count", "all moved")


def read_lines(paths):
    sheets, times = {}, {"warm": {}, "cold": {}, "stack": {}}
    for path in paths:
        for line in open(path):
            words = line.split()
            if words[:1] == ["sheet"]:
                sheets[words[1]] = Sheet(*map(int, words[2:]))
            elif words and words[0] in times:
                known = times[words[0]]
                key, time = (words[1], words[2]), int(words[3])
                known[key] = min(time, known.get(key, time))
    return sheets, times


def read_count(path):
    """The label of a dump and its counts. Costs are lines that begin with a number; one after calls= is the callee's and no own cost."""
    names, label, inside, after_call = {}, None, "", False
    total = moved = 0
    for line in open(path):
        function = re.match(r"fn=\((\d+)\)(?: (.*))?", line)
        if "Client Request: " in line:
            label = tuple(line.split("Client Request: ")[1].split())
        elif function:
            number, name = function.groups()
            inside = names.setdefault(number, name)
        elif re.match(r"cfn=\(\d+\) ", line):
            number, name = re.match(r"cfn=\((\d+)\) (.*)", line).groups()
            names.setdefault(number, name)
        elif line.startswith("calls="):
            after_call = True
        elif re.match(r"[0-9+*-]", line):
            cost = 0 if after_call else int(line.split()[-1])
            after_call = False
            total += cost
            if re.match(r"(__)?(memset|memcpy|memmove)", inside):
                moved += cost
    return label, Count(total, moved)


def read_counts(folder):
    paths = [os.path.join(folder, f) for f in os.listdir(folder) if f.startswith("callgrind.out.")] if folder else []
    return dict(read_count(path) for path in paths)


def micro(ns):
    if ns is None:
        return "-"
    us = ns / 1000
    return "%.2f" % us if us < 10 else "%.1f" % us if us < 100 else "{:,.0f}".format(us)


def thousands(n):
    return "-" if n is None else "{:,.1f}k".format(n / 1000)


def ratio(theirs, mine):
    return "-" if theirs is None or not mine else "%.1f" % (theirs / mine)


def table(heads, rows):
    lines = ["| " + " | ".join(heads) + " |", "|" + "---|" * len(heads)]
    return "\n".join(lines + ["| " + " | ".join(map(str, row)) + " |" for row in rows]) + "\n"


class Report:
    def __init__(self, sheets, times, counts):
        self.sheets, self.times, self.counts = sheets, times, counts
        self.plain = [s for s in sheets if not s.startswith("cut-")]

    def warm(self, name, call):
        return self.times["warm"].get((name, call))

    def own(self, name, call):
        """Instructions without clearing and copying of blocks."""
        c = self.counts.get((name, call))
        return None if c is None else c.all - c.moved

    def whole(self, name):
        """The calls that take a sheet to the places of a table, ours and the Rust's."""
        return "ours.layout", "rust.layout"

    def pair(self, name, what):
        mine, theirs = self.warm(name, "ours." + what), self.warm(name, "rust." + what)
        return [micro(mine), micro(theirs), ratio(theirs, mine)]

    # ------------------------------------------------------------- targets

    def targets(self):
        rows = [self.target_lines(False), self.target_lines(True), self.target_two_cells(), self.target_text_sheet(), self.target_text_alone()]
        rows += [self.target_cut(12, "cut-12"), self.target_cut(12, "cut-12-long"), self.target_cut(4000, "cut-4000"), self.target_growth()]
        rows += [self.target_window("8x6", 20), self.target_window("texts:150x12", 10)]
        return table(["target", "found", ""], [r for r in rows if r])

    @staticmethod
    def verdict(good, left=()):
        """Open where nothing fails but something is not measured."""
        return "**not met**" if not good else "open" if left else "met"

    @staticmethod
    def not_slower(gain):
        """Runs differ by more than a tenth, so what lies within that of the bound is neither met nor missed."""
        return "met" if gain >= 1.1 else "**not met**" if gain <= 0.9 else "**on the edge**"

    def target_lines(self, dropped):
        """dropped: the Rust's document tree is dropped in its time."""
        found, left = {}, []
        for name in self.plain:
            mine, theirs = self.whole(name)
            mine, theirs = self.warm(name, mine), self.warm(name, "rust.dropped" if dropped else theirs)
            if self.sheets[name].lines >= 100 and mine and theirs:
                found[name] = theirs / mine
            elif self.sheets[name].lines >= 100:
                left.append(name)
        if not found:
            return None
        low = ["%s %.1f" % (n, r) for n, r in sorted(found.items(), key=lambda f: f[1]) if r < 5]
        text = "%d of %d sheets; least %.1f" % (len(found) - len(low), len(found), min(found.values()))
        text += "; below: " + ", ".join(low) if low else ""
        text += "; not measured: " + ", ".join(left) if left else ""
        what = "the same with the Rust's document tree dropped too" if dropped else "a sheet of 100 lines or more: at least 5 times as fast"
        return [what, text, self.verdict(not low, left)]

    def target_two_cells(self):
        mine, theirs = self.warm("1x2", "ours.layout"), self.warm("1x2", "rust.layout")
        if not mine or not theirs:
            return None
        return ["a table of two cells: within 3 times the Rust's time", "%.1f times (%s us, %s us)" % (mine / theirs, micro(mine), micro(theirs)),
                self.verdict(mine <= 3 * theirs)]

    def target_text_sheet(self):
        mine, theirs = self.warm("one-text", "ours.layout"), self.warm("one-text", "rust.layout")
        if not mine or not theirs:
            return None
        return ["a sheet with a text of 64 KB: not slower", "ratio %.2f" % (theirs / mine), self.not_slower(theirs / mine)]

    def target_text_alone(self):
        names = [n for n, call in self.times["warm"] if call == "ours.measure"]
        found = {n: self.warm(n, "rust.measure") / self.warm(n, "ours.measure") for n in names if "65536" in n}
        if not found:
            return None
        return ["a text of 64 KB by itself: not slower", ", ".join("%s %.2f" % f for f in found.items()), self.not_slower(min(found.values()))]

    def cutting(self, name):
        """What a tight width takes more than a loose one: times and instructions of both sides."""
        def more(figure, call):
            tight, loose = figure(name + "-tight", call), figure(name + "-loose", call)
            return None if tight is None or loose is None else tight - loose
        return [more(self.warm, "ours.layout"), more(self.warm, "rust.layout"), more(self.own, "ours.layout"), more(self.own, "rust.layout")]

    def target_cut(self, columns, name):
        mine, theirs, mine_count, theirs_count = self.cutting(name)
        if mine is None or theirs is None:
            return None
        s = self.sheets[name + "-tight"]
        text = "%d cut: %s us, %s us, ratio %s" % (s.cuts, micro(mine), micro(theirs), ratio(theirs, mine))
        if mine_count:
            text += "; instructions %s, %s, ratio %s" % (thousands(mine_count), thousands(theirs_count), ratio(theirs_count, mine_count))
        # A few cuts are less than the two calls' times waver by: there the instructions decide.
        by_count = mine_count and s.cuts < 100
        gain = theirs_count / mine_count if by_count else theirs / mine if mine > 0 else 0
        return ["cutting at {:,} columns ({}): not slower".format(columns, name), text, self.not_slower(gain)]

    def growth_steps(self):
        """For each series: what a line or entry more takes of our instructions, from each sheet to the next."""
        series = collections.OrderedDict()
        for name in self.plain:
            if ":" in name:
                series.setdefault(name.split(":")[0], []).append(name)
        for key, names in series.items():
            names.sort(key=lambda n: self.sheets[n].lines + self.sheets[n].entries)
            for low, high in zip(names, names[1:]):
                size = sum(self.sheets[high][i] - self.sheets[low][i] for i in (0, 3))
                steps = []
                for call in (*self.whole(high), "ours.check", "ours.estimates", "ours.grid"):
                    for figure in (self.warm, self.own):
                        a, b = figure(low, call), figure(high, call)
                        steps.append(None if a is None or b is None else (b - a) / size)
                yield key, low, high, steps

    def target_growth(self):
        first, worst, left = {}, {}, []
        for key, _, _, steps in self.growth_steps():
            if steps[1] is None:
                left.append(key)
                continue
            first.setdefault(key, steps[1])
            worst[key] = max(worst.get(key, 0), steps[1] / first[key])
        if not worst:
            return None
        text = "our instructions per line and entry more, largest step by the first: " + ", ".join("%s %.2f" % w for w in worst.items())
        text += "; not measured: " + ", ".join(sorted(set(left))) if left else ""
        return ["growth linear in lines plus entries, cutting and clearing apart", text, self.verdict(max(worst.values()) < 1.25, left)]

    def target_window(self, name, bound):
        mine, layouts = self.warm(name, "ours.window"), self.warm(name, "ours.window-layouts")
        if not mine or not layouts:
            return None
        gain = layouts / mine
        return ["%s at 1,024 widths in one call: %d times as fast as 1,024 calls of `layout`" % (name, bound),
                "%.1f times (%s us, %s us)" % (gain, micro(mine), micro(layouts)), self.not_slower(gain / bound)]

    # -------------------------------------------------------------- tables

    def layouts(self):
        rows = []
        for name in self.plain:
            s, (mine, theirs) = self.sheets[name], self.whole(name)
            if self.warm(name, theirs) is None:
                continue
            c = self.counts.get((name, mine))
            rows.append([name, s.lines, s.entries, s.tables, s.columns, micro(self.warm(name, mine)), micro(self.warm(name, theirs)),
                         ratio(self.warm(name, theirs), self.warm(name, mine)), micro(self.warm(name, "rust.dropped")),
                         ratio(self.warm(name, "rust.dropped"), self.warm(name, mine)), thousands(self.own(name, mine)), thousands(c and c.moved),
                         thousands(self.own(name, theirs)), ratio(self.own(name, theirs), self.own(name, mine))])
        heads = ["sheet", "lines", "entries", "tables", "columns", "ours us", "Rust us", "ratio", "its document tree dropped too", "ratio"]
        return table(heads + ["ours instr.", "and cleared or copied", "Rust instr.", "ratio"], rows)

    def calls(self):
        rows = []
        for name in self.plain:
            if self.warm(name, "ours.check") is not None:
                rows.append([name, *self.pair(name, "estimates"), *self.pair(name, "grid"), *self.pair(name, "layout")])
        heads = [head for what in ("estimates", "grid", "layout of one table") for head in (what + ": ours us", "Rust us", "ratio")]
        return table(["sheet"] + heads, rows)

    def reading(self):
        rows = []
        for name in self.plain:
            mine, read, plant = (self.warm(name, c) for c in ("ours.check", "harness.read", "harness.plant"))
            if mine is not None and read is not None:
                rows.append([name, self.sheets[name].lines, micro(mine), thousands(self.own(name, "ours.check")), micro(read), micro(plant)])
        return table(["sheet", "lines", "our check us", "instr.", "harness: reading us", "harness: tree us"], rows)

    def steps(self):
        calls = ["rust.grid", "step.grids", "step.estimates", "step.widths", "step.places"]
        rows = []
        for name in self.plain:
            figures = [self.warm(name, c) for c in calls]
            if None not in figures:
                kept = figures[0] + sum(figures[2:])
                rows.append([name, *map(micro, figures), micro(kept), micro(self.warm(name, "rust.layouts"))])
        return table(["sheet", "tree with grids us", "grids alone", "estimates", "shares, cutting", "places", "sum, nothing dropped", "all, with drops"], rows)

    def cuttings(self):
        rows = []
        for name in [n[:-6] for n in self.sheets if n.startswith("cut-") and n.endswith("-tight")]:
            s = self.sheets[name + "-tight"]
            mine, theirs, mine_count, theirs_count = self.cutting(name)
            times = [micro(mine), micro(theirs), ratio(theirs, mine)]
            rows.append([name, s.columns, s.cuts, *times, thousands(mine_count), thousands(theirs_count), ratio(theirs_count, mine_count)])
        return table(["sheet", "columns", "cut", "ours us", "Rust us", "ratio", "ours instr.", "Rust instr.", "ratio"], rows)

    def texts(self):
        rows = []
        for name in [n for n, call in self.times["warm"] if call == "ours.measure"]:
            counts = [self.own(name, side + ".measure") for side in ("ours", "rust")]
            rows.append([name, *self.pair(name, "measure"), *map(thousands, counts), ratio(counts[1], counts[0])])
        return table(["text", "ours us", "Rust us", "ratio", "ours instr.", "Rust instr.", "ratio"], rows)

    def growth(self):
        rows = []
        for _, low, high, steps in self.growth_steps():
            rows.append(["%s to %s" % (low, high)] + ["-" if s is None else "%.0f" % s for s in steps])
        heads = ["from, to", "ours ns", "instr.", "Rust ns", "instr.", "check ns", "instr.", "estimates ns", "instr.", "grid ns", "instr."]
        return table(heads, rows)

    def window(self):
        calls = ["ours.window", "ours.window-layouts", "rust.window", "rust.window-layouts", "ours.window-128", "ours.window-512"]
        rows = []
        for name in self.plain:
            figures = [self.warm(name, c) for c in calls]
            if None not in figures:
                mine, few, half = figures[0], figures[4], figures[5]
                others = [cell for figure in figures[1:4] for cell in (micro(figure), ratio(figure, mine))]
                steps = ["%.0f" % ((half - few) / 384), "%.0f" % ((mine - half) / 512)]
                rows.append([name, self.sheets[name].entries, self.sheets[name].columns, micro(mine), *others, *steps])
        heads = ["sheet", "entries", "columns", "one call us", "by `layout` us", "ratio", "Rust us", "ratio", "Rust, render tree anew us", "ratio"]
        return table(heads + ["a width more: ns, from 128 to 512", "from 512 to 1,024"], rows)

    def cold(self):
        rows = []
        for name, call in self.times["cold"]:
            if call.startswith(("ours.", "rust.")):
                figures = [self.times[kind].get((name, call)) for kind in ("warm", "cold", "stack")]
                rows.append([name, call, *map(micro, figures)])
        return table(["sheet", "call", "warm us", "caches cold us", "first on a new stack us"], rows)


def main():
    arguments = sys.argv[1:]
    folder = None
    if "--counts" in arguments:
        at = arguments.index("--counts")
        folder = arguments[at + 1]
        del arguments[at:at + 2]
    if not arguments:
        raise SystemExit(__doc__)
    r = Report(*read_lines(arguments), read_counts(folder))
    parts = [
        ("Targets", r.targets()),
        ("A table of a sheet laid out: ours from the sheet's bytes, the Rust from its document tree", r.layouts()),
        ("The calls one by one", r.calls()),
        ("Reading apart", r.reading()),
        ("The Rust's steps", r.steps()),
        ("Cutting: a tight width less a loose one", r.cuttings()),
        ("One text", r.texts()),
        ("Growth: what each line or entry more takes", r.growth()),
        ("A table at 1,024 widths, 0 to 1,023", r.window()),
        ("Cold caches, new stack", r.cold()),
    ]
    print("# Results\n\nREADME.md says what is included on each side and how to read this.\n")
    for title, text in parts:
        print("## %s\n\n%s" % (title, text))


if __name__ == "__main__":
    main()
