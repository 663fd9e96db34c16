#!/usr/bin/env python3
"""Compares our passes with the Rust's, pass by pass.

    run.py [--seed S] [--count N] [--only FAMILY]     generated frames
    run.py --moved [--seed S] [--count N] ...         frames with numbers moved
                                                      to values that decide
    run.py FRAME ...                                  frames from files

    --shaded SHARE  the share of the frames that have shades (generate.py)
    --patched SHARE the share of the frames that have a patch line
    --roled SHARE   the share of the frames that have as lines
    --bare-grow     every grow line of the generated frames is made bare
    --ours CMD      our program: a frame on standard input, every pass on
                    standard output, in the form of `reference.py --passes`;
                    without it reference.py itself is our side
    --proved        our side is the proved programs: the passes one by one
                    (crates/passes_main/out/passes_main), as with --ours compare/ours, but
                    without a shell and a second python for every frame, and
                    the whole result of the frame program (crates/recover/out/recover)
    --order ORDER   in which the Rust's tree finds corners: rising, falling or
                    mixed
    --edge EDGE     whether a corner at the radius itself is found: at-most or
                    below; neither may change a pass that 01 compares
    --beyond        compares more than 01 asks for: only rim and panic exclude.
                    The Rust's fit then also answers none where a residual of
                    a support is not finite, as ours does. Wants the default
                    order and edge
    --both          each frame twice on the Rust's side: with 01's exclusions
                    alone, and as with --beyond
    --workers N     that many processes, each with its share of the frames
    --seconds S     no frame is begun after that many seconds
    --keep FOLDER   writes each differing frame there, made smaller
    --exhibit FOLDER  writes, for each kind of pass and each exclusion, the
                    smallest frame on which the Rust departs for that alone
    --store FOLDER  writes each frame of the run and the Rust's text for it,
                    where all its passes were compared and none differed

Each pass is compared whole: pass line, for local the unmatched line if any
shade stands, attached list in order, cells, marks.
With --ours or --proved it is also compared with reference.py, started from our
sheet, on every frame, and there the visited cells of grow too.

Of a frame with a patch line whose two sets are not joined, the refusal is
compared: ours (with --proved that of recover), reference.py's, and the one that
the Rust side's own join gives. Where they are joined, the Rust's passes run on
the union of that join, and those of passes_main on the union of reference.py's.
Of a frame that is refused for its as lines, the refusal is compared likewise. In
one that is not, all passes are run as without them: neither the Rust's passes nor
those of passes_main know a role.

01 excludes some passes from equality with the Rust. This program finds them
itself: it runs reference.py's pass from our sheet and watches for

    rim         a labelled cell in the outermost ring or rings at its end
    equal       fill, and the first two candidates of a cell at one distance
    radius      a squared distance within the 65,536th part of the squared
                radius, of an unlabelled corner
    fit         a step of a fit that is not finite
    residual    a support's residual that is not finite
    prediction  a prediction that is not finite
    panic       the Rust panicked

The role lines (02, 7/14) of reference.py are compared with those that the Rust side
sums up by its own reading of the as lines, where no pass of the frame is excluded.
The text of recover is compared, byte for byte, with the one that reference.py
gives for the frame and, where no pass of the frame is excluded, with the one
that follows from the Rust's pass lines, its role lines and its last sheet.

Decisions that fell on their limit, or within two units in the last place of
it, are counted with the passes in which they fell: squared distance and
squared radius (units of their roots), quotient and factor, length by expected
length and 1 - band or 1 + band, worst residual and gate, expected length and
0.001.

After an excluded pass the Rust is set to our sheet and goes on. Passes before
the first such reset of their frame and after it are counted apart. Excluded
passes are compared as well, and their answers counted, but owe nothing.
"""

import argparse
import multiprocessing
import os
import re
import shlex
import struct
import subprocess
import sys
import tempfile
import time
from collections import Counter

import generate
import moved
import reference as ref
import words

HERE = os.path.dirname(os.path.abspath(__file__))
PROVED = os.path.join(HERE, "..", "crates", "passes_main", "out", "passes_main")
RECOVER = os.path.join(HERE, "..", "crates", "recover", "out", "recover")
ORACLE = os.path.join(HERE, "rust", "out", "oracle")
KINDS = ["grow", "fill", "local"]
EXCLUSIONS = ["rim", "equal", "radius", "fit", "residual", "prediction", "panic"]
BEYOND = {"equal", "radius", "fit", "residual", "prediction"}
LIMIT_OF = {"radius": "radius", "quotient": "factor", "gate": "gate"}
LIMITS = ["radius", "factor", "1 - band", "1 + band", "gate", "least pitch"]
JOINS = ["joined", "refused 8", "refused 9", "refused 4"]
AS_LINES = ["accepted", "refused 10", "refused 1"]
ROLES = ["plant", "depot", "dealer"]


# ---- Both sides -----------------------------------------------------------


class Failed(Exception):
    """A side that ended otherwise than by its answer."""


def call(command, data):
    done = subprocess.run(command, input=data, capture_output=True)
    if done.returncode != 0:
        why = done.stderr.decode(errors="replace").strip()
        raise Failed(f"{command[0]} ended with {done.returncode}: {why}")
    if done.stderr:
        raise Failed(f"{command[0]} wrote to standard error: {done.stderr[:200]!r}")
    return done.stdout.decode()


def proved(data):
    """A frame's passes by the proved program; of a refused frame no pass is run,
    and the answer is the frame program's."""
    try:
        frame = ref.read(data)
    except ref.Refused:
        return call([RECOVER], data)
    return call([PROVED], words.words(frame, {}).encode())


def split_passes(text, count):
    """The lines of each pass, and the `visited` lines apart."""
    passes = []
    for line in text.splitlines():
        if line.startswith("pass "):
            passes.append(([], []))
        if not passes:
            raise Failed(f"output starts with: {line}")
        passes[-1][line.startswith("visited ")].append(line)
    if len(passes) != count:
        raise Failed(f"{len(passes)} passes instead of {count}")
    return passes


def sheet_of(lines):
    sheet = ref.Sheet()
    for line in lines:
        word, *numbers = line.split(" ")
        if word == "cell":
            i, j, corner = map(int, numbers)
            sheet.label((i, j), corner)
        elif word == "hole":
            sheet.holes.add(tuple(map(int, numbers)))
        elif word == "ambiguous":
            sheet.ambiguous.add(tuple(map(int, numbers)))
    return sheet


class View:
    """One way of running the Rust: its program, and which exclusions are
    lifted."""

    def __init__(self, order, edge, beyond):
        self.name = "only rim and panic excluded" if beyond else "01's exclusions"
        self.oracle = [ORACLE, "--print", "roles", "--order", order, "--edge", edge]
        self.lifted = set()
        if beyond:
            self.oracle += ["--fit", "finite-residuals"]
            self.lifted = BEYOND


class Side:
    """Runs one frame on both sides. `ours` is a command, a function from a
    frame to its text, or None for reference.py; `recover` is the command of
    the frame program, or None."""

    def __init__(self, folder, ours=None, order="rising", edge="at-most", beyond=False, both=False, recover=None):
        self.ours = ours
        self.recover = recover
        self.views = [View(order, edge, beyond)]
        if both:
            self.views.append(View(order, edge, True))
        self.sheets = os.path.join(folder, "sheets")

    def our_text(self, data):
        """Our passes or refusal, or None where reference.py is our side."""
        if self.ours is None:
            return None
        return self.ours(data) if callable(self.ours) else call(self.ours, data)

    def rust_text(self, view, data, ours, excluded):
        """The Rust's passes, set to our sheet after each excluded one; and its role lines."""
        with open(self.sheets, "w") as file:
            for number, (lines, _) in enumerate(ours):
                file.write(lines[0] + "\n")
                if excluded[number]:
                    file.write("excluded\n")
                file.write("\n".join(lines[1:]) + "\n")
        lines = call(view.oracle + ["--sheets", self.sheets], data).splitlines()
        if len(lines) < 3 or not all(line.startswith("(role ") for line in lines[-3:]):
            raise Failed(f"the Rust side has no role lines: {lines[-3:]}")
        return "".join(line + "\n" for line in lines[:-3]), lines[-3:]


def ordered(value):
    """The float's place among all floats: the next one has the next number."""
    bits = struct.unpack(">i", struct.pack(">f", value))[0]
    return bits if bits >= 0 else -(bits & 0x7FFFFFFF)


class Near(ref.Watch):
    """Counts the decisions on a limit or within two units of it: (limit,
    "below", "at" or "above")."""

    def __init__(self):
        super().__init__()
        self.near = Counter()

    def decided(self, kind, value, limit):
        if kind == "edge":
            self.count("1 - band", value, ref.rnd(1.0 - limit))
            self.count("1 + band", value, ref.rnd(1.0 + limit))
        elif kind == "pitch":
            self.count("least pitch", value, ref.LEAST_PITCH)
        else:
            self.count(LIMIT_OF[kind], value, limit)

    def count(self, name, value, limit):
        if value == limit:
            self.near[name, "at"] += 1
        elif abs(value - limit) <= abs(limit) * 2.0**-20 + 2.0**-147:
            one, other = (ref.root(value), ref.root(limit)) if name == "radius" else (value, limit)
            if abs(ordered(one) - ordered(other)) <= 2:
                self.near[name, "below" if value < limit else "above"] += 1


class Outcome:
    """What came of one frame. For each view its passes: kind, exclusions
    found, whether it stands after a reset, whether both sides agree."""

    def __init__(self):
        self.views = []
        self.near = []  # for each pass, its decisions near a limit
        self.model = []  # passes where --ours departs from reference.py
        self.text = ""
        self.role_lines = []  # for each view: whether those of the passes compared are the Rust's
        self.result = None  # of recover: (as reference.py's, as the Rust's in each view)
        self.patched = False  # the frame has two sets, and reference.py joins them
        self.roled = False  # the frame has as lines, and reference.py accepts it
        self.refusal = None  # where a side refuses: texts (reference.py's, ours, the Rust's)

    @property
    def passes(self):
        return self.views[0] if self.views else []

    def differences(self):
        return [p for passes in self.views for p in passes if not p["equal"] and not p["excluded"]]

    def role_lines_differ(self):
        return "differ" in self.role_lines

    def result_differs(self):
        return self.result is not None and (not self.result[0] or "differ" in self.result[1])

    def refusal_differs(self):
        """From the Rust's."""
        return self.refusal is not None and self.refusal[1] != self.refusal[2]

    def wrong(self):
        refusals = self.refusal is not None and len(set(self.refusal)) > 1
        return bool(self.differences() or self.model or self.role_lines_differ() or self.result_differs() or refusals)


def compare(side, data, fits=None):
    """Runs a frame on both sides; each pass of reference.py starts from the
    sheet that ours left. `fits` are what it has worked out for these corners."""
    text = side.our_text(data)
    outcome = Outcome()
    try:
        frame = ref.read(data)
    except ref.Refused as refused:
        return compare_refusal(side, data, outcome, f"{refused}\n", text)
    outcome.patched = frame.patch is not None
    outcome.roled = b"\n(as " in data
    if text is not None and text.startswith("(refused "):
        return compare_refusal(side, data, outcome, "accepted\n", text)
    frame.fits = fits or {}
    count = len(frame.passes)
    given = None if text is None else split_passes(text, count)
    ours, met, pass_lines, ran = [], [], [], []
    sheet = frame.given()
    for number in range(count):
        watch = Near()
        answer = ref.run_pass(frame, sheet, number, watch)
        pass_lines += answer.lines()
        ran.append((frame.roles[number], answer.counts))
        ours += split_passes(ref.pass_text(frame, number, answer, sheet), 1)
        met.append(watch.kinds)
        outcome.near.append(watch.near)
        if given and given[number] != ours[number]:
            outcome.model.append(number)
            ours[number] = given[number]
            sheet = sheet_of(ours[number][0])

    rust = []
    for view in side.views:
        excluded = [kinds - view.lifted for kinds in met]
        text, role_lines = side.rust_text(view, data, ours, excluded)
        outcome.text = outcome.text or text
        rust.append((split_passes(text, count), role_lines))
        outcome.views.append(compare_passes(frame, ours, rust[-1][0], excluded))
        any_excluded = any(p["excluded"] for p in outcome.views[-1])
        outcome.role_lines.append("excluded" if any_excluded else "equal" if role_lines == ref.role_lines(ran) else "differ")
    if side.recover:
        text = call(side.recover, data)
        model = ref.result(data) if outcome.model else ref.result_text(pass_lines, ref.role_lines(ran), sheet)
        outcome.result = (text == model, [compare_result(text, passes, *view) for passes, view in zip(outcome.views, rust)])
    return outcome


def compare_refusal(side, data, outcome, model, ours):
    """Of a frame that reference.py or ours refuses. What the Rust side can refuse
    are two sets that are not joined, and as lines; any other fails there."""
    outcome.refusal = (model, model if ours is None else ours, call(side.views[0].oracle, data))
    return outcome


def compare_passes(frame, ours, rust, excluded):
    passes = []
    after = False
    for number, (kind, _) in enumerate(frame.passes):
        kinds = set(excluded[number])
        if rust[number][0][1].startswith("panic"):
            kinds.add("panic")
        equal = rust[number][0] == ours[number][0]
        passes.append(
            {
                "number": number,
                "kind": kind,
                "role": frame.roles[number],
                "line": ours[number][0][1],
                "unmatched": unmatched_of(ours[number][0]),
                "excluded": kinds,
                "after": after,
                "equal": equal,
            }
        )
        if not equal and not kinds:
            break  # what follows starts from different sheets
        after = after or bool(kinds)
    return passes


def unmatched_of(lines):
    """How many corners a pass has passed over for their kind, or None."""
    line = lines[2] if len(lines) > 2 else ""
    return int(line.strip("()").split(" ")[1]) if line.startswith("(unmatched ") else None


def compare_result(text, passes, rust, role_lines):
    """Recover's text beside the one that follows from the Rust's passes and role
    lines."""
    if not rust:
        return "no pass"
    if any(p["excluded"] for p in passes):
        return "excluded"
    last = sheet_of(rust[-1][0])
    pass_lines = [line for lines, _ in rust for line in lines if line.startswith("(")]
    return "equal" if text == ref.result_text(pass_lines, role_lines, last) else "differ"


def attempt(side, data):
    try:
        return compare(side, data)
    except (ref.Refused, Failed):
        return None


def departures(outcome):
    """(kind, exclusion) of each pass that departs for one exclusion alone. A
    panic stands for whatever led to it."""
    found = set()
    for p in outcome.passes:
        reasons = {"panic"} if "panic" in p["excluded"] else p["excluded"]
        if len(reasons) == 1 and not p["equal"]:
            found.add((p["kind"], *reasons))
    return found


# ---- Making a differing frame smaller -------------------------------------


def without(lines, gone):
    """The frame without one line; labels and shades renumbered where it is a
    corner."""
    if not lines[gone].startswith("(corner"):
        return lines[:gone] + lines[gone + 1 :]
    number = sum(line.startswith("(corner") for line in lines[:gone])
    kept = []
    for k, line in enumerate(lines):
        if k == gone:
            continue
        if line.startswith(("(label ", "(shade ")):
            word, corner, rest = line.split(" ", 2)
            if int(corner) == number:
                continue
            line = f"{word} {int(corner) - (int(corner) > number)} {rest}"
        kept.append(line)
    return kept


def smaller(data, differs):
    """Takes lines away as long as the frame still differs."""
    lines = data.decode().splitlines()
    again = True
    while again:
        again = False
        for k in range(len(lines) - 1, 3, -1):
            if k >= len(lines):
                continue
            fewer = without(lines, k)
            if differs(("\n".join(fewer) + "\n").encode()):
                lines = fewer
                again = True
    return ("\n".join(lines) + "\n").encode()


# ---- The run --------------------------------------------------------------


class Tally:
    """The counts of a run. Those of a view are by its number."""

    def __init__(self):
        self.frames = Counter()
        self.compared = Counter()  # (view, kind, after, equal)
        self.excluded = Counter()  # (view, kind, equal)
        self.exclusions = Counter()  # (view, exclusion, kind)
        self.model = Counter()  # (kind, equal), --ours beside reference.py
        self.work = Counter()  # (view, what), what the compared passes did
        self.moves = Counter()  # (parameter, units)
        self.near = Counter()  # (limit, below, at or above)
        self.near_passes = Counter()  # (view, limit, equal, differ or excluded)
        self.results = Counter()  # recover beside reference.py: equal
        self.rust_results = Counter()  # (view, equal, differ, excluded or no pass)
        self.result_exclusions = Counter()  # (view, exclusion): frames
        self.joined = Counter()  # frames with two sets: joined, or the number, and whether all agree
        self.roled = Counter()  # frames with as lines: accepted, or the number, and whether all agree
        self.roles = Counter()  # (view, role, kind): compared equal passes of these frames
        self.role_lines = Counter()  # (view, several roles, equal, differ or excluded)

    def update(self, other):
        for name, counter in vars(self).items():
            counter.update(getattr(other, name))

    def add(self, outcome, moves):
        self.moves.update((parameter, units) for parameter, units, _ in moves)
        number = outcome.refusal[0].strip("()\n").split(" ")[1:2] if outcome.refusal else []
        refused = f"refused {number[0]}" if number else None
        if outcome.patched or refused in JOINS:
            self.joined[refused or "joined", not outcome.wrong()] += 1
        if outcome.roled or refused in AS_LINES:
            self.roled[refused or "accepted", not outcome.wrong()] += 1
        for number in range(len(outcome.near)):
            self.near.update(outcome.near[number])
        for p in outcome.passes:
            self.model[p["kind"], p["number"] not in outcome.model] += 1
        for view, passes in enumerate(outcome.views):
            for p in passes:
                self.add_pass(view, p, {limit for limit, _ in outcome.near[p["number"]]})
                if outcome.roled and p["equal"] and not p["excluded"]:
                    self.roles[view, p["role"], p["kind"]] += 1
            several = len({p["role"] for p in passes}) > 1
            self.role_lines[view, several, outcome.role_lines[view]] += 1
        if outcome.result is not None:
            self.add_result(outcome)

    def add_pass(self, view, p, limits):
        kind = p["kind"]
        word = "excluded" if p["excluded"] else "equal" if p["equal"] else "differ"
        self.near_passes.update((view, limit, word) for limit in limits)
        if p["excluded"]:
            self.excluded[view, kind, p["equal"]] += 1
            self.exclusions.update((view, exclusion, kind) for exclusion in p["excluded"])
            return
        self.compared[view, kind, p["after"], p["equal"]] += 1
        if p["equal"]:
            self.work.update({(view, what): n for what, n in work_of(kind, p).items()})

    def add_result(self, outcome):
        model, rust = outcome.result
        self.results[model] += 1
        for view, word in enumerate(rust):
            self.rust_results[view, word] += 1
            if word == "excluded":
                reasons = set().union(*(p["excluded"] for p in outcome.views[view]))
                self.result_exclusions.update((view, reason) for reason in reasons)

    def print(self, side):
        print(f"{sum(self.frames.values())} frames:", end="")
        print(",".join(f" {n} {name}" for name, n in sorted(self.frames.items())))
        print()
        if self.joined:
            rows = [[what] + [self.joined[what, e] for e in (True, False)] for what in JOINS]
            table("frames with two sets of labels", ["reference.py", "equal", "differ"], rows)
        if self.roled:
            rows = [[what] + [self.roled[what, e] for e in (True, False)] for what in AS_LINES]
            table("frames with as lines", ["reference.py", "equal", "differ"], rows)
        for view in range(len(side.views)):
            self.print_view(view, side.views[view].name)
        if side.ours:
            rows = [[k, self.model[k, True], self.model[k, False]] for k in KINDS]
            table("compared with reference.py, every pass", ["pass", "equal", "differ"], rows)
        self.print_near(side.views)
        if side.recover:
            self.print_results(side.views)
        print("what the equal compared passes did:")
        for (view, name), number in sorted(self.work.items()):
            if view == 0:
                print(f"  {name}: {number}")

    def print_view(self, view, name):
        head = ["pass", "equal", "differ", "equal after reset", "differ after reset"]
        rows = []
        for kind in KINDS:
            counts = [self.compared[view, kind, a, e] for a in (False, True) for e in (True, False)]
            rows.append([kind] + counts)
        table(f"compared with the Rust ({name})", head, rows)
        rows = []
        for kind in KINDS:
            counts = [self.excluded[view, kind, e] for e in (True, False)]
            rows.append([kind] + counts + [self.exclusions[view, x, kind] for x in EXCLUSIONS])
        head = ["pass", "equal all the same", "differ"] + EXCLUSIONS
        table(f"excluded ({name}; one pass may be excluded for several reasons)", head, rows)
        words = ["equal", "differ", "excluded"]
        rows = [[who] + [self.role_lines[view, several, word] for word in words] for who, several in (("one role or none", False), ("several roles", True))]
        table(f"role lines of reference.py beside the Rust side's ({name})", ["frames of"] + words, rows)
        if self.roled:
            rows = [[role] + [self.roles[view, role, kind] for kind in KINDS] for role in ROLES]
            table(f"equal passes of frames with as lines ({name})", ["role"] + KINDS, rows)

    def print_near(self, views):
        if self.moves:
            units = [-2, -1, 0, 1, 2]
            rows = [[p] + [self.moves[p, u] for u in units] for p in moved.PARAMETERS]
            table("moved numbers, by units in the last place", ["number"] + units, rows)
        head = ["limit", "below", "at", "above"]
        rows = [[x] + [self.near[x, w] for w in head[1:]] for x in LIMITS]
        table("decisions within two units of their limit", head, rows)
        words = ["equal", "differ", "excluded"]
        for view in range(len(views)):
            rows = [[x] + [self.near_passes[view, x, w] for w in words] for x in LIMITS]
            table(f"passes with such a decision, beside the Rust ({views[view].name})", ["limit"] + words, rows)

    def print_results(self, views):
        print("whole results of recover")
        print(f"  with reference.py: {self.results[True]} equal, {self.results[False]} differ")
        for view in range(len(views)):
            words = ["equal", "differ", "excluded", "no pass"]
            counts = ", ".join(f"{self.rust_results[view, w]} {w}" for w in words)
            print(f"  with the Rust's ({views[view].name}): {counts}")
            reasons = [f"{x} {self.result_exclusions[view, x]}" for x in EXCLUSIONS]
            print(f"    frames with an excluded pass, by reason: {', '.join(reasons)}")
        print()


def work_of(kind, p):
    words = p["line"].strip("()").split(" ")
    names = {
        "grow": ["attached", "no candidate", "ambiguous", "edge"],
        "fill": ["attached", "rounds"],
        "local": ["attached", "no candidate", "ambiguous", "edge", "rounds"],
    }[kind]
    work = {f"{kind} {name}": int(word) for name, word in zip(names, words[1:])}
    work[f"{kind} passes that attached"] = int(int(words[1]) > 0)
    if kind == "local":
        work["local passes with a residual"] = int(words[6] != "none")
    if p["unmatched"] is not None:
        work["local passes with a shade"] = 1
        work["local passes that passed over corners for their kind"] = int(p["unmatched"] > 0)
        work["local unmatched"] = p["unmatched"]
    return work


def table(title, head, rows):
    total = ["all"] + [sum(column) for column in list(zip(*rows))[1:]]
    rows = [head] + rows + [total]
    print(title)
    for row in rows:
        widths = [max(len(str(r[k])) for r in rows) for k in range(len(head))]
        cells = [str(row[0]).ljust(widths[0])]
        cells += [str(c).rjust(w) for c, w in zip(row[1:], widths[1:])]
        print("  " + "  ".join(cells))
    print()


def frames_of(options, share):
    """Yields (name, bytes, moves, fits)."""
    if options.files:
        for path in options.files[share[0] :: share[1]]:
            with open(path, "rb") as file:
                yield os.path.basename(path), file.read(), [], None
    elif options.moved:
        yield from moved.frames(options.seed, options.count, options.only, share, options.shaded, options.patched, options.roled)
    else:
        drawn = generate.frames(options.seed, options.count, options.only, share, options.shaded, options.patched, options.roled)
        for name, data in drawn:
            yield name, re.sub(rb"(?m)^\(grow .*\)$", b"(grow)", data) if options.bare_grow else data, [], None


def keep(folder, name, data):
    os.makedirs(folder, exist_ok=True)
    with open(os.path.join(folder, name), "wb") as file:
        file.write(data)


class Run:
    """One run: its tally, its differing frames, its exhibits."""

    def __init__(self, options, side):
        self.options = options
        self.side = side
        self.tally = Tally()
        self.smallest = None
        self.failures = 0
        self.exhibits = {}

    def frame(self, name, data, moves, fits):
        try:
            outcome = compare(self.side, data, fits)
        except (ref.Refused, Failed) as why:
            self.failures += 1
            print(f"{name}: {why}", flush=True)
            if self.options.keep:
                keep(self.options.keep, name + ".failed", data)
            return
        family = "files" if self.options.files else name.rsplit("-", 1)[-1]
        self.tally.frames[family] += 1
        self.tally.add(outcome, moves)
        if outcome.wrong():
            self.different(name, data, outcome)
        elif self.options.store and outcome.refusal is None and not any(p["excluded"] for p in outcome.passes):
            keep(self.options.store, name + ".frame", data)
            keep(self.options.store, name + ".passes", outcome.text.encode())
        if self.options.exhibit:
            for departure in departures(outcome):
                self.exhibits.setdefault(departure, []).append(data)

    def different(self, name, data, outcome):
        for p in outcome.differences():
            print(f"{name}: pass {p['number'] + 1} {p['kind']} differs from the Rust")
        for number in outcome.model:
            print(f"{name}: pass {number + 1} differs from reference.py")
        if outcome.role_lines_differ():
            print(f"{name}: the role lines differ from the Rust side's")
        if outcome.result_differs():
            print(f"{name}: the result of recover differs")
        if outcome.refusal is not None:
            print(f"{name}: reference.py {outcome.refusal[0]!r}, ours {outcome.refusal[1][:40]!r}, the Rust's {outcome.refusal[2][:40]!r}")

        def differs(data):
            outcome = attempt(self.side, data)
            return outcome and outcome.wrong()

        small = smaller(data, differs)
        if self.options.keep:
            keep(self.options.keep, name + ".frame", small)
        self.take_smallest((name, small))

    def take_smallest(self, found):
        if found and (self.smallest is None or len(found[1]) < len(self.smallest[1])):
            self.smallest = found

    def merge(self, part):
        tally, smallest, failures, exhibits = part
        self.tally.update(tally)
        self.take_smallest(smallest)
        self.failures += failures
        for departure, found in exhibits.items():
            self.exhibits.setdefault(departure, []).extend(found)

    def keep_exhibits(self):
        for departure, found in sorted(self.exhibits.items()):

            def departs(data):
                outcome = attempt(self.side, data)
                return outcome and departure in departures(outcome)

            small = [smaller(data, departs) for data in sorted(found, key=len)[:5]]
            kind, exclusion = departure
            keep(self.options.exhibit, f"{exclusion}-{kind}.frame", min(small, key=len))


def arguments():
    parser = argparse.ArgumentParser(description=__doc__.splitlines()[0])
    parser.add_argument("files", nargs="*")
    parser.add_argument("--seed", type=int, default=1)
    parser.add_argument("--count", type=int, default=1000)
    parser.add_argument("--only", choices=list(generate.FAMILIES) + list(generate.SHADED_FAMILIES))
    parser.add_argument("--shaded", type=float, default=generate.SHADED)
    parser.add_argument("--patched", type=float, default=generate.PATCHED)
    parser.add_argument("--roled", type=float, default=generate.ROLED)
    parser.add_argument("--moved", action="store_true")
    parser.add_argument("--bare-grow", action="store_true")
    parser.add_argument("--ours")
    parser.add_argument("--proved", action="store_true")
    parser.add_argument("--order", choices=["rising", "falling", "mixed"], default="rising")
    parser.add_argument("--edge", choices=["at-most", "below"], default="at-most")
    parser.add_argument("--beyond", action="store_true")
    parser.add_argument("--both", action="store_true")
    parser.add_argument("--workers", type=int, default=1)
    parser.add_argument("--seconds", type=float)
    parser.add_argument("--keep")
    parser.add_argument("--exhibit")
    parser.add_argument("--store")
    return parser.parse_args()


def side_of(options, folder):
    ours = proved if options.proved else shlex.split(options.ours) if options.ours else None
    recover = [RECOVER] if options.proved else None
    return Side(folder, ours, options.order, options.edge, options.beyond, options.both, recover)


def work(task):
    """One worker's share of the frames."""
    options, share = task
    began = time.time()
    with tempfile.TemporaryDirectory() as folder:
        run = Run(options, side_of(options, folder))
        for frame in frames_of(options, share):
            run.frame(*frame)
            if options.seconds and time.time() - began > options.seconds:
                break
    return run.tally, run.smallest, run.failures, run.exhibits


def missing(options):
    """Ends the run where a program is not built, and says what builds it."""
    if not os.path.exists(ORACLE):
        sys.exit("run.py: compare/rust/out/oracle is missing: compare/rust/build builds it")
    for path, crate in ((PROVED, "passes_main"), (RECOVER, "recover")):
        if options.proved and not os.path.exists(path):
            sys.exit(f"run.py: crates/{crate}/out/{crate} is missing: rt run in crates/{crate} builds it")


def main():
    options = arguments()
    missing(options)
    began = time.time()
    tasks = [(options, (k, options.workers)) for k in range(options.workers)]
    with tempfile.TemporaryDirectory() as folder:
        side = side_of(options, folder)
        run = Run(options, side)
        if options.workers == 1:
            run.merge(work(tasks[0]))
        else:
            with multiprocessing.Pool(options.workers) as pool:
                for part in pool.imap_unordered(work, tasks):
                    run.merge(part)
        run.keep_exhibits()

    run.tally.print(side)
    print(f"{time.time() - began:.0f} s, order {options.order}, edge {options.edge}")
    if run.failures:
        print(f"{run.failures} frames could not be run")
    if run.smallest:
        name, small = run.smallest
        print(f"\nthe smallest differing frame, from {name}:")
        print(small.decode())
    return 1 if run.smallest or run.failures else 0


if __name__ == "__main__":
    sys.exit(main())
