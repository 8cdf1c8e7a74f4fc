"""What `test_switch stopped` prints for a script: runs that are cut while the journal is opened, read or written, and then
recovered.

A cut comes at a moment: when the journal is opened or read, or before or after a write. The model does not know which call
of the disks falls on which moment: the runs, each cut a call later than the last, have to be those of moments in their
order, from the first to the run that is not cut.
"""

import copy
import itertools

from model.engine import Engine, Recovered
from model.law import unfinished
from model.script import Script, lines_of


class Cut(Exception):
    """The journal is cut."""


class CutEngine(Engine):
    """An engine whose journal is cut after this many moments; None: it is not."""

    moments = None

    def moment(self):
        if self.moments == 0:
            raise Cut
        if self.moments is not None:
            self.moments -= 1

    def write(self, count=None):
        self.moment()
        line = super().write(count)
        self.moment()
        return line

    def stop(self):
        self.moment()
        return super().stop()


class CutScript(Script):
    """A script over such an engine."""

    def __init__(self, moments):
        super().__init__()
        self.moments = moments

    def made(self, flow):
        return CutEngine(flow, self.sessions, self.replies)

    def begin(self):
        is_new = self.engine is None
        super().begin()
        if is_new:
            self.stated = copy.deepcopy(self.replies)
            self.engine.moments = self.moments
            self.engine.moment()


def view_line(word, view):
    """`WORD NEXTID[ row ID PHASE ..][ shelf ID ..][ advice ID PLACE ..]`"""
    rows = [f"row {number} {row.phase}" for number, row in sorted(view.rows.items())]
    shelf = [f"shelf {number}" for number in sorted(view.shelf)]
    advices = [f"advice {number} {place}" for number, place in sorted(view.advices)]
    return " ".join([word, str(view.next_id), *rows, *shelf, *advices])


def script_lines(run, text):
    """The lines that a script prints, up to the cut."""
    for line in lines_of(text):
        yield from run.line(line)


def recovery_lines(engine):
    """The lines of a recovery: the journal that is found, the calls, and the journal that they leave."""
    rows = sorted(engine.written.rows.items())
    closed = [number for number, row in rows if not Recovered(number, row, engine.first).row()]
    engine.stop()
    yield view_line("found", engine.written)
    yield from (f"{number} closed" for number in closed)
    while engine.mark < len(engine.history) or engine.unfinished_recovered():
        if engine.mark < len(engine.history):
            engine.write()
        else:
            yield engine.call(0)
    engine.stop()
    yield view_line("left", engine.written)


def until_cut(lines, printed):
    """Adds the lines up to the cut, and returns whether there was one."""
    try:
        for line in lines:
            printed.append(line)
    except Cut:
        return True
    return False


def calls_lines(engine):
    """How often each station of a plant was called."""
    return [f"calls {name} {engine.calls.get(name, 0)}" for name in engine.first]


def recover(script, moments, printed):
    """A recovery by a new plant, cut after this many moments. Returns whether it was cut."""
    engine = script.engine
    engine.replies, engine.calls, engine.moments = copy.deepcopy(script.stated), {}, moments
    began = len(printed)
    is_cut = until_cut(recovery_lines(engine), printed)
    if len(printed) > began:
        printed += calls_lines(engine)
    return is_cut


def run(text, first, second=None):
    """The lines of a run whose script is cut after `first` moments, and whose recovery is cut after `second`, if any; and
    whether the script was cut, and the recovery."""
    script, printed = CutScript(first), []
    is_cut = until_cut(script_lines(script, text), printed)
    if first > 0:
        printed += calls_lines(script.engine)
    is_again = second is not None and recover(script, second, printed)
    recover(script, None, printed)
    return printed, is_cut, is_again


def seconds(text, first, is_twice):
    """The runs whose script is cut after `first` moments, and whether it is: one, or one for each moment of the recovery."""
    if not is_twice:
        printed, is_cut, _ = run(text, first)
        return [printed], is_cut
    found, is_again = [], True
    while is_again:
        printed, is_cut, is_again = run(text, first, len(found))
        found.append(printed)
    return found, is_cut


def all_runs(text, is_twice):
    """The runs of each moment, the last of which have a script that is not cut."""
    found, is_cut = [], True
    while is_cut:
        runs, is_cut = seconds(text, len(found), is_twice)
        found.append(runs)
    return found


def sweeps(lines):
    """The runs of each kind of cut, by the call at which the script was cut: one call has several runs if their recoveries
    are cut too."""
    found, last = [], None
    for line in lines:
        word, *numbers = line.split(" ")
        if word == "run":
            if numbers[0] == "0" != last:
                found.append([])
            if numbers[0] != last:
                found[-1].append([])
            last = numbers[0]
            found[-1][-1].append([])
        found[-1][-1][-1].append(line)
    return found


def are_in_order(came, wanted):
    """Whether these runs are some of those that are wanted, in their order, up to the last."""
    at = 0
    for lines in came:
        while at < len(wanted) and wanted[at] != lines[1:]:
            at += 1
    return at < len(wanted) and came[-1][1:] == wanted[-1]


def misplaced(sweep, wanted):
    """The first run that is not one of those wanted, or not in their order; None if there is none."""
    at = 0
    for runs in sweep:
        while at < len(wanted) and not are_in_order(runs, wanted[at]):
            at += 1
        if at == len(wanted):
            return runs
    return None if are_in_order(sweep[-1], wanted[-1]) else sweep[-1]


class Runs:
    """The runs of a script, cut at each call of the disks in turn, for one kind of cut after the other."""

    def __init__(self, text):
        self.text = text

    def wrong(self, name, came):
        if not came.startswith(b"run 0"):
            return f"{name}: it begins with no run"
        for sweep in sweeps(came.decode().splitlines()):
            wrong = self.wrong_sweep(sweep)
            if wrong:
                return f"{name}: {wrong}"
        return None

    def wrong_sweep(self, sweep):
        for lines in itertools.chain(*sweep):
            law = unfinished(lines)
            if law:
                return "\n".join([law, *lines])
        is_twice = len(sweep[0][0][0].split(" ")) > 2
        runs = misplaced(sweep, all_runs(self.text, is_twice))
        return "\n".join(["it is no run of the model, or not in its order:", *itertools.chain(*runs)]) if runs else None
