"""Judges of a run of s2: what differs from docs/FORMATS.md, one text a difference."""
import collections
import re

from formats import ENDS, TICK_LIMIT, Formats, lines_of, refusal

FORMATS = Formats()
# How many bytes behind the line that ends a run may be taken of the input.
AHEAD = 0
CLOSING = ("runs", "ticks", "bytes", "end")

# What a run gave: its status (below 0 the signal that killed it), what it wrote, and how many bytes of the input
# it took where that can be told; and the same of its replay by one processor, where there is one.
Outcome = collections.namedtuple("Outcome", "status console report taken replay", defaults=(None, None))


def shown(data):
    return repr(data) if len(data) < 200 else f"{data[:90]!r} .. {data[-90:]!r} ({len(data)} bytes)"


def is_told(outcome):
    """A status that the page gives, and no signal."""
    if outcome.status < 0:
        yield f"it is killed by signal {-outcome.status}"
    elif outcome.status not in FORMATS.statuses:
        yield f"its status is {outcome.status}, which docs/FORMATS.md does not give; its report is {shown(outcome.report)}"


def is_exactly(outcome, status, console=b"", report=b"", taken=None):
    """Just this status, these bytes and this report."""
    if outcome.status != status:
        yield f"its status is {outcome.status} and not {status}; its report is {shown(outcome.report)}"
    if outcome.console != console:
        yield f"its console is {shown(outcome.console)} and not {shown(console)}"
    if outcome.report != report:
        yield f"its report is {shown(outcome.report)} and not {shown(report)}"
    yield from took(outcome, taken)


def took(outcome, taken):
    """So many bytes of the input were taken."""
    if None not in (outcome.taken, taken) and not taken <= outcome.taken <= taken + AHEAD:
        yield f"it took {outcome.taken} bytes of the input and not {taken}"


def notes_of(report):
    """The lines of a report before its end lines."""
    lines = report.splitlines(keepends=True)
    return b"".join(line for line in lines if line.split(b" ")[0].decode("latin1") not in CLOSING)


def is_front(outcome, status, whole, report=None):
    """A run that was cut off: what it wrote is a front of what the whole run writes, with no end lines."""
    report = notes_of(whole.report) if report is None else report
    if outcome.status != status:
        yield f"its status is {outcome.status} and not {status}; its report is {shown(outcome.report)}"
    if not whole.console.startswith(outcome.console):
        yield f"its console {shown(outcome.console)} is no front of {shown(whole.console)}"
    if not report.startswith(outcome.report):
        yield f"its report {shown(outcome.report)} is no front of {shown(report)}"


def end_of(data, line):
    """How many bytes there are to the end of a line."""
    lines = data.split(b"\n")[:line]
    return min(len(data), sum(len(it) + 1 for it in lines))


def ticks_by_line(script):
    """For each line of a script, the ticks up to its end. Acts take none."""
    total, found = 0, []
    for line in lines_of(script):
        number = re.fullmatch(rb"t [0-7] ([1-9]\d*)", line)
        total += int(number[1]) if number else 0
        found.append(total)
    return found


def closing_of(outcome):
    """The numbers and the words of the end lines of a report that is whole."""
    lines = outcome.report.decode("latin1").splitlines()
    numbers = [int(line.split()[1]) for line in lines[-4:-1]]
    return numbers, lines[-1].split()[1:]


def run_differences(outcome, file, script, is_quiet=False):
    """What differs in a run of a file under a script; a quiet one has good clocks, and neither faults nor repairs."""
    yield from is_told(outcome)
    text = refusal(file)
    if text:
        yield from is_exactly(outcome, 8 if text == "toobig" else 3, report=f"{text}\n".encode(), taken=0)
        return
    wrong = FORMATS.report_fault(outcome.report)
    if wrong:
        yield f"its report is none, at line {wrong[0]}, column {wrong[1]}: {shown(outcome.report)}, status {outcome.status}"
        return
    (runs, ticks, size), end = closing_of(outcome)
    if outcome.status != ENDS[end[0]]:
        yield f"its status is {outcome.status}, and its end is {' '.join(end)}"
    if size != len(outcome.console):
        yield f"the report has {size} bytes, and the console {len(outcome.console)}"
    if runs > ticks:
        yield f"it has {runs} run cycles in {ticks} ticks"
    if is_quiet and (set(re.findall(rb"^\w+", outcome.report, re.M)) - {b"d", *(it.encode() for it in CLOSING)} or end[0] == "outside"):
        yield f"nothing was disturbed, and its report is {shown(outcome.report)}"
    yield from end_differences(outcome, script, ticks, end)
    if outcome.replay:
        yield from replay_differences(outcome, runs, end)


def end_differences(outcome, script, ticks, end):
    """What differs in how a run ended: the line, the ticks, and what was taken of the input."""
    bad, sums = FORMATS.script_fault(script), ticks_by_line(script)
    count = bad[0] - 1 if bad else len(sums)
    long = next((i + 1 for i, total in enumerate(sums[:count]) if total > TICK_LIMIT), None)
    last, least = count if long is None else long - 1, 0
    kind, line = end[0], int(end[1]) if end[0] in ("bad", "outside", "toolong") else None
    before = sums[last - 1] if last else 0
    if kind == "bad" and [line, int(end[2])] != list(bad or ()) or kind == "bad" and long:
        yield f"it ends with {' '.join(end)}, and the first bad line is {bad}"
    if kind == "script" and (bad or long):
        yield f"it ends with the script, whose first bad line is {bad}, and whose first line with too many ticks is {long}"
    if kind == "toolong" and line != long:
        yield f"it ends with toolong {line}, and the first line with too many ticks is {long}"
    if kind in ("bad", "script", "toolong") and ticks != before:
        yield f"it ends with {' '.join(end)} after {ticks} ticks, and the lines have {before}"
    if kind in ("halt", "outside") and ticks > before:
        yield f"it has {ticks} ticks, and the lines {before}"
    if kind == "outside" and not 1 <= line <= last:
        yield f"it ends in line {line}, and {last} lines can run"
    if kind == "halt":
        line = next((i + 1 for i, total in enumerate(sums) if total >= ticks > least), None)
    yield from took(outcome, len(script) if kind == "script" else end_of(script, line) if line else None)


def replay_differences(outcome, runs, end):
    """What differs in the replay of a run's report by one processor."""
    closing = f"end halt {end[1]}" if end[0] == "halt" else "end report"
    report = f"runs {runs}\nbytes {len(outcome.console)}\n{closing}\n".encode()
    for text in is_exactly(outcome.replay, 0, outcome.console, report):
        yield f"replayed by one processor, {text}"


def single_differences(outcome, file, given):
    """What differs in a run of a file by one processor under a report."""
    yield from is_told(outcome)
    text = refusal(file)
    if text:
        yield from is_exactly(outcome, 8 if text == "toobig" else 3, report=f"{text}\n".encode(), taken=0)
        return
    wrong, lines = FORMATS.report_fault(given), lines_of(given)
    whole = lines[: wrong[0] - 1] if wrong else lines
    counts = [int(line.split()[1]) for line in whole if line.split()[0] in (b"d", b"runs")]
    found = re.fullmatch(rb"runs (\d+)\nbytes (\d+)\nend (script|halt [0-9a-f]{8}|report|bad \d+ \d+|toolong \d+)\n", outcome.report)
    if not found:
        yield f"its report is none: {shown(outcome.report)}, status {outcome.status}"
        return
    end = found[3].decode()
    if (end != f"bad {wrong[0]} {wrong[1]}") if wrong else not end.startswith(("halt", "report")):
        yield f"it ends with {end}, and the report goes wrong at {wrong}"
    if outcome.status != ENDS[end.split()[0]]:
        yield f"its status is {outcome.status}, and its end is {end}"
    if int(found[2]) != len(outcome.console):
        yield f"the report has {int(found[2])} bytes, and the console {len(outcome.console)}"
    if int(found[1]) > max(counts, default=0) or (end == "report" and int(found[1]) != max(counts, default=0)):
        yield f"it has {int(found[1])} run cycles, and the lines name {max(counts, default=0)}"
    yield from took(outcome, end_of(given, wrong[0]) if wrong else len(given))


def check_differences(outcome, script):
    """What differs in the check of a script."""
    bad = FORMATS.script_fault(script)
    report = f"bad {bad[0]} {bad[1]}\n" if bad else "ok\n"
    yield from is_exactly(outcome, 4 if bad else 0, report=report.encode(), taken=end_of(script, bad[0]) if bad else len(script))
