"""The runs of tools/torture: what each is given, and how it is judged."""
import itertools
import os
import signal

from formats import lines_of, refusal
from judging import (
    FORMATS,
    check_differences,
    is_exactly,
    is_front,
    notes_of,
    run_differences,
    shown,
    single_differences,
)
from sources import TOP
from torture_runs import (
    Case,
    at_moment,
    from_fifo,
    from_terminal,
    growing,
    hang_up,
    leave,
    paced,
    play,
    slowly,
    stopped,
    to_terminal,
)

PLAIN = b"t 7 2000\n"
PLAIN_LONG = b"t 7 100000000\n"


def some(cases, rng, quick, count):
    """All of the cases, or so many of them."""
    cases = list(cases)
    return rng.sample(cases, min(count, len(cases))) if quick else cases


# Files that are cut, and whose bytes flip.


def file_case(name, make, script=PLAIN):
    return Case(
        f"file {name}", ["run", "FILE"], lambda out: run_differences(out, make(), script, is_quiet=True), script, file=make, replay=True
    )


def files(room, rng, quick):
    """Each example's file, cut at each length; and each of its first 200 bytes flipped."""
    cuts, flips = [], []
    for name in room.examples:
        data = room.bytes_of(name)
        for size in range(len(data) + 1):
            yield_to = cuts if name != "hello.elf" else flips
            yield_to.append(file_case(f"{name} cut to {size} bytes", lambda data=data, size=size: data[:size]))
        for at in range(min(200, len(data))):
            for mask in {0xFF, 1 << rng.randrange(8)} if quick else [0xFF, *(1 << bit for bit in range(8))]:
                flips.append(file_case(f"{name} byte {at} ^ {mask:02x}", lambda data=data, at=at, mask=mask: flipped(data, at, mask)))
    return some(cuts, rng, quick, 300) + some(flips, rng, quick, 900) + headers(room, rng, quick)


def flipped(data, at, mask):
    return data[:at] + bytes([data[at] ^ mask]) + data[at + 1 :]


def headers(room, rng, quick):
    """Files whose numbers of the header and of the program headers are others, at their corners."""
    found = []
    corners = [0, 1, 31, 32, 33, 63, 64, 65, 0x7FFFFFFF, 0x80000000, 0x80100000, 0x84000000, 0x9FC00000, 0xFFFFFFFF, 0xFFFFFFFC]
    data = room.bytes_of("segments.elf")
    places = [(24, 4), (28, 4), (42, 2), (44, 2)] + [(52 + 4 * i, 4) for i in range(16)]
    for (at, size), number in itertools.product(places, corners):
        made = data[:at] + (number % 256**size).to_bytes(size, "big") + data[at + size :]
        found.append(file_case(f"segments.elf number at {at} is {number:x}", lambda made=made: made))
    return some(found, rng, quick, 120)


# Scripts and reports that are cut.


def scripts(room, rng, quick):
    """Each script of an example: its input ends after each byte; and each line is cut at each length before the others."""
    runs, checks = [], []
    for elf, name, data in room.inputs("script"):
        file = room.bytes_of(elf)
        for size in range(len(data) + 1):
            given = data[:size]
            runs.append(script_case(f"{name} cut to {size} bytes", elf, file, given))
            checks.append(check_case(f"{name} cut to {size} bytes", given))
        start = 0
        for number, line in enumerate(lines_of(data), 1):
            for size in range(len(line)):
                given = data[: start + size] + data[start + len(line) :]
                checks.append(check_case(f"{name} line {number} cut to {size} bytes", given))
            start += len(line) + 1
    return some(runs, rng, quick, 300) + some(checks, rng, quick, 300)


def script_case(name, elf, file, given, group="script"):
    return Case(f"{group} {name}", ["run", elf], lambda out: run_differences(out, file, given), given, replay=True)


def check_case(name, given, group="script"):
    return Case(f"{group} {name}, checked", ["check"], lambda out: check_differences(out, given), given)


def text_of(form, rng):
    return b"".join(it if isinstance(it, bytes) else str(it.some(rng)).encode() for it in form)


def random_line(rng):
    """A line of a script: often of ticks, else an act, a remark, or a line with a byte that is another."""
    kind = rng.random()
    if kind < 0.45:
        return b"t %d %d" % (rng.choice([7, 7, 7, 7, 3, 5, 6, rng.randrange(8)]), rng.choice([1, 2, 3, 4, 60, 1000, 2000, rng.randrange(1, 9000)]))
    form = rng.choice([it for it in FORMATS.script if it[0] != b"t"])
    line = text_of(form, rng)
    if kind < 0.93:
        return line
    at = rng.randrange(len(line) + 1)
    return rng.choice([line[:at], flipped(line + b" ", at, 1 << rng.randrange(8)), b"#" + line * rng.randrange(9), b"", line + line, b"t 7 2000000000000"])


def random_scripts(room, rng, quick):
    """Scripts of lines that the tables allow, and of a few that they do not, over the examples."""
    found = []
    for number in range(500 if quick else 5000):
        elf = rng.choice([it for it in room.examples if it not in ("squeeze.elf", "repair.elf")])
        given = b"".join(random_line(rng) + b"\n" for _ in range(rng.randrange(1, 12)))
        given = given.replace(b"\n\n", b"\n") if rng.random() < 0.5 else given
        if rng.random() < 0.1:
            given = given[:-1]
        if FORMATS.first and rng.random() < 0.3:
            given = text_of(rng.choice(FORMATS.first), rng) + b"\n" + given
        file = room.bytes_of(elf)
        found += [script_case(f"{number}", elf, file, given, "random"), check_case(f"{number}", given, "random")]
    return found


def reports(room, rng, quick):
    """Each report of an example, cut at each length and with a byte changed, for one processor."""
    found = []
    for elf, name, data in [*room.inputs("report"), *room.inputs("recorded")]:
        file = room.bytes_of(elf)
        for size in range(len(data) + 1):
            found.append(report_case(f"{name} cut to {size} bytes", elf, file, data[:size]))
        for at in range(len(data)):
            if chr(data[at]).isdigit():  # it might become a number of cycles that takes hours
                continue
            found.append(report_case(f"{name} byte {at} changed", elf, file, flipped(data, at, 1 << rng.randrange(8))))
    return some(found, rng, quick, 400)


def report_case(name, elf, file, given):
    return Case(f"report {name}", ["single", elf], lambda out: single_differences(out, file, given), given)


# Words.


def words(room, rng, quick):
    """Words that are no command line."""
    lines = [[], ["run"], ["single"], ["load"], ["check", "x"], ["check", ""], ["run", "hello.elf", ""], ["run", "hello.elf", "hello.elf"]]
    lines += [["single", "hello.elf", "x"], ["load", "1", "1"], ["Run", "hello.elf"], ["run ", "hello.elf"], ["-h"], ["--help"], ["--version"]]
    lines += [[""], ["", ""], ["run\n", "hello.elf"], [b"\xff"], ["check", b"\xc3"], [b"run\xff", "hello.elf"]]
    lines += [["load", it] for it in ("0", "1001", "01", "+1", "-1", "1 ", " 1", "", "1.0", "0x1", "1e2", "9" * 30, "18446744073709551617", "4294967297", "\u0661")]
    lines += [["run"] * 2000, ["x"] * 2000, ["check"] + [""] * 1999, ["run", "hello.elf"] + ["y"] * 1998, ["load"] + ["1"] * 1999]
    lines += [["x" * 131071], ["load", "1" * 131071], ["check", "y" * 100000]]
    for number, line in enumerate(lines):
        told = " ".join(repr(it) for it in line)[:60]
        yield Case(f"words {number}: {len(line)} words {told}", line, lambda out: is_exactly(out, 2, report=b"usage\n", taken=0), PLAIN)


# Standard streams.


def commands(room):
    """A run of each kind, with what it gives: its name, its words, its input."""
    with open(f"{TOP}/examples/poked-processor/script", "rb") as file:
        poked = file.read()
    found = [
        ("hello", ["run", "hello.elf"], PLAIN),
        ("poked", ["run", "poked-processor.elf"], poked),
        ("silent", ["run", "hello.elf"], b""),
        ("refused", ["run", "cut.elf"], PLAIN),
        ("single", ["single", "hello.elf"], b"runs 8\nticks 8\nbytes 3\nend halt 00000000\n"),
        ("check", ["check"], PLAIN),
        ("check of a bad line", ["check"], b"t 7 0\n"),
        ("load", ["load", "1"], b""),
        ("usage", ["walk"], b""),
    ]
    with open(os.path.join(room.folder, "cut.elf"), "wb") as file:
        file.write(room.bytes_of("hello.elf")[:60])
    return [(name, line, given, room.whole(line, given)) for name, line, given in found]


def reads_input(line, whole):
    return line[0] == "check" or (line[0] in ("run", "single") and not whole.report.startswith(b"elf"))


def broken(whole, console, report):
    """How a run is judged whose console, or whose report, cannot be written."""
    if (console and whole.console) or (report and whole.report):
        return lambda out: is_front(out, 7, whole)
    return lambda out: is_exactly(out, whole.status, b"" if console else whole.console, b"" if report else whole.report)


def streams(room, rng, quick):
    """Closed, full and wrong streams, for a command of each kind; and streams that end in mid-run."""
    found = []
    outs = {"closed": "{}>&-", "full": "{}>/dev/full", "open for reading alone": "{}</dev/null"}
    ins = {"closed": "<&-", "a folder": "<.", "open for writing alone": "0>/dev/null", "closed, and so are the others": "<&- >&- 2>&-"}
    for name, line, given, whole in commands(room):
        for what, text in outs.items():
            found.append(Case(f"streams {name}: console {what}", line, broken(whole, True, False), given, streams=text.format(1)))
            found.append(Case(f"streams {name}: report {what}", line, broken(whole, False, True), given, streams=text.format(2)))
            both = f"{text.format(1)} {text.format(2)}"
            found.append(Case(f"streams {name}: both {what}", line, broken(whole, True, True), given, streams=both))
        for what, text in ins.items():
            if reads_input(line, whole):
                judge = lambda out: is_exactly(out, 6)
            elif ">&-" in text:
                judge = broken(whole, True, True)
            else:
                judge = lambda out, whole=whole: is_exactly(out, whole.status, whole.console, whole.report)
            found.append(Case(f"streams {name}: input {what}", line, judge, streams=text))
        for how in (slowly, from_terminal, to_terminal):
            judge = lambda out, whole=whole: is_exactly(out, whole.status, whole.console, whole.report)
            found.append(Case(f"streams {name}: {how.__doc__}", line, judge, given, how=how))
    return found + list(leaving(room, rng, quick)) + list(endless(room, quick)) + list(hanging_up(room, rng, quick))


def hanging_up(room, rng, quick):
    for name, line, given, whole in commands(room):
        if not reads_input(line, whole) or not given:
            continue
        for size in sorted(rng.sample(range(len(given)), min(len(given), 3 if quick else 20))):
            cut = given[: given.rfind(b"\n", 0, size) + 1]  # a terminal hands out whole lines
            yield Case(f"streams {name}: its terminal goes away after {size} bytes", line, gone(room, line, given[:size], cut, whole), given[:size], how=hang_up)


def gone(room, line, given, cut, whole):
    """The input ended where the terminal went, or its read failed there."""

    def judge(out):
        as_ended = [room.whole(line, it) for it in (given, cut, b"")]
        if out.status == 6:
            yield from is_front(out, 6, whole, notes_of(whole.report))
        elif not any((out.status, out.console, out.report) == tuple(it)[:3] for it in as_ended):
            yield f"it ends with status {out.status}, console {shown(out.console)} and report {shown(out.report)}"

    return judge


def byte_ticks(room):
    """For each number of bytes that the poked processor's program prints, the ticks after which they are there."""
    count = len(room.whole(["run", "poked-processor.elf"], PLAIN).console)
    found, ticks = [], 0
    for size in range(count + 1):
        while len(room.whole(["run", "poked-processor.elf"], b"t 7 %d\n" % ticks if ticks else b"").console) < size:
            ticks += 1
        found.append(ticks)
    return found


def leaving(room, rng, quick):
    """A reader of the console, or of the report, that leaves after so many bytes."""
    line, ticks = ["run", "poked-processor.elf"], byte_ticks(room)
    for size in some(range(len(ticks) - 1), rng, quick, 6):
        first = b"t 7 %d\n" % ticks[size] if ticks[size] else b""
        whole = room.whole(line, first + PLAIN)
        judge = lambda out, whole=whole: is_front(out, 7, whole)
        yield Case(f"streams poked: the console's reader leaves after {size} bytes", line, judge, first + PLAIN, how=paced("console", size, first, leave))
    given = b"t 7 59\npoke 1 16 0000002a\nt 7 7\n" + PLAIN
    whole = room.whole(line, given)
    for size in range(len(b"out 66 1 differ\n") + 1):
        judge = lambda out, whole=whole: is_front(out, 7, whole, whole.report)
        first = given[: -len(PLAIN)] if size else b""
        yield Case(f"streams poked: the report's reader leaves after {size} bytes", line, judge, given, how=paced("report", size, first, leave))


def endless(room, quick):
    """Inputs without an end: a byte more is taken than an input may have."""
    if quick:
        return
    reports = {
        "check": b"toolong 1\n",
        "run": b"runs 0\nticks 0\nbytes 0\nend toolong 1\n",
        "single": b"runs 0\nbytes 0\nend toolong 1\n",
    }
    for command, report in reports.items():
        line = [command] + ["hello.elf"] * (command != "check")
        judge = lambda out, report=report: is_exactly(out, 9, report=report)
        yield Case(f"streams {command}: its input is endless", line, judge, streams="</dev/zero", seconds=900)


# Names of files, and files that are none.


def names(room, rng, quick):
    """Names that are odd, and files that are no files."""
    hello, whole = room.bytes_of("hello.elf"), room.whole(["run", "hello.elf"], PLAIN)
    odd = ["a b", " ", "-", "--", "-x", "*", "a\nb", "\t", "'", '"', "$HOME", "run", "\u00e9\u65e5\U0001f600", "e\u0301", "n" * 255, "\u65e5" * 85]
    for name in odd:
        with open(os.path.join(room.folder, name), "wb") as file:
            file.write(hello)
    good = lambda out: is_exactly(out, 0, whole.console, whole.report, len(PLAIN))
    failed = lambda out: is_exactly(out, 6, taken=0)
    paths = odd + ["./hello.elf", ".//hello.elf", f"{room.folder}/hello.elf", "/" * 3000 + room.folder + "/hello.elf", "folder/../hello.elf", "link"]
    os.makedirs(os.path.join(room.folder, "folder"))
    for link, to in (("link", "hello.elf"), ("loop", "loop"), ("nowhere", "missing")):
        os.symlink(to, os.path.join(room.folder, link))
    for path in paths:
        yield Case(f"names {path!r:.60}", ["run", path], good, PLAIN)
    none = ["", "missing", ".", "..", "/", "folder", "loop", "nowhere", "hello.elf/", "hello.elf/x", "n" * 256, "n/" * 2100 + "x", "x" * 131000]
    none += ["/proc/self/mem", "/dev/tty0/x", "hello.elf\n"]
    for path in none:
        for command in ("run", "single"):
            yield Case(f"names none, {command} {path!r:.60}", [command, path], failed, PLAIN)
    bytes_name = b"\xff\xfe.elf"
    with open(os.path.join(os.fsencode(room.folder), bytes_name), "wb") as file:
        file.write(hello)
    yield Case("names not UTF-8", ["run", bytes_name], lambda out: is_exactly(out, 2, report=b"usage\n", taken=0), PLAIN)
    yield from kinds(room, hello, whole, good, failed)


def kinds(room, hello, whole, good, failed):
    """Files of other kinds than plain ones, and files that change."""
    yield Case("names /dev/null", ["run", "/dev/null"], lambda out: is_exactly(out, 3, report=b"elf short 0\n", taken=0), PLAIN)
    toobig = lambda out: is_exactly(out, 8, report=b"toobig\n", taken=0)
    for path in ("/dev/zero", "/dev/full"):
        yield Case(f"names {path}", ["run", path], toobig, PLAIN)
    sizes = {2**22 - 1: good, 2**22: good, 2**22 + 1: toobig, 2**32: toobig, 2**40: toobig}
    for size, judge in sizes.items():
        path = f"of {size} bytes"
        with open(os.path.join(room.folder, path), "wb") as file:
            file.write(hello)
            file.truncate(size)
        yield Case(f"names {path}", ["run", path], judge, PLAIN)
    path = os.path.join(room.folder, "unreadable")
    with open(path, "wb") as file:
        file.write(hello)
    os.chmod(path, 0)
    yield Case("names unreadable", ["run", "unreadable"], failed, PLAIN, nobody=True)
    for size in (0, 51, 83, 115, 116):
        cut = hello[:size]
        judge = lambda out, cut=cut: run_differences(out, cut, PLAIN)
        yield Case(f"names a FIFO of {size} bytes", ["run", "FIFO"], judge, PLAIN, how=from_fifo(cut))
    for start in (b"", hello[:60], hello):
        yield Case(f"names a file that grows from {len(start)} bytes", ["run", "GROWS"], grown(hello, whole), PLAIN, how=growing(start, hello))


def grown(data, whole):
    """A file that grew was read as some front of what it became."""
    texts = {f"{refusal(data[:size])}\n".encode() for size in range(len(data))}

    def judge(out):
        if out.status == 3 and out.report in texts or out.status == 8 and out.report == b"toobig\n":
            yield from is_exactly(out, out.status, report=out.report, taken=0)
        else:
            yield from is_exactly(out, 0, whole.console, whole.report)

    return judge


# Limits.


def least(room, flag, line, given, most):
    """The least limit under which a command gives what it gives without one."""
    whole, low, high = room.whole(line, given), 0, most
    while low < high:
        middle = (low + high) // 2
        out = play(Case("limits", line, None, given, limits=f"ulimit {flag} {middle} 2>/dev/null;"), room)
        low, high = (low, middle) if out[:3] == whole[:3] else (middle + 1, high)
    return low


def limits(room, rng, quick):
    """Memory, stack, descriptors and sizes that are limited, from where the program starts at all."""
    start, files = least(room, "-v", ["walk"], b"", 2**22), least(room, "-n", ["walk"], b"", 64)
    for name, line, given, whole in commands(room):
        if name in ("usage", "refused", "check of a bad line"):
            continue
        enough = least(room, "-v", line, given, 2**22)
        points = {start, enough - 1, enough, enough + 1, *(rng.randint(start, enough + 100) for _ in range(12 if quick else 300))}
        for size in sorted(points):
            yield Case(f"limits {name}: {size} KiB of memory", line, refused_memory(whole), given, limits=f"ulimit -v {size};")
    for name, line, given, whole in commands(room):
        same = lambda out, whole=whole: is_exactly(out, whole.status, whole.console, whole.report)
        for count in (files, files + 1):
            yield Case(f"limits {name}: {count} descriptors", line, same, given, limits=f"ulimit -n {count};")
        yield Case(f"limits {name}: no core, no locked memory", line, same, given, limits="ulimit -c 0; ulimit -l 0;")
        for size in (1024, 256):
            yield Case(f"limits {name}: {size} KiB of stack", line, same, given, limits=f"ulimit -s {size};")
        for stream in (1, 2):
            judge = broken(whole, stream == 1, stream == 2)
            yield Case(f"limits {name}: stream {stream} may not grow", line, judge, given, limits="trap '' XFSZ; ulimit -f 0;", streams=f"{stream}>>full")
            judge = ended_by_size(whole, judge)
            yield Case(f"limits {name}: stream {stream} may not grow, by its signal", line, judge, given, limits="ulimit -f 0;", streams=f"{stream}>>full")


def ended_by_size(whole, judge):
    """A run that the system's signal for a file's size ended, as docs/FORMATS.md has it, or that wrote nothing there."""
    return lambda out: is_front(out, -signal.SIGXFSZ, whole) if out.status == -signal.SIGXFSZ else judge(out)


def refused_memory(whole):
    """Memory was refused before anything was read of the input or written, or the run gives its own answer."""

    def judge(out):
        if out.status == 10:
            yield from is_exactly(out, 10, taken=0)
        else:
            yield from is_exactly(out, whole.status, whole.console, whole.report, whole.taken)

    return judge


# Signals.


DEADLY = ("INT", "TERM", "HUP", "QUIT", "KILL", "ALRM", "USR1")


def signals(room, rng, quick):
    """Signals that end a run at a byte that is known, and at any moment; and a run that is stopped and goes on."""
    line, ticks = ["run", "poked-processor.elf"], byte_ticks(room)
    for size in some(range(len(ticks) - 1), rng, quick, 6):
        name = DEADLY[size % len(DEADLY)]
        number = getattr(signal, f"SIG{name}")
        first = b"t 7 %d\n" % ticks[size] if ticks[size] else b""
        whole = room.whole(line, first + PLAIN)
        how = paced("console", size, first, lambda child, pipe, number=number: child.send_signal(number))
        judge = lambda out, whole=whole, number=number, size=size: at_signal(out, number, whole, size)
        yield Case(f"signals poked: {name} after {size} bytes", line, judge, first + PLAIN, limits="ulimit -c 0;", how=how)
    longer = [(["run", "squeeze.elf"], PLAIN_LONG), (["load", "20" if quick else "200"], b"")]
    for at in range(12 if quick else 200):
        line, given = longer[at % 2]
        name = DEADLY[at // 2 % len(DEADLY)]
        number, moment = getattr(signal, f"SIG{name}"), rng.random()
        judge = lambda out, whole=(line, given), number=number: at_any_time(out, number, room.whole(*whole))
        yield Case(f"signals {line[-1]}: {name} at {moment:.3f}", line, judge, given, limits="ulimit -c 0;", how=at_moment(number, moment))
    for at in range(2 if quick else 20):
        line, given = longer[at % 2]
        judge = lambda out, whole=(line, given): is_exactly(out, 0, *room.whole(*whole)[1:3])
        yield Case(f"signals {line[-1]}: it is stopped and goes on, {at}", line, judge, given, how=stopped(rng.random()))


def at_signal(out, number, whole, size):
    yield from is_front(out, -number, whole)
    if len(out.console) != size:
        yield f"{len(out.console)} bytes are there and not {size}"


def at_any_time(out, number, whole):
    if out.status != whole.status:
        yield from is_front(out, -number, whole, whole.report)
    else:
        yield from is_exactly(out, whole.status, whole.console, whole.report)
