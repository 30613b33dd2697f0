"""How tools/torture runs the program: by a shell, with streams, files and signals as a run wants them."""
import glob
import itertools
import os
import pty
import select
import shlex
import shutil
import signal
import subprocess
import tempfile
import termios
import threading
import time

from judging import FORMATS, Outcome
from sources import TOP

SECONDS = 60  # no run takes as long
# A run that is being started has a copy of each open end of a pipe for a moment, so no end is closed meanwhile.
STARTING = threading.Lock()
NOBODY = 65534


class Hung(Exception):
    """A run that does not end."""


class Case:
    """A run: its name, its words, what it is given, and how what it gives is judged.

    `limits` and `streams` are words of the shell before and behind the command. `file` makes the bytes of the file
    that the word FILE stands for. `how` runs it in another way than from a file of input.
    """

    def __init__(self, name, words, judge, given=b"", limits="", streams="", file=None, how=None, replay=False, nobody=False, seconds=SECONDS):
        self.name, self.group, self.words, self.judge, self.given = name, name.split()[0], words, judge, given
        self.limits, self.streams, self.file, self.how = limits, streams, file, how
        self.replay, self.nobody, self.seconds = replay, nobody, seconds
        self.command = " ".join([limits, "s2", *(shlex.quote(os.fsdecode(it)[:60]) for it in words[:6]), streams, self.told()])

    def told(self):
        if self.streams or not self.given:
            return ""
        text = self.given if len(self.given) < 300 else self.given[:200] + b" .."
        return "<<< $" + shlex.quote(text.decode("latin1").replace("\\", "\\\\").replace("\n", "\\n"))


class Room:
    """A folder with the program and the examples, in which the runs go, and what whole runs give."""

    def __init__(self, folder, program):
        self.folder, self.program, self.numbers = os.path.realpath(folder), os.path.join(os.path.realpath(folder), "s2"), itertools.count()
        os.chmod(folder, 0o755)
        shutil.copy(program, self.program)
        self.known, self.examples = {}, []
        for path in sorted(glob.glob(f"{TOP}/examples/*/*.elf") + glob.glob(f"{TOP}/kit/*/*.elf")):
            name = os.path.basename(path)
            shutil.copy(path, os.path.join(self.folder, name))
            self.examples.append(name)

    def bytes_of(self, name):
        with open(os.path.join(self.folder, name), "rb") as file:
            return file.read()

    def inputs(self, kind):
        """Each example's inputs of a kind, `script` or `report`: the ELF file, the input's name, its bytes."""
        for path in sorted(glob.glob(f"{TOP}/examples/**/{kind}", recursive=True) + glob.glob(f"{TOP}/kit/*/{kind}")):
            folder = os.path.relpath(path, TOP).split(os.sep)
            with open(path, "rb") as file:
                yield folder[1] + ".elf", "/".join(folder[1:-1]), file.read()

    def whole(self, words, given=b""):
        """What a run gives that goes well."""
        key = tuple(words), given
        if key not in self.known:
            self.known[key] = play(Case("whole", words, None, given), self)
        return self.known[key]


def begin(case, room, words, stdin, stdout=subprocess.PIPE, stderr=subprocess.PIPE):
    """Starts the program by a shell, whose place it takes."""
    line = f'{case.limits} exec "$0" "$@" {case.streams}'
    user = {"user": NOBODY, "group": NOBODY, "extra_groups": []} if case.nobody and os.getuid() == 0 else {}
    with STARTING:
        return subprocess.Popen(["sh", "-c", line, room.program, *words], cwd=room.folder, stdin=stdin, stdout=stdout, stderr=stderr, **user)


def leave(_, pipe):
    """The reader of a pipe leaves."""
    with STARTING:
        pipe.close()


def end(child, given=None, seconds=SECONDS):
    """Waits for a run, and gives what it wrote."""
    try:
        console, report = child.communicate(given, timeout=seconds)
    except subprocess.TimeoutExpired:
        child.kill()
        child.communicate()
        raise Hung(f"it runs for {seconds} seconds") from None
    return child.returncode, console or b"", report or b""


def from_file(case, room, words, given):
    """A run whose input is a file."""
    with tempfile.TemporaryFile(dir=room.folder) as file:
        file.write(given)
        file.flush()
        os.lseek(file.fileno(), 0, os.SEEK_SET)
        status, console, report = end(begin(case, room, words, file), seconds=case.seconds)
        return Outcome(status, console, report, os.lseek(file.fileno(), 0, os.SEEK_CUR))


def play(case, room):
    """Runs a case, and gives what came of it."""
    words, path = list(case.words), None
    if case.file:
        name = f"{next(room.numbers)}.elf"
        path = os.path.join(room.folder, name)
        with open(path, "wb") as file:
            file.write(case.file())
        words = [name if it == "FILE" else it for it in words]
    try:
        found = case.how(case, room, words) if case.how else from_file(case, room, words, case.given)
        if case.replay and found.status >= 0 and FORMATS.report_fault(found.report) is None:
            found = found._replace(replay=from_file(case, room, ["single", *words[1:]], found.report))
        return found
    finally:
        if path:
            os.remove(path)


def slowly(case, room, words):
    """its input comes a byte at a time"""
    child = begin(case, room, words, subprocess.PIPE)

    def feed():
        try:
            for byte in case.given:
                child.stdin.write(bytes([byte]))
                child.stdin.flush()
            child.stdin.close()
        except OSError:
            pass

    feeder = threading.Thread(target=feed)
    reading = [threading.Thread(target=lambda at=at, pipe=pipe: kept.__setitem__(at, pipe.read())) for at, pipe in enumerate((child.stdout, child.stderr))]
    kept = [b"", b""]
    for thread in [feeder, *reading]:
        thread.start()
    wait(child)
    for thread in [feeder, *reading]:
        thread.join()
    return Outcome(child.returncode, *kept)


def wait(child):
    try:
        child.wait(SECONDS)
    except subprocess.TimeoutExpired:
        child.kill()
        child.wait()
        raise Hung(f"it runs for {SECONDS} seconds") from None


def terminal():
    """A terminal that shows no input and changes no output: the end to write to, and the end of the program."""
    near, far = pty.openpty()
    state = termios.tcgetattr(far)
    state[1] &= ~termios.OPOST
    state[3] &= ~termios.ECHO
    termios.tcsetattr(far, termios.TCSANOW, state)
    return near, far


def from_terminal(case, room, words):
    """its input is a terminal that ends"""
    near, far = terminal()
    try:
        child = begin(case, room, words, far)
        rest = case.given + (b"\x04" if case.given.endswith(b"\n") or not case.given else b"\x04\x04")
        os.write(near, rest)
        return Outcome(*end(child))
    finally:
        os.close(near)
        os.close(far)


def to_terminal(case, room, words):
    """its console and its report are terminals"""
    ends = terminal(), terminal()
    with tempfile.TemporaryFile(dir=room.folder) as file:
        file.write(case.given)
        file.flush()
        os.lseek(file.fileno(), 0, os.SEEK_SET)
        child = begin(case, room, words, file, ends[0][1], ends[1][1])
    kept = [b"", b""]
    for _, far in ends:
        os.close(far)
    deadline, open_ends = time.monotonic() + SECONDS, {ends[0][0]: 0, ends[1][0]: 1}
    while open_ends and time.monotonic() < deadline:
        for near in select.select(list(open_ends), [], [], 1)[0]:
            try:
                data = os.read(near, 65536)
            except OSError:  # the program has closed its end
                data = b""
            kept[open_ends[near]] += data
            if not data:
                del open_ends[near]
    wait(child)
    for near, _ in ends:
        os.close(near)
    return Outcome(child.returncode, *kept)


def hang_up(case, room, words):
    """A run whose input is a terminal that goes away after some bytes."""
    near, far = terminal()
    child = begin(case, room, words, far)
    os.close(far)
    os.write(near, case.given)
    time.sleep(0.1)
    os.close(near)
    return Outcome(*end(child))


def read_some(pipe, count):
    """So many bytes of a pipe, or those up to its end."""
    found, deadline = b"", time.monotonic() + SECONDS
    while len(found) < count:
        if not select.select([pipe], [], [], max(0, deadline - time.monotonic()))[0]:
            raise Hung(f"it writes {len(found)} of {count} bytes and no more")
        data = os.read(pipe.fileno(), count - len(found))
        if not data:
            break
        found += data
    return found


def paced(stream, count, first, then):
    """A run that gets some lines, writes so many bytes, suffers something, and gets the rest of its lines."""

    def how(case, room, words):
        child = begin(case, room, words, subprocess.PIPE)
        pipes = {"console": child.stdout, "report": child.stderr}
        try:
            child.stdin.write(first)
            child.stdin.flush()
            found = read_some(pipes[stream], count)
            then(child, pipes[stream])
            given = case.given[len(first) :]
        except (OSError, Hung) as fault:
            child.kill()
            child.communicate()
            raise Hung(f"it goes no further: {fault}") from None
        kept = {"console": b"", "report": b"", stream: found}
        readers = [threading.Thread(target=drain, args=(kept, name, pipe)) for name, pipe in pipes.items() if not pipe.closed]
        for reader in readers:
            reader.start()
        try:
            child.stdin.write(given)
            child.stdin.close()
        except OSError:
            pass
        wait(child)
        for reader in readers:
            reader.join()
        return Outcome(child.returncode, kept["console"], kept["report"])

    return how


def drain(kept, name, pipe):
    kept[name] += pipe.read()


def from_fifo(data):
    def how(case, room, words):
        name = f"fifo {next(room.numbers)}"
        path = os.path.join(room.folder, name)
        os.mkfifo(path)
        writer = threading.Thread(target=write_fifo, args=(path, data))
        writer.start()
        try:
            return from_file(case, room, ["run", name], case.given)
        finally:
            writer.join()

    return how


def write_fifo(path, data):
    """Writes a file of bytes to a FIFO once it has a reader."""
    deadline = time.monotonic() + SECONDS
    while time.monotonic() < deadline:
        try:
            file = os.open(path, os.O_WRONLY | os.O_NONBLOCK)
        except OSError:
            time.sleep(0.01)
            continue
        try:
            if data:
                os.write(file, data)
        except OSError:
            pass
        os.close(file)
        return


def growing(start, data):
    """A run whose file grows meanwhile, first to its bytes and then beyond what a file may have."""

    def how(case, room, words):
        name, stop = f"grows {next(room.numbers)}", threading.Event()
        path = os.path.join(room.folder, name)
        with open(path, "wb") as file:
            file.write(start)

        def grow():
            with open(path, "ab", buffering=0) as file:
                for byte in data[len(start) :]:
                    file.write(bytes([byte]))
                while not stop.is_set() and file.tell() < 2**23:
                    file.write(bytes(4096))

        writer = threading.Thread(target=grow)
        writer.start()
        try:
            return from_file(case, room, ["run", name], case.given)
        finally:
            stop.set()
            writer.join()
            os.remove(path)

    return how


def length_of(room, words, given):
    """How long a run takes, in seconds."""
    start = time.monotonic()
    play(Case("length", words, None, given), room)
    return time.monotonic() - start


def at_moment(number, moment):
    """A run that a signal ends after a part of its time."""

    def how(case, room, words):
        span = length_of(room, words, case.given)
        child = begin(case, room, words, subprocess.PIPE)
        timer = threading.Timer(span * moment, child.send_signal, [number])
        timer.start()
        try:
            return Outcome(*end(child, case.given))
        finally:
            timer.cancel()

    return how


def stopped(moment):
    def how(case, room, words):
        span = length_of(room, words, case.given)
        child = begin(case, room, words, subprocess.PIPE)
        timers = [threading.Timer(span * moment + pause, child.send_signal, [number]) for pause, number in ((0, signal.SIGSTOP), (0.3, signal.SIGCONT))]
        for timer in timers:
            timer.start()
        try:
            return Outcome(*end(child, case.given))
        finally:
            for timer in timers:
                timer.cancel()

    return how
