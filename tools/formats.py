"""What docs/FORMATS.md says of scripts, reports, files and statuses, for the tools that judge a run by it.

The forms of the lines and the numbers of the statuses are read from its tables; what it says in sentences stands
here: the ranges that all lines share, the order of a report, and the conditions of a file.
"""
import re

from sources import read

PAGE = "docs/FORMATS.md"
INPUT_LIMIT, TICK_LIMIT, LINE_LIMIT, FILE_LIMIT = 2**28, 2**40, 128, 2**22
GREATEST = 2**64 - 1
ENDS = {"script": 0, "halt": 0, "report": 0, "bad": 4, "outside": 5, "toolong": 9}
KSEG, LOCAL, BOOT, GLOBAL = (0x80000000, 0xA0000000), (0, 0x100000), (0x1FC00000, 0x10000), (0x04000000, 0x100000)


class Decimal:
    """A decimal number in a range, without sign or leading zero."""

    def __init__(self, least, most):
        self.least, self.most = least, most

    def leads(self, digits):
        """Whether these digits are the front of a number in the range."""
        number = int(digits)
        if digits[:1] == b"0":
            return digits == b"0" and self.least == 0
        return any(number * 10**j <= self.most and (number + 1) * 10**j > self.least for j in range(21))

    def reach(self, line, at):
        end = at
        while end < len(line) and 0x30 <= line[end] <= 0x39 and self.leads(line[at : end + 1]):
            end += 1
        return end, end > at and self.least <= int(line[at:end]) <= self.most

    def some(self, rng):
        """A number of the range, one of its ends more often than others."""
        return rng.choice([self.least, self.most, rng.randint(self.least, self.most)])


class Letters:
    """So many bytes, each one of a few."""

    def __init__(self, letters, count):
        self.letters, self.count = letters, count

    def reach(self, line, at):
        end = at
        while end < min(len(line), at + self.count) and line[end] in self.letters:
            end += 1
        return end, end == at + self.count

    def some(self, rng):
        return "".join(chr(rng.choice(self.letters)) for _ in range(self.count))


def hexadecimal(count):
    return Letters(b"0123456789abcdef", count)


def rows(heading):
    """The rows of the first table under a heading of the page, each as its cells."""
    text = read(PAGE).partition(f"\n## {heading}\n")[2].partition("\n## ")[0]
    found = [line.strip("|").split("|") for line in text.splitlines() if line.startswith("|")]
    return [[cell.strip() for cell in cells] for cells in found[2:]]


def form_of(text, ranges):
    """A form of a line: words and fields, with the spaces between."""
    form = []
    for word in text.split(" "):
        part = ranges[word] if re.fullmatch("[A-Z]+", word) else word.encode()
        form += [b" ", part] if form else [part]
    return form


def script_forms():
    """The forms of a script's lines, those of its first line alone apart."""
    shared = {"P": Decimal(0, 2), "B": Decimal(0, 1), "HH": hexadecimal(2), "T": Letters(b"lsy", 1)}
    shared.update(dict.fromkeys(("V", "A", "D"), hexadecimal(8)))
    shared.update(dict.fromkeys(("RUN", "SEEN"), Decimal(0, GREATEST)))
    found, first = [], []
    for line, says, ranges, *_ in rows("Script"):
        own = {name: Decimal(int(least), int(most)) for name, least, most in re.findall(r"([A-Z]+) (\d+) to (\d+)", says + " " + ranges)}
        if line.startswith("`"):
            forms = [form_of(it, {**shared, **own}) for it in re.findall("`([^`]*)`", line)]
            (first if line.startswith("`version") else found).extend(forms)
    return found, first


def report_forms():
    """The forms of the lines that a reader of reports takes."""
    ranges = {"P": Decimal(0, 2), "T": Decimal(0, 2), "B": Decimal(0, 1), "HH": hexadecimal(2), "V": hexadecimal(8)}
    ranges.update(dict.fromkeys(("RUN", "TICK", "N"), Decimal(0, TICK_LIMIT)))
    ranges.update(dict.fromkeys(("LINE", "COLUMN"), Decimal(0, GREATEST)))
    ranges.update(MISSES=Decimal(0, 64), INDEX=Decimal(0, 262143))
    private = {**ranges, **dict.fromkeys(("A", "B", "C"), Decimal(0, 256))}
    found = []
    for line, says, *_ in rows("Report"):
        if "only line" in says:
            continue
        for text in re.findall("`([^`]*)`", line):
            own = private if " private " in text else {**ranges, "N": Decimal(0, GREATEST)} if text.startswith("bytes") else ranges
            found.append(form_of(text, own))
    return found


def reach(form, line):
    """How much of a line is the front of a text of a form, and whether the line is one."""
    at = 0
    for part in form:
        if isinstance(part, bytes):
            for byte in part:
                if line[at : at + 1] != bytes([byte]):
                    return at, False
                at += 1
        else:
            at, whole = part.reach(line, at)
            if not whole:
                return at, False
    return at, at == len(line)


def column(forms, line):
    """The column where a line leaves the forms, or none."""
    found = [reach(form, line) for form in forms]
    return None if any(whole for _, whole in found) else 1 + max(at for at, _ in found)


def lines_of(data):
    """The lines of an input, without their line feeds."""
    lines = data.split(b"\n")
    return lines if lines[-1] else lines[:-1]


class Formats:
    """The tables of the page."""

    def __init__(self):
        self.script, self.first = script_forms()
        self.report = report_forms()
        self.statuses = {int(cells[0]) for cells in rows("Exit statuses")}

    def script_column(self, line, number):
        """The column where a line of a script is bad, or none."""
        if line[:1] in (b"", b"#"):
            return None if len(line) <= LINE_LIMIT else LINE_LIMIT + 1
        found = column(self.script + (self.first if number == 1 else []), line)
        return min(found or len(line) + 1, LINE_LIMIT + 1) if found or len(line) > LINE_LIMIT else None

    def script_fault(self, data):
        """The first line of a script that is bad, and its column; or none."""
        for number, line in enumerate(lines_of(data), 1):
            found = self.script_column(line, number)
            if found:
                return number, found
        return None

    def report_fault(self, data):
        """Where a report goes wrong for `single`, by line and column; or none."""
        state, latest, number = 0, 0, 0
        for number, line in enumerate(lines_of(data), 1):
            found = column(self.report, line)
            if found:
                return number, found
            words = line.split(b" ")
            step = {b"runs": 1, b"ticks": 2, b"bytes": 3, b"end": 4}.get(words[0], 0)
            if line == b"end report" or (step != state + 1 if step else state):
                return number, 1
            if step <= 1 and words[0] in (b"d", b"runs"):
                if int(words[1]) < latest:
                    return number, 6 if step else 3
                latest = int(words[1])
            state = step or state
        return None if state == 4 else (number + 1, 1)


def number_at(data, at, size):
    return int.from_bytes(data[at : at + size], "big")


def is_loadable(address, size):
    """Whether each of so many bytes lies at an address that a file may load."""
    return size == 0 or any(
        base + start <= address and address + size <= base + start + length
        for base in KSEG
        for start, length in (LOCAL, BOOT, GLOBAL)
    )


def head_refusal(data):
    """The first false condition of a file's header and of its table of headers."""
    count, start = number_at(data, 44, 2), number_at(data, 28, 4)
    rules = [
        (len(data) >= 52, f"short {len(data)}"),
        (data[:4] == b"\x7fELF", "magic"),
        (data[4:5] == b"\1", "class"),
        (data[5:6] == b"\2", "order"),
        (data[6:7] == b"\1" and number_at(data, 20, 4) == 1, "version"),
        (number_at(data, 16, 2) == 2, "kind"),
        (number_at(data, 18, 2) == 8, "machine"),
        (count <= 64, f"toomany {count}"),
        (count == 0 or number_at(data, 42, 2) == 32, "headersize"),
        (count == 0 or start + 32 * count <= len(data), "tableoutside"),
    ]
    return next((text for holds, text in rules if not holds), None)


def load_refusal(data):
    """The first false condition of a file's program headers and of its entry."""
    start, count = number_at(data, 28, 4), number_at(data, 44, 2)
    headers = [[number_at(data, start + 32 * i + 4 * j, 4) for j in range(8)] for i in range(count)]
    for i, header in enumerate(headers):
        if header[0] in (2, 3):
            return f"dynamic {i}"
    for i, (kind, offset, address, _, size, room, *_) in enumerate(headers):
        if kind != 1:
            continue
        if size > room:
            return f"bounds {i}"
        if size and offset + size > len(data):
            return f"fileoutside {i}"
        if not is_loadable(address, room):
            return f"placed {i}"
    entry = number_at(data, 24, 4)
    place = entry & 0x1FFFFFFF
    is_code = any(start <= place < start + length for start, length in (LOCAL, BOOT))
    return None if entry % 4 == 0 and 0x80000000 <= entry < 0xC0000000 and is_code else "entry"


def refusal(data):
    """Why a file is refused, as its line of the report; or none."""
    if len(data) > FILE_LIMIT:
        return "toobig"
    text = head_refusal(data) or load_refusal(data)
    return text and f"elf {text}"
