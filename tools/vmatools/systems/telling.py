"""The output of a trace, in the form of `serial`, from the lines that the runner wrote."""

import errno
import re
from collections.abc import Sequence

from ..traces import PAGE, File, Line, Trace
from .places import WIDE_END, Refused

AREA = re.compile(r"([0-9a-f]+)-([0-9a-f]+) (\S+) ([0-9a-f]+) (\S+) ([0-9]+) *(.*)")
OUR_FILE = re.compile(r"vmatrace-([0-9]+)(?: \(deleted\))?$")
ERRORS = {**errno.errorcode, errno.EOPNOTSUPP: "EOPNOTSUPP"}
SIGNALS = {4: "SIGILL", 5: "SIGTRAP", 7: "SIGBUS", 8: "SIGFPE", 11: "SIGSEGV"}
CODES = {
    4: [
        "ILL_ILLOPC",
        "ILL_ILLOPN",
        "ILL_ILLADR",
        "ILL_ILLTRP",
        "ILL_PRVOPC",
        "ILL_PRVREG",
        "ILL_COPROC",
        "ILL_BADSTK",
        "ILL_BADIADDR",
    ],
    5: ["TRAP_BRKPT", "TRAP_TRACE", "TRAP_BRANCH", "TRAP_HWBKPT", "TRAP_UNK", "TRAP_PERF"],
    7: ["BUS_ADRALN", "BUS_ADRERR", "BUS_OBJERR", "BUS_MCEERR_AR", "BUS_MCEERR_AO"],
    8: ["FPE_INTDIV", "FPE_INTOVF", "FPE_FLTDIV", "FPE_FLTOVF", "FPE_FLTUND", "FPE_FLTRES", "FPE_FLTINV", "FPE_FLTSUB"],
    11: [
        "SEGV_MAPERR",
        "SEGV_ACCERR",
        "SEGV_BNDERR",
        "SEGV_PKUERR",
        "SEGV_ACCADI",
        "SEGV_ADIDERR",
        "SEGV_ADIPERR",
        "SEGV_MTEAERR",
        "SEGV_MTESERR",
        "SEGV_CPERR",
    ],
}
SENT = {
    0: "SI_USER",
    128: "SI_KERNEL",
    -1: "SI_QUEUE",
    -2: "SI_TIMER",
    -3: "SI_MESGQ",
    -4: "SI_ASYNCIO",
    -5: "SI_SIGIO",
    -6: "SI_TKILL",
}


WORDS = {"shift", "at", "reply", "fault", "list", "died", "ended"}  # of the runner, each with a number behind it


def signal_text(number: int, code: int) -> str:
    """A signal and its code by their names, or by their numbers where they have none."""
    code = code - 2**32 if code >= 2**31 else code
    codes = CODES.get(number, [])
    name = SENT.get(code, codes[code - 1] if 0 < code <= len(codes) else None)
    return f"{SIGNALS[number]} {name}" if number in SIGNALS and name else f"signal {number} code {code}"


def reply_text(word: str, value: int) -> str:
    if value >= 2**64 - 4095 and word != "brk":
        # No page names an error of a number that high: it is an address that the kernel took for one.
        return f"-1 {ERRORS.get(2**64 - value, f'E{2**64 - value}')}"
    return hex(value) if value or word == "brk" else "0"


def fields_of(text: str) -> Sequence[str]:
    found = AREA.fullmatch(text)
    if not found:
        raise Refused(6, f"the system's list has a line that is none: {text[:100]!r}")
    return found.groups()


class Shown:
    """One space as its list shows it: with the trace's files, and the numbers of shared anonymous objects."""

    def __init__(self, files: Sequence[File], objects: dict[str, int] | None = None) -> None:
        self.files = files
        self.objects = dict(objects or {})  # by inode: the number that the program gives the object

    def meets(self, text: str) -> None:
        """The area of a new shared anonymous object: it gets the next number."""
        self.objects.setdefault(fields_of(text)[5], len(self.files) + len(self.objects) + 1)

    def backing(self, device: str, inode: str, name: str) -> tuple[str, str, str]:
        """Device, inode and name of an area, as the program has them."""
        file = OUR_FILE.search(name)
        if file:
            ours = self.files[int(file[1])]
            return f"{ours.major:02x}:{ours.minor:02x}", str(ours.inode), ours.name
        if name.startswith("/dev/zero"):  # the device is any number too, where a system gives one
            return "00:01", str(self.objects.get(inode, inode)), name
        return device, inode, name if name == "[heap]" else ""

    def area(self, text: str) -> str:
        """The line of an area as the program writes it."""
        low, high, permissions, offset, device, inode, name = fields_of(text)
        device, inode, name = self.backing(device, inode, name)
        front = f"{low}-{high} {permissions} {offset} {device} {inode} "
        return front + " " * max(73 - len(front), 1) + name if name else front

    def list(self, texts: Sequence[str]) -> list[str]:
        return [f"maps {len(texts)}", *map(self.area, texts)]


def served(text: str, address: int) -> str:
    """What a fault that is served says: the area, and the page of its object."""
    low, high, permissions, offset, _, inode, _ = fields_of(text)
    index = (int(offset, 16) + address - int(low, 16)) // PAGE if inode != "0" else 0
    return f"served {low}-{high} {permissions} page {index}"


class Telling:
    """The output of one space: results by version, a call before the reads, and these by thread."""

    def __init__(self, shown: Shown, child: int | None = None) -> None:
        self.shown, self.child, self.version = shown, child, 0
        self.told: list[str] = []
        self.reads: list[tuple[int, str]] = []

    def start(self, line: Line) -> str:
        return f"L{line.number} t{line.thread} v{self.version} ="

    def call(self, line: Line, result: str) -> None:
        self.close()
        self.version += 1
        self.told.append(f"{self.start(line)} {result}")

    def read(self, line: Line, *texts: str) -> None:
        self.reads.append((line.thread, f"{self.start(line)} " + "\n".join(texts)))

    def close(self) -> None:
        self.told += [text for _, text in sorted(self.reads, key=lambda read: read[0])]
        self.reads = []

    def last_list(self, texts: Sequence[str]) -> None:
        self.close()
        self.told += self.shown.list(texts)


class Answers:
    """The lines that the runner wrote, one after the other."""

    def __init__(self, texts: Sequence[str]) -> None:
        self.texts, self.at = texts, 0

    def next(self) -> tuple[str, ...]:
        """The words of the next line, or none at the end."""
        self.at += 1
        return tuple(self.texts[self.at - 1].split()) if self.at <= len(self.texts) else ()

    def area(self) -> str | None:
        """The area that stands below an answer, if one does."""
        if self.at >= len(self.texts) or not self.texts[self.at].startswith("area "):
            return None
        self.at += 1
        return self.texts[self.at - 1].removeprefix("area ")

    def list(self) -> Sequence[str] | None:
        """A list, if it is whole."""
        begin = self.at
        try:
            end = self.texts.index("end", begin)
        except ValueError:
            return None
        self.at = end + 1
        return self.texts[begin:end]


class Output:
    """The whole output: that of the parent, and those of the children, of which one at a time gives answers."""

    def __init__(self, trace: Trace) -> None:
        self.lines = {line.number: line for line in trace.lines}
        self.now = Telling(Shown(trace.files))
        self.outer: list[Telling] = []
        self.whole: dict[int, list[str]] = {}
        self.last: Line | None = None  # the operation that began last
        self.is_over = False

    def texts(self) -> list[str]:
        """The lines of the output, so far as there is one."""
        for telling in [self.now, *self.outer]:
            telling.close()
            self.whole.setdefault(-1 if telling.child is None else telling.child, telling.told)
        return [text for _, output in sorted(self.whole.items()) for text in output]

    def take(self, words: Sequence[str], answers: Answers) -> None:
        """Takes one line of the runner, with those that belong to it."""
        if words[0] not in WORDS:  # the system itself says it, as it ends
            return
        name, number, *rest = words
        line = self.lines.get(int(number, 16))
        if name == "at":
            self.last = line
        elif name in ("died", "ended"):
            self.end(f"{'killed by signal' if name == 'died' else 'ended with status'} {int(number, 16)}")
        elif name == "reply" and line:
            self.reply(line, int(rest[0], 16), answers.area())
        elif name == "fault" and line:
            self.fault(line, [int(word, 16) for word in rest], answers.area())
        elif name == "list":
            areas = answers.list()
            if areas is not None:
                self.list(line, areas)

    def end(self, how: str) -> None:
        """The system ends, or hangs, in the operation that began last."""
        self.is_over = True
        if self.last:
            self.now.call(self.last, how)

    def reply(self, line: Line, value: int, area: str | None) -> None:
        if value == 2**64 - errno.ENOSYS:
            raise Refused(4, f"line {line.number}: this system has no {line.word}(2)")
        if area:
            self.now.shown.meets(area)
        self.now.call(line, reply_text(line.word, value))

    def fault(self, line: Line, numbers: Sequence[int], area: str | None) -> None:
        signal, code, was_mapped = numbers
        address = line.arguments[0]
        if signal:
            self.now.read(line, signal_text(signal, code))
        elif area is None:
            self.now.read(line, "served")  # the list has no area there, as of the page of [vsyscall] on some kernels
        elif was_mapped or address >= WIDE_END:  # that of [vsyscall] is mapped, and is none of the process
            self.now.read(line, served(area, address // PAGE * PAGE))
        else:  # an area grew, which makes a version
            self.now.call(line, served(area, address // PAGE * PAGE))

    def list(self, line: Line | None, areas: Sequence[str]) -> None:
        if line and line.word == "maps":
            self.now.read(line, *self.now.shown.list(areas))
        elif line:  # a fork: what follows is the child's, up to its last list
            child = line.arguments[0]
            self.now.read(line, f"child {child} areas {len(areas)}")
            head = f"child {child} of L{line.number} v{self.now.version}"
            self.outer.append(self.now)
            self.now = Telling(Shown(self.now.shown.files, self.now.shown.objects), child)
            self.now.told.append(head)
        else:
            self.now.last_list(areas)
            self.whole[-1 if self.now.child is None else self.now.child] = self.now.told
            self.is_over = not self.outer
            if self.outer:
                self.now = self.outer.pop()


def told(trace: Trace, texts: Sequence[str], ending: str | None) -> list[str]:
    """The output of a trace, by what the runner wrote and by how it ended, where it did before its end."""
    answers, output = Answers(texts), Output(trace)
    while not output.is_over:
        words = answers.next()
        if not words:
            output.end(ending or "ended with status 0")
        elif words[0] == "stop" and len(words) > 2:
            raise Refused(int(words[1], 16), " ".join(words[2:]))
        else:
            output.take(words, answers)
    return output.texts()
