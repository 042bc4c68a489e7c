"""Traces of what strace wrote: each form of its lines, each address space, and what is left out."""

import os
import random
import struct
import time
import unittest
from unittest import mock

from unit.common import InFolder, vma
from vmatools.commands.lists import last_list
from vmatools.console import Failure
from vmatools.model import Space as Model, answer
from vmatools.strace import importing, lists, watching
from vmatools.strace.areas import Area, area_of, read_sections, top_of
from vmatools.strace.files import Descriptors, follow_descriptor
from vmatools.strace.log import Log, split_arguments, unescaped
from vmatools.strace.processes import Processes
from vmatools.strace.writing import Choices, Trace
from vmatools.traces import Line, read_trace

BEGIN = '7 execve("/bin/a", ["a"], 0x7ffd /* 2 vars */) = 0\n7 brk(NULL) = 0x555555579000\n'
MAP = "mmap(NULL, 4096, PROT_READ, MAP_PRIVATE|MAP_ANONYMOUS, -1, 0)"
THREAD = "7 clone(child_stack=0x1000, flags=CLONE_VM|CLONE_FILES|CLONE_SIGHAND|CLONE_THREAD) = 8\n"
MAPS = """555555554000-555555556000 r--p 00000000 fe:00 11                         /bin/a
7ffff7ffb000-7ffff7fff000 rw-p 00031000 fe:00 12                         /lib/ld.so
7ffffffde000-7ffffffff000 rw-p 00000000 00:00 0                          [stack]
ffffffffff600000-ffffffffff601000 --xp 00000000 00:00 0                  [vsyscall]
"""


def importer_of(text: str, maps: str = "", **choices: bool) -> importing.Importer:
    log = Log(text)
    processes = Processes(log)
    importing.attach(processes, read_sections(maps, "maps") if maps else [], log.lines)
    known = importing.known_files(processes, [])
    return importing.Importer(Choices(elsewhere=True, **choices), log, processes, known)


def made(text: str, maps: str = "", exec: int | None = None, **choices: bool) -> Trace:
    importer = importer_of(text, maps, **choices)
    return importer.trace_of(importer.processes.numbered(exec))


def lines(trace: Trace) -> list[str]:
    """The operations behind the areas of the maps, of which the first brk is left away."""
    texts = [f"{one.thread} {one.text}" for one in trace.operations()][len(trace.of_maps) :]
    return [text for text in texts if text != "0 brk 0"]


class Lines(unittest.TestCase):
    """What may be around a call."""

    def test_each_option_that_puts_something_before_a_call(self) -> None:
        for front in (
            "",
            "7 ",
            "[pid     7] ",
            "7<a> ",
            "7 12:00:00 ",
            "7 12:00:00.123456 ",
            "7 1700000000.123456 ",
            "7      0.000123 ",
            "7  12:00:00.123456 (+     0.000441) ",
            "7 [   9] ",
            "7 [00007f03f6a1dca3] ",
            "7  12:00:00.518683 (+     0.000113) [   9] [00007f03f6a1dca3] ",
        ):
            with self.subTest(front):
                calls = Log(f"{front}munmap(0x10000, 4096) = 0 <0.000012>\n").calls
                self.assertEqual([(call.name, call.result) for call in calls], [("munmap", "0")])

    def test_an_end_with_no_place(self) -> None:
        log = Log(BEGIN + "7 12:00:00.1 (+     0.000172) [ 231] [????????????????] +++ exited with 0 +++\n")
        self.assertEqual((log.unreadable, len(log.ended)), (0, 1))

    def test_strings_brackets_and_names_of_descriptors(self) -> None:
        words = split_arguments('AT_FDCWD</a,b>, "x, \\"y", {st_size=1, st_ino=2}, 3<pipe:[5]>, 21<<MAP_HUGE_SHIFT')
        self.assertEqual(len(words), 5)
        self.assertEqual(unescaped("a\\377\\x41\\n"), "a\udcffA\n")

    def test_numbers_for_names(self) -> None:
        """As -X raw has them: flags of mmap, and those of clone, by which it makes a thread."""
        text = BEGIN + "7 mmap(NULL, 8192, 0x3, 0x22, -1, 0) = 0x7ffff7ffd000\n"
        text += "7 clone3({flags=0x3d0f00, stack=0x7fff}, 88) = 8\n8 munmap(0x7ffff7ffd000, 8192) = 0\n"
        self.assertEqual(
            lines(made(text)),
            ["0 mmap 0 8192 PROT_READ|PROT_WRITE MAP_PRIVATE|MAP_ANONYMOUS -1 0", "1 munmap 0x7ffff7ffd000 8192"],
        )

    def test_all_words_raw(self) -> None:
        text = "execve(0x7ffd, 0x7ffd, 0x7ffd) = 0\nbrk(0) = 0x561dd4ea2000\nopenat(0xffffff9c, 0x7fa0, 0x80000, 0) = 0x3\n"
        text += "mmap(0, 0xaccb, 0x1, 0x2, 0x3, 0) = 0x7fa07927b000\nmmap(0, 0x1000, 0x3, 0x22, 0xffffffff, 0) = -1 (errno 12)\n"
        trace = made(text)
        self.assertEqual(lines(trace)[0], "0 mmap 0 44235 PROT_READ MAP_PRIVATE 3 0")
        self.assertEqual(trace.steps[-1].answer, "-1 ENOMEM")
        self.assertIn("/not-named-in-the-log/0x7fa0", trace.text())

    def test_mmap2(self) -> None:
        """Of a program of 32 bits. strace tells its offset in bytes, and by -e raw=all in pages."""
        text = BEGIN.replace("0x555555579000", "0x804b000") + '7 open("/a", O_RDONLY) = 3\n'
        text += f"7 {MAP.replace('mmap', 'mmap2')} = 0xf7ff4000\n"
        text += "7 mmap2(NULL, 4096, PROT_READ, MAP_PRIVATE, 3, 0x1000) = 0xf7ff3000\n"
        text += "7 mmap2(0, 0x1000, 0x1, 0x2, 0x3, 0x1) = 0xf7ff2000\n"
        maps = "08048000-0804b000 r-xp 00000000 fe:00 11  /bin/a\n"
        maps += "f7ff6000-f7ffe000 r-xp 00000000 00:00 0  [vdso]\nfffdd000-ffffe000 rw-p 00000000 00:00 0  [stack]\n"
        trace = made(text, maps)
        self.assertEqual(trace.top, 0xF7FFE000)
        self.assertEqual(lines(trace)[0], "0 mmap 0 4096 PROT_READ MAP_PRIVATE|MAP_ANONYMOUS -1 0")
        self.assertEqual(lines(trace)[1:], ["0 mmap 0 4096 PROT_READ MAP_PRIVATE 4 0x1000"] * 2)

    def test_a_name_that_is_no_text(self) -> None:
        text = (
            BEGIN
            + '7 openat(AT_FDCWD, "/a\\377b", O_RDONLY) = 3\n7 mmap(NULL, 4096, 0x1, 0x2, 3, 0) = 0x7ffff7ffe000\n'
        )
        self.assertIn(" /a\\377b\n", made(text).text())


class Flags(unittest.TestCase):
    """What a trace has no word for."""

    def test_a_call_that_failed_by_such_a_flag_is_left_out(self) -> None:
        huge = MAP.replace("ANONYMOUS", "ANONYMOUS|MAP_HUGETLB")
        trace = made(BEGIN + f"7 {huge} = -1 ENOMEM (Cannot allocate memory)\n7 {MAP} = 0x7ffff7ffe000\n")
        self.assertEqual(len(lines(trace)), 1)
        self.assertIn("MAP_HUGETLB", next(iter(trace.left_out)))

    def test_a_place_that_a_flag_decides_is_asked_for(self) -> None:
        for flag in ("MAP_32BIT", "0x40"):
            trace = made(BEGIN + f"7 {MAP.replace('ANONYMOUS', 'ANONYMOUS|' + flag)} = 0x40000000\n")
            self.assertEqual(lines(trace), ["0 mmap 0x40000000 4096 PROT_READ MAP_PRIVATE|MAP_ANONYMOUS -1 0"])

    def test_droppable_memory_is_private(self) -> None:
        for flags in ("0x8 /* MAP_??? */|MAP_ANONYMOUS", "0x28", "MAP_DROPPABLE|MAP_ANONYMOUS"):
            trace = made(BEGIN + f"7 {MAP.replace('MAP_PRIVATE|MAP_ANONYMOUS', flags)} = 0x7ffff7ffe000\n")
            self.assertEqual(lines(trace), ["0 mmap 0 4096 PROT_READ MAP_PRIVATE|MAP_ANONYMOUS -1 0"])

    def test_hints_and_places(self) -> None:
        text = BEGIN + "7 mremap(0x7ffff7ffe000, 4096, 4194304, MREMAP_MAYMOVE) = 0x7ffff7800000\n"
        fixed = "0 mremap 0x7ffff7ffe000 4096 4194304 MREMAP_MAYMOVE|MREMAP_FIXED 0x7ffff7800000"
        self.assertEqual(lines(made(text, hints=True)), [fixed])
        self.assertEqual(lines(made(text, places=True)), [fixed])
        self.assertIn("mmap 0x7ffff7ffe000", lines(made(BEGIN + f"7 {MAP} = 0x7ffff7ffe000\n", places=True))[0])


class Files(unittest.TestCase):
    def table(self, *texts: str) -> Descriptors:
        files = Descriptors()
        for call in Log("".join(f"7 {text}\n" for text in texts)).calls:
            follow_descriptor(call, files)
        return files

    def test_a_range_that_is_closed_by_the_next_execve_alone(self) -> None:
        opened = 'openat(AT_FDCWD, "/a", O_RDWR) = 3'
        self.assertIn(3, self.table(opened, "close_range(3, 4294967295, CLOSE_RANGE_CLOEXEC) = 0").table)
        self.assertIn(3, self.table(opened, "close_range(0x3, 0xffffffff, 0x4) = 0").table)
        self.assertNotIn(3, self.table(opened, "close_range(3, 4294967295, 0) = 0").table)

    def test_what_succeeded_was_allowed(self) -> None:
        call = "7 mmap(NULL, 4096, PROT_READ|PROT_WRITE, MAP_SHARED, 5<anon_inode:[io_uring]>, 0)"
        self.assertIn("file 3 rw 4096 ", made(BEGIN + f"{call} = 0x7ffff7ffe000\n").text())
        self.assertIn("file 3 r 4096 ", made(BEGIN + f"{call} = -1 EACCES (Permission denied)\n").text())


class Segments(unittest.TestCase):
    """Shared memory of System V."""

    MADE = "7 shmget(0xaba4aa, 56, IPC_CREAT|0600) = 9\n"

    def test_attached_and_detached(self) -> None:
        used = "7 shmat(9, NULL, 0) = 0x7ffff7ffa000\n7 shmdt(0x7ffff7ffa000) = 0\n7 shmdt(0x7ffff7ffa000) = -1 EINVAL\n"
        trace = made(BEGIN + self.MADE + used)
        self.assertIn("file 3 rw 56 00:01 9 /SYSV00aba4aa (deleted)\n", trace.text())
        self.assertEqual(lines(trace), ["0 mmap 0 56 PROT_READ|PROT_WRITE MAP_SHARED 3 0", "0 munmap 0x7ffff7ffa000 56"])

    def test_flags(self) -> None:
        for flags, prot in (("SHM_RDONLY", "PROT_READ"), ("010000", "PROT_READ"), ("0x9000", "PROT_READ|PROT_EXEC")):
            trace = made(BEGIN + self.MADE + f"7 shmat(9, 0x10000, {flags}) = 0x10000\n")
            self.assertEqual(lines(trace), [f"0 mmap 0x10000 56 {prot} MAP_SHARED|MAP_FIXED 3 0"])

    def test_a_fork_detaches_what_its_parent_attached(self) -> None:
        used = "7 shmat(9, NULL, 0) = 0x7ffff7ffa000\n7 fork() = 8\n8 shmdt(0x7ffff7ffa000) = 0\n"
        self.assertIn("1 munmap 0x7ffff7ffa000 56", lines(made(BEGIN + self.MADE + used)))

    def test_what_is_left_out(self) -> None:
        for text in ("7 shmat(9, NULL, 0) = 0x7ffff7ffa000\n", self.MADE + "7 shmat(9, NULL, 0) = -1 EACCES\n"):
            importer = importer_of(BEGIN + text)
            self.assertEqual(importer.processes.numbered(None).other["shmat"], 1)


class Spaces(InFolder):
    def test_an_execve_by_a_thread_that_is_not_the_first(self) -> None:
        text = (
            BEGIN
            + "7 clone3({flags=CLONE_VM|CLONE_THREAD}, 88) = 8\n7 futex(0x7f, FUTEX_WAIT, 8 <unfinished ...>\n"
            + f"8 {MAP} = 0x7ffff7ffe000\n"
        )
        text += '8 execve("/bin/b", ["b"], 0x7f /* 2 vars */ <pid changed to 7 ...>\n7 +++ superseded by execve in pid 8 +++\n'
        text += f"7 <... execve resumed>)             = 0\n7 brk(NULL) = 0x555555580000\n7 {MAP} = 0x7ffff7ffc000\n"
        self.assertEqual([one.text for one in made(text).steps][1:], [one.text for one in made(text, exec=2).steps][1:])
        self.assertEqual(made(text).steps[1].answer, "0x7ffff7ffe000")
        self.assertEqual(made(text, exec=2).steps[1].answer, "0x7ffff7ffc000")

    FORKED = (
        BEGIN
        + f"7 {MAP} = 0x7ffff7ffe000\n7 fork() = 9\n9 {MAP} = 0x7ffff7ffd000\n7 munmap(0x7ffff7ffe000, 4096) = 0\n"
    )

    def test_a_fork_is_a_line(self) -> None:
        trace = made(self.FORKED)
        self.assertEqual(lines(trace)[1], "0 fork 1")
        self.assertEqual(lines(trace)[-1], "1 mmap 0 4096 PROT_READ MAP_PRIVATE|MAP_ANONYMOUS -1 0")
        self.assertIn("= child 1 areas 1\n", trace.replies())
        self.assertEqual(len(read_trace(trace.text().encode()).lines), 5)

    def test_a_fork_has_a_trace_that_begins_with_the_list_of_its_parent(self) -> None:
        importer = importer_of(self.FORKED)
        trace = importer.trace_of(importer.processes.forked(1))
        self.assertEqual([one.text.split()[:2] for one in trace.of_maps], [["mmap", "0x7ffff7ffe000"]])
        self.assertEqual([one.answer for one in trace.steps], ["0x7ffff7ffd000"])
        self.assertIn("heap 0x555555579000\n", trace.text())

    def test_the_list_of_a_fork_is_that_of_the_model(self) -> None:
        text = BEGIN + "7 brk(0x55555557c000) = 0x55555557c000\n7 mprotect(0x55555557a000, 4096, PROT_READ) = 0\n"
        text += "7 munmap(0x55555557b000, 4096) = 0\n"
        text += "7 mmap(NULL, 8192, PROT_READ|PROT_WRITE, MAP_SHARED|MAP_ANONYMOUS, -1, 0) = 0x7ffff7ffd000\n"
        text += "7 mmap(NULL, 8192, PROT_NONE, MAP_PRIVATE|MAP_ANONYMOUS|MAP_GROWSDOWN, -1, 0) = 0x7ffff7ffb000\n"
        text += f"7 mseal(0x7ffff7ffb000, 4096, 0) = 0\n7 fork() = 9\n9 {MAP} = 0x7ffff7ffa000\n"
        importer = importer_of(text)
        trace = importer.trace_of(importer.processes.forked(1))
        read = read_trace(trace.text().encode())
        model = Model(read)
        for line in read.lines[: len(trace.of_maps)]:
            answer(model, line)
        self.assertEqual(model.areas, importer.at_fork["fork1"][0].areas)
        self.assertEqual(model.break_, 0x55555557C000)

    def test_the_ninth_child_has_a_trace_of_its_own(self) -> None:
        text = BEGIN + "".join(f"7 fork() = {9 + n}\n{9 + n} {MAP} = 0x7ffff7ffe000\n" for n in range(9))
        importer = importer_of(text)
        self.assertEqual(sum("fork" in line for line in lines(importer.trace_of(importer.processes.numbered(None)))), 8)
        self.assertNotIn("fork9", importer.in_lines)

    def test_each_program_has_its_lists(self) -> None:
        text = (
            BEGIN
            + f"7 {MAP} = 0x7ffff7ffa000\n"
            + '7 execve("/bin/b", ["b"], 0x7f /* 2 vars */) = -1 ENOENT (No such file)\n'
        )
        text += (
            '7 execve("/bin/b", ["b"], 0x7f /* 2 vars */) = 0\n'
            + f"7 brk(NULL) = 0x555555579000\n7 {MAP} = 0x7ffff7ffa000\n7 exit_group(0) = ?\n"
        )
        other = MAPS.replace("/bin/a", "/bin/b")
        kept = f"# 7 execve\n# 7 begin\n{MAPS}# 7 execve\n{MAPS}# 7 execve\n{MAPS}# 7 begin\n{other}# 7 exit\n{other}"
        spaces = importer_of(text, kept).processes.spaces
        self.assertEqual([space.areas[0].name for space in spaces[1:]], ["/bin/a", "/bin/b"])
        self.assertEqual([space.final[1][0].name for space in spaces[1:] if space.final], ["/bin/a", "/bin/b"])

    def test_all(self) -> None:
        words = ["import", str(self.put("log", self.FORKED))]
        self.assertEqual(vma(*words, "--all", f"{self.top}/all").returncode, 0)
        self.assertEqual(sorted(os.listdir(self.top / "all")), ["exec1.kernel", "exec1.trace"])
        for wrong in (["--most", "-1"], ["--all", "x", "--replies", "y"]):
            self.assertEqual(vma(*words, *wrong).returncode, 2)


class Costs(unittest.TestCase):
    def test_a_log_of_many_files_takes_less_than_two_seconds(self) -> None:
        """As `ls -lR` over 12,000 files has them: statx of each, and an opening of each folder."""
        stat = "STATX_ALL, {stx_mask=STATX_ALL, stx_mode=S_IFREG|0644, stx_ino=1, stx_size=9}) = 0\n"
        text = [BEGIN]
        for at in range(12_000):
            text.append(f'7 statx(AT_FDCWD</srv>, "d/file{at}", AT_SYMLINK_NOFOLLOW, {stat}')
            if at % 10 == 0:
                text.append(f'7 openat(AT_FDCWD, "d{at}", O_RDONLY) = 3</srv/d{at}>\n7 close(3</srv/d{at}>) = 0\n')
        begin = time.process_time()
        made("".join(text))
        self.assertLess(time.process_time() - begin, 2)


class Orders(unittest.TestCase):
    THREADS = BEGIN + "7 clone3({flags=CLONE_VM|CLONE_THREAD}, 88) = 8\n"

    def test_calls_that_ran_at_once(self) -> None:
        text = self.THREADS + f"7 {MAP[:-1]} <unfinished ...>\n8 {MAP[:-1]} <unfinished ...>\n"
        text += "7 <... mmap resumed>) = 0x7ffff7ffd000\n8 <... mmap resumed>) = 0x7ffff7ffe000\n"
        trace = made(text)
        self.assertEqual([step.answer for step in trace.steps][1:], ["0x7ffff7ffe000", "0x7ffff7ffd000"])
        self.assertEqual((trace.moved > 0, trace.different), (True, 0))

    def test_each_call_is_there_once(self) -> None:
        text = self.THREADS + "".join(f"{7 + at % 2} munmap({hex(4096 * at)}, 4096) = 0\n" for at in range(1, 900))
        text = text.replace("7 munmap(0x64000, 4096) = 0", "7 munmap(0x64000, 4096) = -1 EINVAL (Invalid argument)")
        trace = made(text)
        self.assertEqual([step.begin for step in trace.steps], sorted(step.begin for step in trace.steps))
        self.assertEqual((len(trace.steps), trace.moved, trace.different), (900, 0, 1))

    def test_what_no_order_explains_is_told(self) -> None:
        text = self.THREADS + f"7 {MAP} = 0x7ffff7000000\n8 {MAP} = 0x7ffff7ffe000\n"
        self.assertEqual(made(text).different, 1)

    def test_what_makes_room_is_done_late(self) -> None:
        clones = (f"7 clone3({{flags=CLONE_VM|CLONE_THREAD}}, 88) = {pid}\n" for pid in range(8, 23))
        text = BEGIN + "".join(clones) + self.drawn_calls(16, 400)
        trace = made(text)
        self.assertEqual((len(trace.steps), trace.different, trace.is_bounded), (401, 0, False))
        with mock.patch("vmatools.strace.order.MOST_TRIES", -1000):
            self.assertEqual((made(text).different, made(text).is_bounded), (0, False))

    @staticmethod
    def drawn_calls(threads: int, count: int) -> str:
        """Calls of many threads at once: the model answers them in an order that is drawn, and the log doesn't tell it."""
        draw, model = random.Random(1), Model(read_trace(b"vmatrace 1\n"))
        text, now, own = "", dict[int, tuple[Line, str]](), {pid: list[tuple[int, int]]() for pid in range(7, 7 + threads)}
        while count or now:
            pid = draw.choice(list(own))
            if pid not in now and count:
                count -= 1
                if own[pid] and draw.random() < 0.5:
                    words = own[pid].pop()
                    now[pid] = Line(0, 0, "munmap", list(words), None), ""
                    text += f"{pid} munmap({words[0]:#x}, {words[1]} <unfinished ...>\n"
                else:
                    length = 4096 * draw.randrange(1, 9)
                    now[pid] = Line(0, 0, "mmap", [0, length, 1, 0x22, -1, 0], None), ""
                    text += f"{pid} {MAP.replace('4096', str(length))[:-1]} <unfinished ...>\n"
            elif pid in now and not now[pid][1]:
                line = now[pid][0]
                now[pid] = line, answer(model, line)[0][0]
            elif pid in now:
                line, said = now.pop(pid)
                text += f"{pid} <... {line.word} resumed>) = {said}\n"
                if line.word == "mmap":
                    own[pid].append((int(said, 16), line.arguments[1]))
        return text

    def test_the_search_is_bounded(self) -> None:
        calls = [f"{7 + at % 8} {MAP[:-1]} <unfinished ...>\n" for at in range(8)]
        text = BEGIN + "".join(f"7 clone3({{flags=CLONE_VM|CLONE_THREAD}}, 88) = {pid}\n" for pid in range(8, 15))
        for _ in range(60):
            text += "".join(calls) + "".join(f"{7 + at} <... mmap resumed>) = 0x7ffff7000000\n" for at in range(8))
        with mock.patch("vmatools.strace.order.MOST_TRIES", 0):
            trace = made(text)
        self.assertGreater(trace.different or 0, 400)
        self.assertTrue(trace.is_bounded)


class Lists(InFolder):
    def areas(self, text: str) -> list[Area]:
        return read_sections(text, "maps")[0].areas

    def test_top_is_where_the_search_begins(self) -> None:
        self.assertEqual(top_of(self.areas(MAPS)), 0x7FFFF7FFF000)
        unlimited = MAPS.replace("7ffff7ffb000-7ffff7fff000", "155555552000-155555556000")
        self.assertEqual(top_of(self.areas(unlimited)), 0x155555556000)

    def test_what_is_told_and_what_differs(self) -> None:
        run = [area for area in self.areas(MAPS) if area.name != "[vsyscall]"]
        kernel = self.areas(MAPS)
        kernel[1:2] = [kernel[1]._replace(hi=0x7FFFF7FFC000), kernel[1]._replace(lo=0x7FFFF7FFC000, offset=0x32000)]
        kernel[3] = kernel[3]._replace(lo=kernel[3].lo - 8192)
        found = lists.compare(run, kernel)
        self.assertEqual((found.joined, found.apart, found.others), ([0x7FFFF7FFC000], [], []))
        self.assertEqual((len(found.grown), found.above), (1, ["[vsyscall]"]))
        kernel[0] = kernel[0]._replace(name="/bin/a (deleted)")
        self.assertEqual(lists.compare(run, kernel).removed, {"/bin/a"})
        self.assertEqual(lists.compare(run, kernel).others, [])
        kernel[0] = kernel[0]._replace(perms="r-xp")
        self.assertEqual(len(lists.compare(run, kernel).others), 1)
        self.assertEqual(len(lists.compare(run, kernel[1:]).others), 1)

    def test_what_the_kernel_maps_of_its_own(self) -> None:
        """Below the begin of the search its place is held, and above that it is left out; [vsyscall] always."""
        own = "{} r--p 00000000 00:00 0  [vvar]\n{} r-xp 00000000 00:00 0  [vdso]\n"
        maps = MAPS.replace("7ffffffde000-7ffffffff000", "7ffffffce000-7fffffff0000")
        below = own.format("7ffff7ff5000-7ffff7ff9000", "7ffff7ff9000-7ffff7ffb000")
        below = maps.replace("7ffff7ffb000", f"{below}7ffff7ffb000", 1)
        above = own.format("7fffffff0000-7fffffff4000", "7fffffff4000-7fffffff6000")
        above = maps.replace("ffffffffff6", f"{above}ffffffffff6", 1)
        held, left = made(BEGIN, below), made(BEGIN, above)
        self.assertEqual((held.held, left.held), (["[vvar]", "[vdso]"], []))
        self.assertEqual([name for name in held.left_out], ["the area [vsyscall], which lies above user memory"])
        self.assertEqual(
            [name.split(",")[0] for name in left.left_out], ["the area [vvar]", "the area [vdso]", "the area [vsyscall]"]
        )
        self.assertEqual(len(left.of_maps), len(held.of_maps) - 2)
        run = [area for area in self.areas(above) if area.name not in ("[vvar]", "[vdso]", "[vsyscall]")]
        found = lists.compare(run, self.areas(above))
        self.assertEqual((found.own, found.above, found.others), (["[vvar]", "[vdso]"], ["[vsyscall]"], []))

    def test_a_signal_leaves_no_last_list(self) -> None:
        text = BEGIN + "7 fork() = 9\n" + f"9 {MAP} = 0x7ffff7ffe000\n9 +++ killed by SIGKILL +++\n7 exit_group(0) = ?\n"
        processes = importer_of(text).processes
        self.assertEqual([space.killed_by for space in processes.spaces], [None, None, "SIGKILL"])
        self.assertIsNone(processes.spaces[2].final)

    def test_a_call_that_goes_on_after_the_last_list_is_told(self) -> None:
        late = f"7 exit_group(0 <unfinished ...>\n8 {MAP} = 0x7ffff7ffa000\n7 <... exit_group resumed>) = ?\n"
        importer = importer_of(BEGIN + THREAD + late, "# 7 execve\n# 7 begin\n" + MAPS + "# 7 exit\n" + MAPS)
        space = importer.processes.numbered(None)
        self.assertEqual((space.final, space.late), (None, 1))

    def test_a_munmap_that_did_not_return_and_was_done(self) -> None:
        begun = f"7 {MAP} = 0x7ffff7ffa000\n8 munmap(0x7ffff7ffa000, 4096 <unfinished ...>\n"
        ends = "7 exit_group(0) = ?\n8 <... munmap resumed>) = ?\n"
        there = "7ffff7ffa000-7ffff7ffb000 r--p 00000000 00:00 0 \n"
        for last, of_it in ((MAPS, ["1 munmap 0x7ffff7ffa000 4096"]), (MAPS.replace("7ffff7ffb", there + "7ffff7ffb", 1), [])):
            trace = made(BEGIN + THREAD + begun + ends, "# 7 execve\n# 7 begin\n" + MAPS + "# 7 exit\n" + last)
            self.assertEqual(lines(trace)[1:], of_it)

    def test_the_list_of_a_child(self) -> None:
        parent, child = "00010000-00011000 rw-p 00000000 00:00 0 \n", "00020000-00021000 r--p 00000000 00:00 0 \n"
        output = f"L2 t0 v1 = 0x10000\nL3 t0 v1 = child 1 areas 1\nmaps 1\n{parent}child 1 of L3 v1\nmaps 1\n{child}"
        self.assertEqual([area.lo for area in last_list(output, "out")], [0x10000])
        self.assertEqual([area.lo for area in last_list(output, "out", 1)], [0x20000])
        with self.assertRaises(Failure):
            last_list(output, "out", 2)

    def test_a_line_is_written_as_it_was_read(self) -> None:
        for line in MAPS.splitlines():
            area = area_of(line)
            self.assertEqual(area and area.line(), line)

    def test_a_list_alone_goes_on_as_the_process(self) -> None:
        heap = "55555557a000-55555559b000 rw-p 00000000 00:00 0                          [heap]\n"
        live = MAPS.replace("7ffff7ffb000", heap + "7ffff7ffb000", 1)
        made = vma("import", "--maps", str(self.put("maps", live)), check=True).stdout
        more = "0 brk 0\n0 mmap 0 4096 PROT_READ MAP_PRIVATE|MAP_ANONYMOUS -1 0\n0 fault 0x7ffffffddff8 w\n"
        read = read_trace((made + more).encode())
        model = Model(read)
        said = [answer(model, line)[0][0] for line in read.lines][-3:]
        self.assertEqual(said[:2], ["0x55555559b000", "0x7ffff7ffa000"])
        self.assertEqual(said[2], "served 7ffffffdd000-7ffffffff000 rw-p page 0")


class Watching(unittest.TestCase):
    def test_the_filter_lets_all_other_calls_pass(self) -> None:
        """Runs the filter as the kernel does."""
        code = [struct.unpack_from("=HBBI", watching.program(), at) for at in range(0, len(watching.program()), 8)]

        def run(arch: int, number: int, argument: int) -> int:
            data = {0: number, 4: arch, 16: argument & 0xFFFFFFFF, 20: argument >> 32}
            at, value = 0, 0
            while True:
                word, yes, no, constant = code[at]
                if word == watching.RETURN:
                    return int(constant)
                value = data[constant] if word == watching.LOAD else value
                at += 1 + (0 if word == watching.LOAD else yes if value == constant else no)

        for arch, numbers in ((watching.X86_64, (59, 322, 231, 158)), (watching.I386, (11, 358, 252, 243))):
            brk = watching.BRK[arch]
            heard = [number for number in range(500) if run(arch, number, 1) == watching.NOTIFY]
            self.assertEqual(sorted(heard), sorted(numbers))
            self.assertEqual(run(arch, brk, 0), watching.NOTIFY)
            self.assertEqual(run(arch, brk, 1 << 32), watching.ALLOW)
        self.assertEqual(run(0, 59, 0), watching.ALLOW)
