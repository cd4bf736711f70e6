#!/usr/bin/env python3
"""Answers as the program does, before it is proved: `rt try` compiles its sources with run-time checks and runs them once.

usage: tools/unproved.py [OPTIONS] [FIRST SECOND]

tools/bddcheck.sh calls it when the program is not built, or older than a source. The report, the faults and the status 0 to 3 are those
of the program. Two lines on standard error say first that this is not the proved program, and how to build that. `--help` and `--version`
by themselves are answered at once, from the texts of their sources.

`rt try` gives the program another working folder, and standard input as a file. So each path becomes the path of a link in a folder
of this call, and the faults name the caller's path again. A path that leads to an open file of this process, such as those of a
shell's <(..), leads there by the number of the process. `rt` takes no lock for this, so several calls and a build can run at once.

Status 4: no answer, and one line on standard error that says why: `rt` is missing, a file was to be written, the report is over
1 MiB, the run needs more time than it has here, a run-time check failed, or there is no room for temporary files. If the sources
do not compile, the compiler's own lines come before that line.
"""
from __future__ import annotations

import contextlib
import ctypes
import os
import pathlib
import re
import shutil
import signal
import subprocess
import sys
import tempfile
from typing import NoReturn

TOP = pathlib.Path(__file__).resolve().parent.parent
NO_ANSWER = 4
# The options that take a value, and those of them whose value is the path of a file that is read.
VALUED = "--match --pairs --order --order-file --given --only --share --explain --vcd --workers --limit --memory --seconds --difference --format --assignment".split()
READ = ("--order-file", "--pairs", "--given")
# Options by which no netlist is read.
ASKING = ("-h", "--help", "-V", "--version")
# The sources with the texts of --help and --version, and these texts. Both are plain strings, of which only the version's has an escape.
SOURCES = TOP / "crates" / "command_line" / "src"
HELP = re.compile(r'^pub\(crate\) static HELP: &str = "\\\n([^"\\]*)";$', re.M)
VERSION = re.compile(r'^static VERSION_LINE: &str = "([^"\\]*)\\n";$', re.M)
# What `rt try` gives a program of its standard input.
MOST_INPUT = 64 << 20
# How long the compiled sources may run.
SECONDS = 300
# What the compiled sources and their object code need of the temporary folder.
BYTES_OF_A_TRY = 100 << 20
END_WITH_PARENT = 1
LIBC = ctypes.CDLL(None)


def say(text: str) -> None:
    with contextlib.suppress(OSError):
        os.write(2, f"bddcheck.sh: {text}\n".encode(errors="surrogateescape"))


def time_of_a_build() -> str:
    processors = len(os.sched_getaffinity(0))
    much = "an hour or more" if processors >= 4 else "two hours or more" if processors >= 2 else "three hours or more"
    return f"{much} on the {processors} processor{'s' * (processors > 1)} here"


def way_to_build() -> str:
    return f"tools/build.py proves and builds the program, in {time_of_a_build()}"


def text_asked_for(arguments: list[str]) -> bytes | None:
    """The text that --help or --version prints, if it is the only argument and its source has the text in the usual form."""
    if arguments in (["-h"], ["--help"]):
        found = HELP.search((SOURCES / "help.rt").read_text(encoding="utf-8"))
        return found[1].encode() if found else None
    if arguments in (["-V"], ["--version"]):
        found = VERSION.search((SOURCES / "reading.rt").read_text(encoding="utf-8"))
        return found[1].encode() + b"\n" if found else None
    return None


class NoAnswer(Exception):
    """Why there is no answer from the sources."""


class Asked:
    """The arguments of a call, with a link in place of each path, and whether they ask for standard input."""

    def __init__(self, arguments: list[str], place: str) -> None:
        if not all(map(is_text, arguments)):
            raise NoAnswer(f"an argument is not valid UTF-8, and the unproved sources take no such argument; {way_to_build()}")
        self.place = place
        self.paths: dict[bytes, bytes] = {}
        self.arguments: list[str] = []
        self.texts: list[str] = []
        self.asks = self.writes = False
        option, is_ended = None, False
        for argument in arguments:
            if option:
                self.arguments.append(self.link(argument) if option in READ else argument)
                option = None
            elif is_ended or argument == "-" or not argument.startswith("-"):
                self.texts.append(argument)
                self.arguments.append(argument if argument == "-" else self.link(argument))
            else:
                name, equals, value = argument.partition("=")
                is_ended = argument == "--"
                option = name if name in VALUED and not equals else None
                self.asks = self.asks or argument in ASKING
                self.writes = self.writes or name == "--vcd"
                self.arguments.append(f"{name}={self.link(value)}" if equals and name in READ else argument)

    def link(self, path: str) -> str:
        """The path of a link to what the caller's path names. An empty argument, which can name no file, stays as it is."""
        if not path:
            return path
        link = f"{self.place}/{len(self.paths)}-"
        os.symlink(followed(path), link)
        self.paths[link.encode()] = path.encode()
        return link

    def wants_input(self) -> bool:
        return not self.asks and ("-" in self.texts or not self.texts)

    def named(self, said: bytes) -> bytes:
        """What was said, with the caller's paths in place of the links."""
        for link, path in self.paths.items():
            said = said.replace(link, path)
        return said


def is_text(argument: str) -> bool:
    try:
        argument.encode()
        return True
    except UnicodeEncodeError:
        return False


def followed(path: str) -> str:
    """The path from the root on. If it leads to an open file of this process, that file's path by the number of the process."""
    path = os.path.join(os.getcwd(), path)
    at = path
    for _ in range(40):
        folder, name = os.path.split(at)
        folder = os.path.realpath(folder)
        if folder == f"/proc/{os.getpid()}/fd":
            return f"{folder}/{name}"
        if not os.path.islink(f"{folder}/{name}"):
            break
        at = os.path.join(folder, os.readlink(f"{folder}/{name}"))
    return path


def take_input(to: str) -> None:
    """Writes standard input to a file, all of it, since `rt try` does not wait for a slow writer."""
    much = 0
    with open(to, "wb") as file:
        while True:
            try:
                taken = os.read(0, 1 << 20)
            except OSError as error:
                raise NoAnswer(f"standard input cannot be read ({error.strerror})") from error
            much += len(taken)
            if much > MOST_INPUT:
                raise NoAnswer(
                    f"standard input has more than {MOST_INPUT >> 20} MiB, which the unproved sources do not take; {way_to_build()}"
                )
            if not taken:
                return
            file.write(taken)


def end_with_parent() -> None:
    LIBC.prctl(END_WITH_PARENT, signal.SIGTERM)


def tried(arguments: list[str], given: str, place: str) -> tuple[bytes, bytes]:
    """What `rt try` writes to standard output and to standard error on these arguments."""
    environment = {**os.environ, "TMPDIR": place}
    command = ["rt", "try", "--seconds", str(SECONDS), "--", *arguments]
    with open(given, "rb") as stdin, open(f"{place}/report", "wb+") as out, open(f"{place}/said", "wb+") as err:
        child = subprocess.Popen(
            command, cwd=TOP / "crates" / "bddcheck", stdin=stdin, stdout=out, stderr=err, env=environment, preexec_fn=end_with_parent
        )
        try:
            child.wait()
        except BaseException:
            child.terminate()
            with contextlib.suppress(subprocess.TimeoutExpired):
                child.wait(20)
            raise
        out.seek(0)
        err.seek(0)
        return out.read(), err.read()


# The last lines that `rt try` writes after what the program has written, and those before it.
AFTER = re.compile(rb"(?:^(?:checked|interpreter|races): .*\n)*^run=.*\n\Z", re.M)
BEFORE = re.compile(rb"\A(?:^rt: .*\n)+", re.M)
# The last line of `rt`, if the system refuses it a file.
OF_SYSTEM = re.compile(rb"^OSError: \[Errno \d+\] ([^:\n]+).*\n\Z", re.M)
ENDED = re.compile(rb"^run=ended status=([0-3]) .*proved=no\n\Z", re.M)


def answered(asked: Asked, out: bytes, err: bytes) -> tuple[int, bytes, bytes]:
    """The status of the program, its report and what it said, or why there is no answer."""
    after = AFTER.search(err)
    ended = ENDED.search(err)
    if after and ended:
        return int(ended[1]), out, asked.named(BEFORE.sub(b"", err[: after.start()]))
    raise NoAnswer(why_not(asked, err))


def why_not(asked: Asked, err: bytes) -> str:
    if b"No space left on device" in err or room_in(asked.place) < 1 << 20:
        return f"there is no room for temporary files in {os.path.dirname(asked.place)}"
    fault = OF_SYSTEM.search(err)
    if fault:
        return f"temporary files cannot be written in {os.path.dirname(asked.place)} ({fault[1].decode()})"
    if b"\nchecked: no-answer: the program wrote more than" in err:
        return f"the report is over 1 MiB, the most that the unproved sources can print; {way_to_build()}"
    if b"\nchecked: no-answer: the program did not end" in err:
        return f"the unproved sources, which are many times slower, have not answered within {SECONDS} seconds; {way_to_build()}"
    write(2, asked.named(err))
    if b"\nrun=fault " in err:
        return f"a run-time check of the unproved sources failed, as the lines above say; {way_to_build()}"
    return "`rt try` did not run the sources, as the lines above say"


def room_in(folder: str) -> int:
    found = os.statvfs(folder)
    return found.f_bavail * found.f_frsize


def answer(arguments: list[str], place: str) -> int:
    if room_in(place) < BYTES_OF_A_TRY:
        raise NoAnswer(f"there is no room for temporary files in {os.path.dirname(place)}: {BYTES_OF_A_TRY >> 20} MiB are needed")
    asked = Asked(arguments, place)
    if asked.writes:
        raise NoAnswer(
            "--vcd writes a file, which the unproved sources cannot: tools/vcd.py makes the same VCD from the report of a call without"
            f" --vcd, as tools/vcd.py --help says; {way_to_build()}"
        )
    given = os.devnull
    if asked.wants_input():
        given = f"{place}/input"
        take_input(given)
    say(
        "the program is not built, so this answer comes from its sources before their proof, by a build with run-time checks: a call takes"
        " about a minute on an idle machine, much longer with large netlists, some two processors and up to 4 GB of memory, so make one"
        " call at a time"
    )
    say(f"{way_to_build()}; do that first for more than a try")
    status, out, said = answered(asked, *tried(asked.arguments, given, place))
    write(2, said)
    if not write(1, out):
        write(2, b"bddcheck: report: cannot be written\n")
        return 3
    return status


def write(to: int, text: bytes) -> bool:
    """Whether all of a text could be written."""
    try:
        while text:
            text = text[os.write(to, text) :]
        return True
    except OSError:
        return False


def stopped(number: int, _: object) -> NoReturn:
    sys.exit(128 + number)


def main() -> int:
    for number in (signal.SIGINT, signal.SIGTERM, signal.SIGHUP):
        signal.signal(number, stopped)
    if not shutil.which("rt"):
        say("the program is not built, and the command `rt`, which builds it, is not found: take a release archive, which needs no `rt`")
        return NO_ANSWER
    text = text_asked_for(sys.argv[1:])
    if text:
        return 0 if write(1, text) else 3
    try:
        place = os.path.abspath(tempfile.mkdtemp(prefix="bddcheck-"))
    except OSError as error:
        say(f"there is no folder for temporary files ({error.strerror or error}); {way_to_build()}")
        return NO_ANSWER
    try:
        return answer(sys.argv[1:], place)
    except NoAnswer as why:
        say(str(why))
    except OSError as error:
        say(f"temporary files cannot be written in {os.path.dirname(place)} ({error.strerror})")
    finally:
        shutil.rmtree(place, ignore_errors=True)
    return NO_ANSWER


if __name__ == "__main__":
    sys.exit(main())
