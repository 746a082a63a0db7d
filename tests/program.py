"""What the scripts of this folder share: the program that is tried, runs of one process each, and the form of an answer."""

from __future__ import annotations

import importlib.machinery
import importlib.util
import os
import re
import signal
import subprocess
import sys
from dataclasses import dataclass
from pathlib import Path

sys.dont_write_bytecode = True

TOP = Path(__file__).resolve().parent.parent
SECONDS = 60
NO_MEMORY = b"refused 14 memory\n"


@dataclass(frozen=True)
class Ran:
    """What a run wrote to standard output, and its status, which is below 0 where a signal ended it. `told` is what the shim of
    `tests/faults` said."""

    written: bytes
    status: int
    told: bytes = b""


def built_program() -> Path:
    """The path of the program, after the script that builds it where it is old."""
    document = (TOP / "examples/semion.txt").read_bytes()
    subprocess.run([TOP / "qdouble", "check"], input=document, stdout=subprocess.DEVNULL, check=True)
    return TOP / "crates/qdouble/out/qdouble"


def the_program(path: str | None) -> Path:
    """The program at this path, or what the script builds; it ends here where there is none."""
    program = Path(path).resolve() if path else built_program()
    if not os.access(program, os.X_OK):
        sys.exit(f"{Path(sys.argv[0]).name}: there is no program at {program}")
    return program


def module_at(path: Path, name: str):
    """A script read as a module, whatever its name ends with."""
    loader = importlib.machinery.SourceFileLoader(name, str(path))
    spec = importlib.util.spec_from_loader(name, loader)
    module = importlib.util.module_from_spec(spec)
    sys.modules[name] = module
    loader.exec_module(module)
    return module


class Runs:
    """Runs of a program, one after the other. What it reads and what it writes are files in memory."""

    def __init__(self, program: Path, environment: dict | None = None, seconds: float = SECONDS):
        self.program, self.seconds = str(program), seconds
        self.environment = {**os.environ, **(environment or {})}
        self.read, self.write, self.tell = (os.memfd_create(name) for name in ("read", "write", "tell"))
        self.actions = [(os.POSIX_SPAWN_DUP2, file, at) for file, at in ((self.read, 0), (self.write, 1), (self.tell, 3))]

    def run(self, words: list, text: bytes, more: dict | None = None) -> Ran:
        """One run with these words and this input, and with these variables besides."""
        for file, content in ((self.read, text), (self.write, b""), (self.tell, b"")):
            os.ftruncate(file, 0)
            os.pwrite(file, content, 0)
            os.lseek(file, 0, os.SEEK_SET)
        environment = {**self.environment, **more} if more else self.environment
        child = os.posix_spawn(self.program, [self.program, *words], environment, file_actions=self.actions)
        status = self.status_of(child)
        return Ran(self.all_of(self.write), status, self.all_of(self.tell))

    def status_of(self, child: int) -> int:
        """The status of a process when it has ended. One that takes too long is ended."""
        signal.signal(signal.SIGALRM, lambda *_: os.kill(child, signal.SIGKILL))
        signal.setitimer(signal.ITIMER_REAL, self.seconds)
        status = os.waitstatus_to_exitcode(os.waitpid(child, 0)[1])
        signal.setitimer(signal.ITIMER_REAL, 0)
        return status

    @staticmethod
    def all_of(file: int) -> bytes:
        return os.pread(file, os.fstat(file).st_size, 0)


# ---------------------------------------------------------------------- the form of an answer


VALUE = rb"(?:0|-?[1-9][0-9]*(?:z[1-9][0-9]*)?(?:[-+][1-9][0-9]*(?:z[1-9][0-9]*)?)*)"
WORD = rb"(?:qdouble|1|order|number|table|roots|omega|form|element|characters|conductor|value|end|nothing|report|style|cocycle|gauge)"
PART = rb"(?:unitary|twist|central|product|sum|column|full|s|tensor|inner|indicator|word|square|triple|gauge|galois)"
CLAUSE = rb"(?:degree|unitary|central|product|sum|column)"

# The lines of refusals, as docs/REFUSALS.md has them; each # is a number, each $ a value.
LINES = [
    rb"2 usage", rb"12 read", rb"6 bytes 4194304", rb"14 memory",
    rb"3 syntax # " + WORD, rb"3 wide #", rb"3 section #", rb"6 order #", rb"6 roots #", rb"6 cocycles #",
    rb"4 entry # #", rb"4 identity", rb"4 inverse #", rb"4 associativity # # #", rb"4 action #",
    rb"5 normal # # #", rb"5 cocycle # # # #", rb"5 gauge # #",
    rb"6 conductor #", rb"6 stated # needed #", rb"6 simples #", rb"6 size #", rb"6 label # # #",
    rb"7 range #", rb"7 unlisted #", rb"7 divides # #", rb"7 root # #", rb"7 power # #",
    rb"8 degree # # #", rb"8 multiplicity # # # # #",
    rb"9 blocks # #", rb"9 representative # # #", rb"9 width # # # #",
    rb"9 count # # #", rb"9 " + CLAUSE + rb" # # # # \$ \$", rb"9 twist # # \$", rb"9 vacuum #",
    rb"10 whole # # # \$", rb"11 overflow " + PART + rb" # # # #", rb"16 past #",
]
REFUSAL = re.compile(rb"refused (" + b"|".join(LINES).replace(b"#", rb"(?:0|[1-9][0-9]*)").replace(rb"\$", VALUE) + rb")(?: section [0-9]+)?\n")
REPORT_LINE = re.compile(
    rb"(?:group order|cocycle roots|class|simples|conductor|modulus|simple|chi|S|N|indicators|nu|end|section|moved|word|W|relation|genus"
    rb"|subcat|member|centraliser|central|galois|sample|qdouble|order|table|roots|omega|characters|row|[0-9]+)(?: [-+0-9a-zA-Z]+)*")


def fault_of_form(ran: Ran) -> str:
    """What is wrong with the form of an answer of a run whose streams are good: a refusal is one line that names its status; a report is
    lines of known words, of which the last is `end`, or one line of JSON; nothing else is written."""
    if ran.status < 0:
        return f"signal {signal.Signals(-ran.status).name}"
    if ran.status:
        if not REFUSAL.fullmatch(ran.written):
            return "no line of a refusal"
        return "" if int(ran.written.split()[1]) == ran.status else "another status than that of the line"
    if ran.written.startswith(b"{"):
        return "" if ran.written.endswith(b"}\n") and ran.written.count(b"\n") == 1 else "no line of JSON"
    if not ran.written.endswith(b"\nend\n"):
        return "no report"
    return "" if all(REPORT_LINE.fullmatch(line) for line in ran.written[:-1].split(b"\n")) else "no line of a report"
