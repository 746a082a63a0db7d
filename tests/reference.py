"""The independent program as a function. It keeps what it found of words without a document, of a document, as it was read, and of a table
of rows, since many documents of `tests/storm` differ from others in comments and blanks, or in the rows of one class alone."""

from __future__ import annotations

import hashlib
import marshal
from pathlib import Path

from program import TOP, module_at

FOLDER = TOP.parent / "shared/oracle"
MOST_KEPT = 50_000


class Known(Exception):
    """The answer to the same words and to a document that reads the same is kept."""


class Kept(dict):
    """What was found, of so many things at most: past that all is forgotten."""

    def __setitem__(self, key, found):
        if len(self) >= MOST_KEPT:
            self.clear()
        super().__setitem__(key, found)


def key_of(*parts) -> bytes:
    """A short key of numbers, and of lists of them, to any depth."""
    return hashlib.blake2b(marshal.dumps(parts, 2), digest_size=20).digest()


class Reference:
    """What is to be written, and the status, for the words of a command and a text. Its two steps that take long are replaced by ones that
    look first whether the same was asked before; all else is done by the independent program, in its own order."""

    def __init__(self, module):
        self.module, self.parse, self.check_table = module, module.parse, module.check_table
        module.parse, module.check_table = self.parse_anew, self.check_anew
        self.answers, self.tables = Kept(), Kept()
        self.words = self.key = None

    def __call__(self, words: list, text: bytes) -> tuple:
        self.words = tuple(words)
        self.key = None if text else (self.words, b"")
        if self.key in self.answers:
            return self.answers[self.key]
        try:
            answer = self.module.run(words, lambda: text)
        except Known:
            return self.answers[self.key]
        if self.key:
            self.answers[self.key] = answer
        return answer

    def parse_anew(self, *of):
        """The document, unless the answer to it is kept."""
        document = self.parse(*of)
        self.key = self.words, key_of(vars(document))
        if self.key in self.answers:
            raise Known
        return document

    def check_anew(self, ring, twist, rows: list):
        """Refuses rows as `check_table` does, which depends on these parts alone."""
        values = [[ring.values[value] for value in row] for row in rows]
        is_at_identity = twist.a == twist.w.group.e
        key = key_of(ring.K, twist.N, twist.a, is_at_identity, twist.elements, twist.mul, twist.th, values)
        if key not in self.tables:
            self.tables[key] = self.refusal_of(ring, twist, rows)
        if self.tables[key]:
            raise self.module.Refused(*self.tables[key])

    def refusal_of(self, ring, twist, rows: list) -> tuple:
        """What `check_table` refuses, as a status and words; nothing where it accepts."""
        try:
            self.check_table(ring, twist, rows)
        except self.module.Refused as refused:
            return refused.status, *refused.words
        return ()


def the_reference(folder: str | Path, versions: int) -> Reference | None:
    """The independent program in this folder, or None where it is missing. It reads documents up to that version."""
    file = Path(folder) / "qdouble_ref.py"
    if not file.is_file():
        return None
    module = module_at(file, "qdouble_ref")
    if versions == 1:
        module.BOTH_VERSIONS = ()    # the commands that read version 2 as well
    return Reference(module)
