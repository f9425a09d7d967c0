#!/usr/bin/env python3
"""Holds the sources to this: no call gives up without a cause. An error that says that memory ran out, or that a formatter
or the outside failed, is made in one place: crate text makes its own, text::NoMemory, of what the heap answered to the one
call that asks it for memory. A file that names such an error elsewhere fails."""
import pathlib
import re
import sys

ROOT = pathlib.Path(__file__).resolve().parent.parent
TEXT = "crates/text/src/lib.rt"
# The one place, and all else that crate text may say with these names: imports, the type, and types in signatures.
MAKER = "self.bytes.extend_from_slice(more).map_err(NoMemory)?;"
LAWFUL = [
    MAKER,
    "use std::alloc::{AllocError, Global};",
    "pub struct NoMemory(AllocError);",
    "impl fmt::Display for NoMemory {",
    "impl Error for NoMemory {}",
    "use std::error::Error;",
    "ghost use Rattle.std.specs.IoError.{error_kind};",
    "impl From<NoMemory> for io::Error {",
    "fn from(why: NoMemory) -> io::Error {",
    "io::Error::from(why.0)",
]
SIGNATURE = "Result<Text, NoMemory>"
# In crate text every word that could make one; elsewhere the errors themselves, and what would hide their names.
WORDS_IN_TEXT = re.compile(r"\b(?:NoMemory|Self|Default|\w*Error|AllocFailed)\b")
MAKERS = re.compile(
    r"\b(?:AllocError|AllocFailed|TryReserveError|ErrorKind)\b|\b(?:fmt|io)::Error\b|\bNoMemory\s*[({]|\(NoMemory\)"
    r"|\b(?:alloc|fmt|io)(?:\s+as\b|::\*|::\{[^}]*\b(?:Error\b|self\s+as\b))"
)


def code(source):
    """A source without its comments and what stands in quotes, in which lines keep their numbers."""
    return re.sub(r"""//[^\n]*|'(?:[^'\\]|\\.)'|"(?:[^"\\]|\\.)*\"""", lambda m: "\n" * m.group().count("\n"), source)


def in_text(source):
    """What crate text says with an error's name that is not lawful there, and whether it makes its own just once."""
    if code(source).count(MAKER) != 1:
        yield 0, f"not just one {MAKER}"
    for number, line in enumerate(code(source).split("\n"), 1):
        if line.strip() not in LAWFUL and WORDS_IN_TEXT.search(line.replace(SIGNATURE, "")):
            yield number, line.strip()


def elsewhere(source):
    """What any other file says with an error's name."""
    text = code(source)
    for found in MAKERS.finditer(text):
        yield text.count("\n", 0, found.start()) + 1, found.group()


def main():
    files = sorted((ROOT / "crates").glob("*/src/**/*.rt"))
    failed = []
    for file in files:
        name = str(file.relative_to(ROOT))
        found = in_text(file.read_text()) if name == TEXT else elsewhere(file.read_text())
        failed += [f"{name}:{number}: {what}" for number, what in found]
    for line in failed:
        print(f"causes: an error is made without a cause, or could be: {line}", file=sys.stderr)
    if failed:
        sys.exit(1)
    print(f"causes: of {len(files)} files of sources one makes an error of want of memory, in one place, and none another's")


main()
