"""A file of C as the parser's tree: through the C preprocessor, with this package's headers."""
from __future__ import annotations

import os
import re
import subprocess
from typing import Any, NamedTuple, Optional, Sequence

from romp801 import files
from romp801.compiler.faults import Place, Refused
from romp801.errors import FAILED, Failure

HERE = os.path.dirname(os.path.realpath(__file__))
HEADERS = tuple(os.path.join(HERE, it) for it in ("include", "library"))
DEFINED = ("-D__romp801__=1", "-U__GNUC__", "-D__CHAR_UNSIGNED__=1")
KEYWORDS = frozenset(
    "else return do case goto sizeof const volatile static extern inline unsigned signed int char short long void".split()
)
LIBRARY = frozenset(
    "memchr memcmp memcpy memmove memset strcat strchr strcmp strcpy strlen strncmp strncpy strrchr strstr".split()
)
"""Functions that a program is given where it declares them and has none of its own."""
TYPES = {"int64_t", "uint64_t", "intmax_t", "uintmax_t", "int_fast64_t", "uint_fast64_t"}
"""Types that stdint.h has elsewhere."""
JOINED = re.compile(r"""'(?:\\.|[^'\\\n])*'|"((?:\\.|[^"\\\n])*)"(\s*(?:#[^\n]*\n\s*)*(?="))?""")
ESCAPED = re.compile(r"\\(?:x([0-9a-fA-F]{1,2})(?![0-9a-fA-F])|([0-7]{1,3})|[^x0-7])")
SPOT = re.compile(r"(?P<file>.*?):(?P<line>\d+):(?P<column>\d+): (?:before: )?(?P<why>.*)", re.S)


def preprocessed(path: str, options: Sequence[str]) -> str:
    """The text of a file without its directives."""
    files.read_bytes(path)
    folders = [word for it in HEADERS for word in ("-isystem", it)]
    words = ["-nostdinc", "-undef", "-std=c11", *DEFINED, *options, *folders, path]
    try:
        done = subprocess.run(["cpp", *words], stdin=subprocess.DEVNULL, capture_output=True, check=False)
    except OSError as error:
        raise Failure(f"there is no cpp, the C preprocessor, which the package gcc has: {error.strerror}") from error
    if done.returncode:
        raise _of_cpp(done.stderr.decode(errors="replace").strip())
    return JOINED.sub(_joined, done.stdout.decode("latin-1"))


def _joined(found: "re.Match[str]") -> str:
    """A string whose numbers of bytes have three digits each, so that no string that follows goes on with them; any
    other literal as it is."""
    def whole(it: "re.Match[str]") -> str:
        value = int(it[1], 16) if it[1] else int(it[2], 8) if it[2] else -1
        return it[0] if value < 0 else f"\\{value:03o}"

    return found[0] if found[2] is None else f'"{ESCAPED.sub(whole, found[1])}"{found[2]}'


def _of_cpp(said: str) -> Refused:
    """What the preprocessor refuses, in a line."""
    found = re.search(r"^(?P<file>.*?):(?P<line>\d+):(?P<column>\d+): (?:fatal )?error: (?P<why>.*)$", said, re.M)
    if found is None:
        return Refused(None, said)
    name, is_absent, _ = found["why"].partition(": No such file")
    there = sorted(it for folder in HEADERS for it in os.listdir(folder) if it.endswith(".h"))
    why = f"there is no header {name}; those that come along are {', '.join(there)}" if is_absent else found["why"]
    return Refused(Place(found["file"], int(found["line"]), int(found["column"])), why)


def library() -> str:
    """The file of the functions of string.h."""
    return os.path.join(HERE, "library", "string.c")


def tree_of(path: str, options: Sequence[str], kept: Optional[set[str]] = None) -> Any:
    """The tree of a file; with `kept` only these of its functions."""
    try:
        from pycparser import c_parser  # type: ignore[import]
    except ImportError as error:
        raise Failure(
            "there is no pycparser, the parser of C, which the package python3-pycparser has", FAILED
        ) from error
    text = preprocessed(path, options)
    errors: tuple[type[Exception], ...] = (getattr(c_parser, "ParseError", SyntaxError), AssertionError)
    parser = c_parser.CParser()
    try:
        tree = parser.parse(text, path)
        if kept is not None:
            tree.ext = [it for it in tree.ext if type(it).__name__ != "FuncDef" or it.decl.name in kept]
        return tree
    except errors as error:
        raise _of_parser(str(error), path, _Reached.of(parser.clex)) from error


class _Reached(NamedTuple):
    """How far a lexer has read: the text, where in it, and on which line of the source."""

    text: str
    at: int
    line: int

    @classmethod
    def of(cls, lexer: Any) -> _Reached:
        """That of a lexer of pycparser 2, or of 3."""
        inner = getattr(lexer, "lexer", lexer)
        found = [getattr(inner, it, getattr(inner, f"_{it}", None)) for it in ("lexdata", "lexpos", "pos", "lineno")]
        return cls(found[0] or "", next((it for it in found[1:3] if it is not None), 0), found[3] or 0)


def _of_parser(said: str, path: str, reached: _Reached) -> Refused:
    """What the parser refuses, and where; it doesn't always tell, but then it has read no further than that."""
    data, at = reached.text, reached.at
    found = SPOT.match(said)
    if found is None:
        place = Place(path, reached.line, max(1, at - data.rfind("\n", 0, at) - 1))
        why = said.rpartition(": ")[2]
        return Refused(place, f"this is no C that the parser knows: {why[:1].lower()}{why[1:]}")
    place, word = Place(found["file"], int(found["line"]), int(found["column"])), found["why"]
    before = re.search(r"(\w+)\s+$", data[: max(0, data.rfind(word, 0, at))])
    if before is not None and before[1] in TYPES:
        return Refused(place, f"{before[1]}: integers of 64 bits aren't compiled")
    if before is not None and re.fullmatch(r"[A-Za-z_]\w*", word) and before[1] not in KEYWORDS:
        return Refused(place, f"this is no C that the parser knows, at {word}: {before[1]} isn't declared as a type")
    is_word = " " not in word
    said = word if is_word else f"{word[:1].lower()}{word[1:]}"
    return Refused(place, f"this is no C that the parser knows{', at' if is_word else ':'} {said}")
