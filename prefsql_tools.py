"""What the Python scripts beside `prefsql` share: how they refuse, names, the tokens of a script, and calls of prefsql."""
import argparse
import re
import signal
import subprocess
import sys
import unicodedata
from collections.abc import Callable, Iterable
from pathlib import Path
from typing import NoReturn

TOP = Path(__file__).resolve().parent
MOST_BYTES = 8_388_608
MOST_ROWS = 100_000
MOST_COLUMNS = 64
MOST_CHARACTERS = 64
MOST_DIGITS = 18
RESERVED = frozenset(
    "AND AROUND AS ASC BETWEEN BUT BY CASCADE CASE DESC DISTANCE DISTINCT DUAL ELSE END EXISTS EXPLICIT FROM GROUPING "
    "HIGHEST IN IS LAYERED LEVEL LOWEST NOT NULL ONLY OR ORDER OTHERS PREFERRING REGULAR ROUNDS SELECT THEN TOP TRIVIAL "
    "WHEN WHERE".split()
)
NAME = re.compile(r"[A-Za-z][A-Za-z0-9_]{0,63}")
# a comment, space, a name in quotes, a text, a name or word, a number, a symbol
TOKEN = re.compile(
    r"""--[^\n]*|\s+|"(?:[^"]|"")*"|'(?:[^']|'')*'|[A-Za-z_][A-Za-z0-9_]*|[0-9]+|<>|<=|>=|.""", re.DOTALL
)


class Refused(Exception):
    """Why a run ends: the line for standard error, and the status."""

    def __init__(self, line: str, status: int = 1) -> None:
        super().__init__(line)
        self.line = line
        self.status = status


class Parser(argparse.ArgumentParser):
    """Reads the words of a command. Of words that are not accepted it tells in one line."""

    def __init__(self, **settings: object) -> None:
        super().__init__(allow_abbrev=False, formatter_class=argparse.RawDescriptionHelpFormatter, **settings)

    def error(self, message: str) -> NoReturn:
        raise Refused(f"{self.prog}: {message} (see {self.prog} --help)", 2)


def finish(main: Callable[[], None], program: str) -> NoReturn:
    """Runs a script and ends with its status: 0, or that of a refusal, whose line goes to standard error."""
    signal.signal(signal.SIGINT, signal.SIG_DFL)
    try:
        main()
        status = 0
    except Refused as refused:
        print(refused.line, file=sys.stderr)
        status = refused.status
    except OSError as error:
        print(f"{program}: {error.filename or 'a temporary file'}: {error.strerror}", file=sys.stderr)
        status = 1
    sys.exit(status)


def write_out(pieces: Iterable[bytes], program: str) -> None:
    """Writes bytes to standard output, to its end."""
    if sys.stdout is None:
        raise Refused(f"{program}: standard output is closed")
    try:
        # (file 1 itself, so that nothing waits in a buffer where it fails)
        with open(1, "wb", closefd=False) as out:
            for piece in pieces:
                out.write(piece)
    except OSError as error:
        raise Refused(f"{program}: standard output could not be written: {error.strerror}") from None


def one_line(text: str) -> str:
    """Gives what a program said as one line."""
    return "; ".join(line.strip() for line in text.splitlines() if line.strip())


def csv_line(cells: Iterable[str]) -> str:
    """Writes a record as `prefsql` writes it."""
    line = ",".join('"' + cell.replace('"', '""') + '"' if re.search('[,"\r\n]', cell) else cell for cell in cells)
    return (line or '""') + "\n"


def regular_name(said: str, place: int) -> str:
    """Makes a column's name one that a table file takes: capitals, digits and `_`, marks of letters left off."""
    if NAME.fullmatch(said):
        return said.upper()
    letters = unicodedata.normalize("NFKD", said.upper())
    plain = "".join(letter for letter in letters if not unicodedata.combining(letter)).upper()
    name = re.sub("[^A-Z0-9]+", "_", plain).strip("_")
    if not name:
        return f"COLUMN_{place}"
    return (name if name[0].isalpha() else "C_" + name)[:MOST_CHARACTERS]


def regular_names(said: Iterable[str], reserved: frozenset[str] = RESERVED) -> list[str]:
    """Makes names regular, and tells them apart: `ORDER` becomes `ORDER_`, and a second `A` becomes `A_2`."""
    names: list[str] = []
    taken: set[str] = set()
    for place, own in enumerate(said, 1):
        base = regular_name(own, place)
        name = base = base + "_" if base in reserved else base
        number = 1
        while name in taken:
            number += 1
            name = f"{base[: MOST_CHARACTERS - len(str(number)) - 1]}_{number}"
        taken.add(name)
        names.append(name)
    return names


def tokens(text: str) -> list[str]:
    """Cuts a script into its tokens. Spaces and comments between them are one space each."""
    found = TOKEN.findall(text)
    return [" " if token.isspace() or token.startswith("--") else token for token in found]


def split(parts: list[str], separator: str) -> list[list[str]]:
    """Cuts a list of tokens at a separator that stands in no parentheses."""
    found: list[list[str]] = [[]]
    depth = 0
    for token in parts:
        depth += (token == "(") - (token == ")")
        if token == separator and depth == 0:
            found.append([])
        else:
            found[-1].append(token)
    return found


def statements(text: str) -> list[list[str]]:
    """Gives the tokens of each statement of a script."""
    return [part for part in split(tokens(text), ";") if any(token != " " for token in part)]


def name_of(token: str) -> str:
    """Gives the name that a token writes, as prefsql reads it."""
    return token[1:-1].replace('""', '"') if token.startswith('"') else token.upper()


def quoted(name: str) -> str:
    """Writes a name in double quotes."""
    return '"' + name.replace('"', '""') + '"'


def make_ready(program: str) -> None:
    """Has prefsql built where it is not, which it says on standard error itself."""
    with subprocess.Popen([TOP / "prefsql"], stdin=subprocess.DEVNULL, stderr=subprocess.PIPE) as call:
        for line in call.stderr or ():
            if not line.startswith(b"usage: prefsql "):
                sys.stderr.write(line.decode(errors="replace"))
    if call.returncode != 2:
        raise Refused(f"{program}: prefsql could not be built")


def prefsql(program: str, command: str, words: list[str], script: bytes) -> str:
    """Gives what a command of prefsql prints, or refuses with its line."""
    done = subprocess.run([TOP / "prefsql", command, *words], input=script, capture_output=True)
    if done.returncode == 0:
        return done.stdout.decode()
    said = one_line(done.stderr.decode(errors="replace"))
    if done.returncode == 1 and said.startswith("error E"):
        raise Refused(said)
    if done.returncode == 2:
        raise Refused(f"{program}: the words for prefsql are not accepted: {said}", 2)
    reasons = {5: "memory ran out", 6: "a table file could not be loaded"}
    raise Refused(f"{program}: {reasons.get(done.returncode) or said or 'prefsql ended early'}")


def read_script(program: str) -> bytes:
    """Takes the script from standard input."""
    if sys.stdin is None:
        raise Refused(f"{program}: standard input is closed, and the script is read from it")
    try:
        return sys.stdin.buffer.read()
    except OSError as error:
        raise Refused(f"{program}: standard input could not be read: {error.strerror}") from None
