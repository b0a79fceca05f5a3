"""How a tool reads its words, how it tells things, and how it ends."""

from __future__ import annotations

import os
import sys

from .statuses import Failed, Status

TYPE_CHECKING = False
if TYPE_CHECKING:
    from collections.abc import Callable, Sequence
    from typing import NoReturn

STATUSES = (
    ("0", "done"),
    ("2", "the words have no form of this tool"),
    ("3-8", "the program's own status, with its line"),
    ("9", "the system refused something; the path and the cause are told"),
)
SOON = 0.001
"""Seconds until a lost signal is raised once more."""


# ---- what is told


def shown(path: str | bytes) -> str:
    """A path, or any bytes, in one line: as they are if they can be read, else quoted."""
    found = os.fsencode(path)
    try:
        text = found.decode()
    except UnicodeDecodeError:
        text = "\n"
    if text.isprintable() and text and not set('"\\') & set(text) and text.strip() == text:
        return text
    return '"' + "".join(map(quoted_byte, found)) + '"'


def quoted_byte(byte: int) -> str:
    """One byte as the report quotes it."""
    if byte == 10:
        return "\\n"
    if byte in b'"\\':
        return "\\" + chr(byte)
    return chr(byte) if 0x20 <= byte <= 0x7E else f"\\x{byte:02x}"


def below(names: Sequence[bytes]) -> str:
    """A path of names below a folder, as it is told."""
    return shown(b"/" + b"/".join(names))


def many(number: int, one: str, more: str | None = None) -> str:
    """A number of things, in words."""
    return f"{number:,} {one if number == 1 else more or one + 's'}"


def tool_name() -> str:
    """The name of the tool that runs."""
    return os.path.basename(sys.argv[0])


def version(package: str = os.path.dirname(os.path.abspath(__file__))) -> str:
    """The version, from the file VERSION: beside the package where it is installed, or at the top
    of the repository. "unknown" if there is none."""
    for above in ("..", os.path.join("..", "..")):
        try:
            with open(os.path.join(package, above, "VERSION"), encoding="ascii") as it:
                return it.read().strip()
        except (FileNotFoundError, NotADirectoryError):
            continue
    return "unknown"


def print_version() -> NoReturn:
    """Prints the tool's name and the version, and ends with 0."""
    sys.stdout.write(f"{tool_name()} {version()}\n")
    sys.stdout.flush()
    raise SystemExit(0)


def tell(line: str) -> None:
    """Writes a line on standard error. If nobody can read it, the tool goes on."""
    try:
        os.write(2, f"{tool_name()}: {line}\n".encode(errors="surrogateescape"))
    except OSError:
        pass


# ---- the words of a tool


class Word:
    """One option or operand, as it was declared."""

    __slots__ = ("name", "metavar", "help", "several", "least")

    def __init__(
        self, name: str, metavar: str | None, text: str, several: bool = False, least: int = 0
    ) -> None:
        self.name = name
        self.metavar = metavar
        self.help = text
        self.several = several
        self.least = least


class Given:
    """The words that were given. Options are asked for by their names without dashes."""

    def __init__(self, options: dict[str, list[str]], operands: list[str]) -> None:
        self.options = options
        self.operands = operands

    def flag(self, name: str) -> bool:
        """Whether an option without a value was given."""
        return name in self.options

    def text(self, name: str) -> str | None:
        """The value of an option, the last one if it was given twice, or nothing."""
        found = self.options.get(name)
        return found[-1] if found else None

    def several(self, name: str) -> list[str]:
        """All values of an option, in the order of the words."""
        return self.options.get(name, [])

    def number(self, name: str) -> float | None:
        """A number of 0 or more, or nothing. Fails with USAGE if the value is none."""
        text = self.text(name)
        if text is None:
            return None
        try:
            number = float(text)
        except ValueError:
            number = -1.0
        if not 0 <= number < float("inf"):
            raise Failed(Status.USAGE, f"--{name} takes a number of 0 or more, not {shown(text)}")
        return number

    def count(self, name: str, default: int) -> int:
        """A whole number of 0 or more. Fails with USAGE if the value is none."""
        text = self.text(name)
        if text is None:
            return default
        if not (text.isascii() and text.isdigit() and len(text) <= 9):
            raise Failed(
                Status.USAGE, f"--{name} takes a whole number of 0 or more, not {shown(text)}"
            )
        return int(text)


class Words:
    """A tool's words: declare options and operands, then `read`.

    `--help` prints them with the statuses and ends with 0, and so does `--version` with the
    version; words of no form end with USAGE.
    An option's value stands behind it, or behind `=`; `--` ends the options.
    """

    def __init__(
        self, about: str, usage: str, statuses: Sequence[tuple[str, str]] = (), more: str = ""
    ) -> None:
        self.about = about
        self.usage = usage
        self.statuses = sorted((*STATUSES, *statuses), key=lambda it: int(it[0].split("-")[0]))
        self.more = more
        self.options: dict[str, Word] = {}
        self.operands: list[Word] = []
        self.letters: dict[str, str] = {"h": "help"}

    def option(
        self, name: str, metavar: str | None, text: str, several: bool = False, letter: str = ""
    ) -> None:
        """Declares `--name`, with a value if it has a metavar. It comes once, or several times."""
        self.options[name] = Word(name, metavar, text, several)
        if letter:
            self.letters[letter] = name

    def operand(self, name: str, text: str, least: int = 1, several: bool = False) -> None:
        """Declares an operand; only the last one may be several."""
        self.operands.append(Word(name, None, text, several, least))

    def read(self, words: Sequence[str]) -> Given:
        """The words as declared. Raises Failed with USAGE, or ends the tool behind `--help`."""
        options: dict[str, list[str]] = {}
        operands: list[str] = []
        rest = list(words)
        while rest:
            word = rest.pop(0)
            if word == "--":
                operands += rest
                break
            if not word.startswith("-") or word == "-":
                operands.append(word)
                continue
            name, equals, value = self.named(word)
            if name == "help":
                sys.stdout.write(self.help())
                sys.stdout.flush()
                raise SystemExit(0)
            if name == "version":
                print_version()
            found = self.options.get(name)
            if found is None:
                self.refuse(f"{shown(word)}: no option of this tool")
            if found.metavar is None and equals:
                self.refuse(f"--{name} takes no value")
            if found.metavar is not None and not equals:
                if not rest:
                    self.refuse(f"--{name} needs {found.metavar}")
                value = rest.pop(0)
            if name in options and not found.several:
                self.refuse(f"--{name} is given twice")
            options.setdefault(name, []).append(value)
        least = sum(it.least for it in self.operands)
        most = None if any(it.several for it in self.operands) else len(self.operands)
        if len(operands) < least or most is not None and len(operands) > most:
            self.refuse(
                f"{many(len(operands), 'operand')} given; "
                + (f"{least} needed" if len(operands) < least else f"at most {most} taken")
            )
        return Given(options, operands)

    def named(self, word: str) -> tuple[str, str, str]:
        """The name of an option, `=` if a value stands in the word, and that value."""
        if word.startswith("--"):
            return word[2:].partition("=")
        name = self.letters.get(word[1:2], "?")
        return name, "=" if word[2:] else "", word[2:]

    def refuse(self, line: str) -> NoReturn:
        """Ends with USAGE."""
        raise Failed(Status.USAGE, line, f"usage: {self.usage}", "--help tells more")

    def help(self) -> str:
        """What `--help` prints."""
        lines = [f"usage: {self.usage}", "", *self.about.strip().split("\n"), ""]
        for it in self.operands:
            lines.append(f"  {it.name:<22} {it.help}")
        lines.append("")
        for it in self.options.values():
            spelled = f"--{it.name}" + (f" {it.metavar}" if it.metavar else "")
            if len(spelled) > 22:
                lines += [f"  {spelled}", f"  {'':<22} {it.help}"]
            else:
                lines.append(f"  {spelled:<22} {it.help}")
        lines += ["", "exit status:", *(f"  {number:<6} {text}" for number, text in self.statuses)]
        return "\n".join(lines) + "\n" + self.more


# ---- the end


def hold_streams() -> None:
    """Opens what is closed of the standard streams, so that no later file takes its number."""
    for number in (0, 1, 2):
        try:
            os.fstat(number)
        except OSError:
            fd = os.open(os.devnull, os.O_RDONLY if number == 0 else os.O_WRONLY)
            if fd != number:
                os.dup2(fd, number)
                os.close(fd)
            os.set_inheritable(number, True)
    sys.stdin = sys.stdin or open(0, closefd=False)
    sys.stdout = sys.stdout or open(1, "w", closefd=False)
    sys.stderr = sys.stderr or open(2, "w", closefd=False)


def leave(number: int, _frame: object) -> NoReturn:
    """Ends the tool as a signal asks; what it had begun is cleared away first."""
    raise SystemExit(128 + number)


def ask_again(lost: sys.UnraisableHookArgs) -> None:
    """Python drops an exception that comes while it clears an object away. If a signal has raised
    it, a timer raises it once more, as soon as the tool is behind that and holds no signals."""
    from .signals import AGAIN, signal

    ended = lost.exc_value
    if not (isinstance(ended, SystemExit) and isinstance(ended.code, int) and ended.code > 128):
        sys.__unraisablehook__(lost)
        return
    number = ended.code - 128
    signal.signal(AGAIN, lambda _, frame: leave(number, frame))
    signal.setitimer(signal.ITIMER_REAL, SOON)


def take_signals() -> None:
    """SIGTERM, SIGHUP and SIGINT end the tool in order; a file above a limit is an error."""
    from .signals import ENDING, signal

    for number in ENDING:
        if signal.getsignal(number) != signal.SIG_IGN:
            signal.signal(number, leave)
    signal.signal(signal.SIGXFSZ, signal.SIG_IGN)
    sys.unraisablehook = ask_again


def status_of(tool: Callable[[], int | None]) -> int:
    """Runs a tool and answers its status. No exception ends as a status of another meaning."""
    try:
        status = int(tool() or Status.DONE)
        sys.stdout.flush()
        return status
    except Failed as failed:
        for line in failed.lines:
            tell(line)
        return int(failed.status)
    except MemoryError:
        tell("out of memory")
        return int(Status.NO_MEMORY)
    except BrokenPipeError:
        return int(Status.SYSTEM)
    except OSError as error:
        named = error.filename
        where = f"{shown(named)}: " if isinstance(named, (str, bytes)) else ""
        tell(f"{where}{error.strerror or error}")
        return int(Status.SYSTEM)
    except Exception as error:  # a fault of the tool itself, which would end as 1 else
        if os.environ.get("TXFOREST_TRACE"):
            import traceback

            traceback.print_exc()
        tell(f"a fault of this tool: {type(error).__name__}: {error}; TXFOREST_TRACE=1 shows where")
        return int(Status.SYSTEM)


def main(tool: Callable[[], int | None]) -> NoReturn:
    """Runs a tool and ends as it says, at once: to take a large survey apart would take long."""
    hold_streams()
    take_signals()
    status = status_of(tool)
    try:
        sys.stdout.flush()
    except OSError:
        no_output()
        status = status or int(Status.SYSTEM)
    os._exit(status)


def no_output() -> None:
    """Standard output failed: what is left of it goes nowhere."""
    os.dup2(os.open(os.devnull, os.O_WRONLY | os.O_CLOEXEC), 1)
