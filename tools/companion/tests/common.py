"""What several tests share."""
import io
import pathlib
from typing import Tuple

from ..accept import accept
from ..faults import Fault, place
from ..recheck import recheck

TOP = pathlib.Path(__file__).resolve().parents[3]
EXAMPLES = TOP / "examples"
DOCS = TOP / "docs"


def refusal(script: str) -> Tuple[str, int, int, str]:
    """The line of a script's refusal, its line and column, and its rule."""
    text = script.encode("latin-1")
    try:
        accept(text)
    except Fault as fault:
        return (fault.line(), *place(text, fault.at), fault.rule)
    return ("accepted", 0, 0, "")


def checked(output: bytes) -> Tuple[int, str, str]:
    """The status of a check, what it writes and what it says."""
    out, said = io.StringIO(), io.StringIO()
    status = recheck(output, out, said)
    return status, out.getvalue(), said.getvalue()


def stored(name: str) -> Tuple[bytes, int]:
    """The stored output of an example, and the status of the run."""
    text = (EXAMPLES / f"{name}.answer").read_bytes()
    output, _, status = text.rstrip(b"\n").rpartition(b"\n")
    return output + b"\n", int(status.split()[1])


def whole(script: str, *lines: str) -> bytes:
    """An output of a script with these lines."""
    text = script.encode("ascii")
    return b"diddy 1\nscript %d\n%s\n" % (len(text), text) + "".join(line + "\n" for line in [*lines, "end"]).encode("ascii")
