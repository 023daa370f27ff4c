#!/usr/bin/env python3
"""Compares diddy with the companion: bench/agree/agree.py N SEED [PROGRAM].

It makes N random scripts from the seed, whole, mutated and at the limits. Of each it compares the line of a refusal, the answer lines
with those of plain searches, and what the two checks say of the output, as it is and altered.
"""
import contextlib
import io
import os
import pathlib
import random
import signal
import subprocess
import sys
from typing import Dict, Tuple

sys.dont_write_bytecode = True
TOP = pathlib.Path(__file__).resolve().parent.parent.parent
sys.path.insert(0, str(TOP / "tools"))

from altered import altered  # noqa: E402
from companion.accept import accept  # noqa: E402
from companion.faults import Fault  # noqa: E402
from companion.outputs import read_output  # noqa: E402
from companion.recheck import recheck  # noqa: E402
from scripts import Scripts  # noqa: E402

COUNTS = ("scripts", "refused", "queries", "left open", "checks")


class Agreement:
    """The two programs, and what was counted."""

    def __init__(self, program: str, seed: int) -> None:
        self.program = program
        self.chance = random.Random(seed)
        self.scripts = Scripts(self.chance)
        self.counts: Dict[str, int] = {name: 0 for name in COUNTS}
        self.faults = 0

    def asked(self, word: str, given: bytes) -> Tuple[bytes, int]:
        """What the program writes, and its status."""
        done = subprocess.run([self.program, word], input=given, capture_output=True)
        return done.stdout, done.returncode

    def differs(self, what: str, given: bytes, theirs: object, ours: object) -> None:
        """Says that the two differ."""
        self.faults += 1
        print(f"{what}\n  given {given!r}\n  diddy says {theirs!r}\n  the companion {ours!r}", file=sys.stderr)

    def script(self, text: bytes) -> None:
        """Compares the two on a script, and on its output."""
        self.counts["scripts"] += 1
        output, status = self.asked("run", text)
        try:
            script = accept(text)
        except Fault as fault:
            self.counts["refused"] += 1
            line = (fault.line() + "\n").encode("latin-1")
            if (output, status) != (line, 2):
                self.differs("a script", text, output[:100], line)
            return
        if status not in (0, 1):
            self.differs("a script", text, output[:100], "accepted")
            return
        self.answers(text, script, output)
        self.check(output, status)
        for _ in range(2):
            self.check(altered(self.chance, output), None)

    def answers(self, text: bytes, script, output: bytes) -> None:
        """Compares the answer lines with what plain searches find."""
        for query, answer in zip(script.queries, read_output(output).answers):
            self.counts["queries"] += 1
            found = query.found()
            # the plain simplex run has no limits on pivots and numbers, so it can't say where these are passed
            if found is None or answer.line() in ("UNKNOWN pivots", "UNKNOWN overflow"):
                self.counts["left open"] += 1
            elif found != answer.line():
                self.differs(query.text(), text, answer.line(), found)

    def check(self, output: bytes, wanted) -> None:
        """Compares the two checks of an output. That of an output as it was has to end as the run did."""
        self.counts["checks"] += 1
        theirs = self.asked("check", output)
        out = io.StringIO()
        said = io.StringIO()
        ours = recheck(output, out, said)
        if theirs != (out.getvalue().encode("latin-1"), ours) or wanted is not None and ours != wanted:
            self.differs("a check", output, theirs, (out.getvalue(), ours, said.getvalue()))

    def trial(self) -> None:
        """One random script."""
        kind = self.chance.random()
        text = self.scripts.whole() if kind < 0.6 else self.scripts.mutated() if kind < 0.9 else self.scripts.border()
        self.script(text.encode("latin-1"))


def main() -> int:
    """The command."""
    count, seed = int(sys.argv[1]), int(sys.argv[2])
    program = sys.argv[3] if len(sys.argv) > 3 else os.environ.get("DIDDY", str(TOP / "diddy"))
    agreement = Agreement(program, seed)
    # a run that is stopped says what it has counted
    signal.signal(signal.SIGTERM, signal.default_int_handler)
    with contextlib.suppress(KeyboardInterrupt):
        for _ in range(count):
            agreement.trial()
    said = ", ".join(f"{number:,} {name}" for name, number in agreement.counts.items())
    print(f"agree: {said}; {agreement.faults} differences")
    return 1 if agreement.faults else 0


if __name__ == "__main__":
    sys.exit(main())
