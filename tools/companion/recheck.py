"""`tools/recheck < output`: an independent check of an output. It is not proved.

It writes what `diddy check` writes, and ends with the same status. On standard error it says why an answer is rejected and, with --lines, what each
accepted answer claims.
"""
import sys
from typing import BinaryIO, List, TextIO

from .accept import accept
from .answers import Answer, Unknown
from .faults import Fault, place
from .outputs import MOST_BYTES, NoOutput, Output, read_output
from .script import Script

ACCEPTED, SOME_UNKNOWN, REFUSED, REJECTED = 0, 1, 2, 7


def check_answers(script: Script, answers: List[Answer], out: TextIO, said: TextIO, claims: bool) -> int:
    """Checks the answers in order, and gives the status."""
    for number, query in enumerate(script.queries, 1):
        if number > len(answers):
            why = "there is no answer to this query"
        else:
            why = query.rejection(answers[number - 1])
        if why:
            return reject(number, why, query.text(), out, said)
        out.write(f"query {number} accepted\n")
        out.flush()
        if claims:
            said.write(f"query {number} {query.text()}: {answers[number - 1].line()}: {query.claim(answers[number - 1])}\n")
    count = len(script.queries)
    if len(answers) > count:
        return reject(count + 1, f"the script has {count} queries, and there are {len(answers)} answers", "", out, said)
    out.write(f"checked {count}\n")
    return SOME_UNKNOWN if any(isinstance(answer, Unknown) for answer in answers) else ACCEPTED


def reject(number: int, why: str, query: str, out: TextIO, said: TextIO) -> int:
    """Writes that an answer is rejected, and why."""
    out.write(f"query {number} rejected\n")
    said.write(f"query {number}{' ' + query if query else ''}: {why}\n")
    return REJECTED


def recheck(data: bytes, out: TextIO, said: TextIO, claims: bool = False) -> int:
    """Checks an output, and gives the status."""
    if len(data) > MOST_BYTES:
        out.write("refused long\n")
        return REFUSED
    try:
        output = read_output(data)
    except NoOutput as fault:
        out.write(f"refused at {fault.offset}\n")
        line, column = place(data, fault.offset)
        said.write(f"line {line}, column {column}: {fault.expected}\n")
        return REFUSED
    return check_output(output, out, said, claims)


def check_output(output: Output, out: TextIO, said: TextIO, claims: bool) -> int:
    """Reads the script of an output, and checks the answers."""
    try:
        script = accept(output.script)
    except Fault as fault:
        out.write(fault.line().replace("refused", "refused script", 1) + "\n")
        line, column = place(output.script, fault.at)
        said.write(f"line {line} of the script, column {column}: {fault.rule}\n")
        return REFUSED
    return check_answers(script, output.answers, out, said, claims)


def main(words: List[str], given: BinaryIO) -> int:
    """The command."""
    if words not in ([], ["--lines"]):
        sys.stderr.write("usage: recheck [--lines] < output\n")
        return 6
    return recheck(given.read(MOST_BYTES + 1), sys.stdout, sys.stderr, bool(words))
