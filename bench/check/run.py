"""The table of run.sh: python3 run.py PROGRAM FOLDER SCRIPT.."""
import os
import pathlib
import re
import subprocess
import sys

TURNS = int(os.environ.get("TURNS", "5"))
HERE = pathlib.Path(__file__).resolve().parent


def seconds(words, source, sink):
    """The processor time of one run of a program from a file to a file, and its status."""
    with open(source, "rb") as given, open(sink, "wb") as taken:
        program = subprocess.Popen(words, stdin=given, stdout=taken)
        _, status, usage = os.wait4(program.pid, 0)
        program.returncode = os.waitstatus_to_exitcode(status)
    return usage.ru_utime + usage.ru_stime, program.returncode


def least(words, source, sink, status):
    """The least time of some runs, which all end with the status."""
    times = [seconds(words, source, sink) for _ in range(TURNS)]
    assert all(it == status for _, it in times), (words, source, times)
    return min(time for time, _ in times)


def plain(folder):
    """The least times of the C program: of its reading, and of its check."""
    words = [folder / "refutes", folder / "1.clauses", folder / "1.steps"]
    told = [subprocess.run(words, capture_output=True, text=True, check=True).stdout.split() for _ in range(TURNS)]
    return [min(int(it[place]) for it in told) / 1e6 for place in (-2, -1)]


def main():
    diddy, folder, names = sys.argv[1], pathlib.Path(sys.argv[2]), sys.argv[3:]
    print("| Script | clauses | steps | bytes | run | check | of it start and clauses | reading | hints | all but the first, of the run | C reading | C hints |")
    print("|---|---|---|---|---|---|---|---|---|---|---|---|")
    for name in names:
        script, output, one_step, one_more, said = (folder / (name + end) for end in (".diddy", ".out", ".one", ".more", ".said"))
        run, status = seconds([diddy, "run"], script, output)
        assert status == 0, (name, status)
        text = output.read_bytes()
        steps = int(re.search(rb"^refutation (\d+)$", text, re.M)[1])
        false_step = b"step 0 1 0 0\n"
        one_step.write_bytes(re.sub(rb"refutation \d+\n(step [-0-9 ]*\n)*", b"refutation 1\n" + false_step, text))
        one_more.write_bytes(text.replace(b"refutation %d\n" % steps, b"refutation %d\n" % (steps + 1) + false_step))
        whole = least([diddy, "check"], output, said, 0)
        start = least([diddy, "check"], one_step, said, 7)
        read = least([diddy, "check"], one_more, said, 7)
        subprocess.run([sys.executable, HERE / "clauses.py", folder], input=text, check=True)
        with open(folder / "1.clauses", encoding="utf-8") as lines:
            clauses = lines.readline().split()[3]
        parts = f"{start:.4f} | {read - start:.4f} | {whole - read:.4f} | {100 * (whole - start) / run:.1f} in 100"
        c_reading, c_check = plain(folder)
        print(f"| {name} | {clauses} | {steps} | {len(text)} | {run:.3f} | {whole:.4f} | {parts} | {c_reading:.4f} | {c_check:.4f} |", flush=True)


main()
