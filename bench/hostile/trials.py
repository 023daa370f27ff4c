"""The trials of run.sh: python3 trials.py PROGRAM FOLDER MOST NAME.., all where none is named. Another name is that of a file with a script."""
import os
import pathlib
import resource
import signal
import subprocess
import sys

READ_FAULT, WRITE_FAULT, MEMORY, BAD_WORDS = 3, 4, 5, 6

# A memory limit is larger than the one before it by one part in so many, up to so many in turn that were enough.
STEP, ENOUGH = 128, 20

SCRIPTS = {
    "member": "%rule hard o=1 -> (o.rt=0 & o.up=0)\n%conf c [2 2] 1 0 0 1\n%member c hard\n",
    "contains": "%rule hard o=1 -> (o.rt=0 & o.up=0)\n%rule row o=1 -> o.rt=0\n%contains row hard\n%contains hard row\n",
    "equal": "%rule a !(o=1 & o.rt=1)\n%rule b o!=1 | o.rt!=1\n%equal a b\n",
    "empty": "%dim 1\n%rule x o=0 & o=1\n%empty x\n",
    "pigeons": "%dim 1\n%alphabet 0 1 2 3 4 5\n%limits 3 1 0\n%rule apart Ap[o3] Aq[o3] (p@q | p!=q)\n%empty apart\n",
    "same": "%dim 1\n%rule full o@o\n%auto r when o.lt!=o.rt give 1 else 0\n%compose rr r r\n%auto far when o.lt.lt!=o.rt.rt give 1 else 0\n"
    "%same rr far full\n",
    "forbidden": "%rule hard o=1 -> (o.rt=0 & o.up=0)\n%forbidden hard\n",
    "density": "%rule dom Ep[o1] p=1\n%density dom [3]\n",
    "discharge": "%rule dom Ep[o1] p=1\n%discharge dom 0 0 [1 0] [-1 0] [0 1] [0 -1]\n",
    "refused": "%rule dom Ep[o1] p=2\n",
    "header": "%dim 1\n%nodes a b\n%alphabet 0 1 2\n%topology (rt a [1] a) (lt a [-1] a) (up a [0] b) (dn b [0] a)\n%only b 0 1\n"
    "%weights 0 1 3\n%limits 2 2 10\n%rule up o.up=1 -> o=2\n%conf c [2] 2 1 0 0\n%member c up\n%density up []\n",
    "out": "%rule six o=0 -> o.rt=1 & o.up=1\n%conf c [2 2] [1] 0 1 1 1\n%member c six\n",
    "unknown": "%dim 1\n%rule rises o=1 -> o.rt=1\n%rule flat o=o.rt\n%contains flat rises\n",
    "unequal": "%dim 1\n%rule golden !(o=1 & o.rt=1)\n%rule gaps o=1 -> (o.rt.rt=0 | o.rt.rt.rt=0)\n%equal golden gaps\n",
    "maps": "%rule all o@o\n%rule hard o=1 -> (o.rt=0 & o.up=0)\n%auto corner when o=1 & o.rt=0 & o.up=0 give 1 else 0\n"
    "%auto id when o=1 give 1 else 0\n%maps corner all hard\n%maps id all hard\n",
    "conjugate": "%dim 1\n%alphabet 0 1 2\n%rule golden o!=2 & !(o=1 & o.rt=1)\n%rule pairs o=1 <-> o.rt=2\n%auto read when o=1 give 2 "
    "when o.rt=1 give 1 else 0\n%auto forget when o=2 give 1 else 0\n%conjugate read forget golden pairs\n%conjugate forget read golden pairs\n",
    "minimal": "%alphabet 0 1 2\n%only 0 0 1\n%rule hard o=1 -> (o.rt=0 & o.up=0)\n%minimal hard\n",
    "least": "%rule dom Ep[o1] p=1\n%rule apart o!=o.rt\n%least dom [3 3]\n%least apart [3 1]\n",
    "ranks": "%dim 1\n%rule grows o=0 & o.rt=1\n%density grows []\n",
    "large": "%dim 1\n%rule free o@o\n%discharge free 2 0 [1] [2] [3] [4] [-1] [-2] [-3]\n",
    "syntax": "%rule dom Ep[o1] (p=1\n",
    "long": "%rule dom Ep[o1] p=1\n" + " " * 1048576,
}

# What a check gets besides the outputs of these scripts.
OUTPUTS = {
    "rejected": "diddy 1\nscript 40\n%rule a o=1\n%conf c [1 1] 0\n%member c a\n\nquery 1 IN\nend\n",
    "cut": "diddy 1\nscript 25\n%dim 1 %rule a o=0 & o=1\n\nquery 1 YES 0\nrefutation 2\nstep 0 6 4 2 3",
    "fault": "diddy 1\nscript 12\n%rule a o=2\n\nend\n",
}


class Trials:
    """The trials of some words and one input."""

    def __init__(self, program, folder, words, given):
        self.words, self.folder, self.given, self.wrong = [program, *words], folder, given, []
        self.preload, self.counted = {"LD_PRELOAD": str(folder / "fails.so")}, folder / "count"
        self.status, self.text = self.run({})
        self.run({**self.preload, "COUNT_TO": str(self.counted)})
        self.allocated, self.reads, self.writes = map(int, self.counted.read_text().split())

    def run(self, names, before=None):
        """The status of a run over the whole input, with these names in its environment, and what it wrote."""
        done = subprocess.run(
            self.words, input=self.given, stdout=subprocess.PIPE, stderr=subprocess.DEVNULL, env={**os.environ, **names}, preexec_fn=before
        )
        return done.returncode, done.stdout

    def judge(self, what, status, text, wanted):
        """Tells of a trial that ended with another status, or wrote anything but a front."""
        if status != wanted or not self.text.startswith(text):
            self.wrong.append(f"{what}: status {status} in place of {wanted}, {len(text)} bytes of {len(self.text)}")

    def allocations(self, most):
        """Each allocation fails, or each from it on. Where one alone fails, a smaller one may do as well: then all is as ever."""
        count = self.allocated
        tried, made_good = range(1, count + 1, -(-count // most) or 1), 0
        for number in tried:
            status, text = self.run({**self.preload, "FAIL_AT": str(number)})
            whole = (status, text) == (self.status, self.text)
            made_good += whole
            self.judge(f"allocation {number} of {count}", status, text, self.status if whole else MEMORY)
            status, text = self.run({**self.preload, "FAIL_AT": str(number), "FAIL_ON": "1"})
            self.judge(f"allocations from {number} of {count} on", status, text, MEMORY)
        return f"{len(tried)} of {count} allocations in two ways, {made_good} made good"

    def limits(self):
        """The memory of the process is limited, from the least limit with which it starts, up to one that has been enough for long."""
        tried, low, enough, size = 0, 0, 0, 1 << 20
        while enough < ENOUGH:
            limit = lambda: resource.setrlimit(resource.RLIMIT_AS, (size, size))
            # Words that ask for nothing.
            start = subprocess.run([self.words[0], "no"], stderr=subprocess.DEVNULL, preexec_fn=limit) if not tried else None
            if tried or start.returncode in (BAD_WORDS, MEMORY):
                status, text = self.run({}, limit)
                whole = (status, text) == (self.status, self.text)
                self.judge(f"{size} bytes", status, text, self.status if whole else MEMORY)
                tried, low, enough = tried + 1, low + (not whole), enough + 1 if whole else 0
            size += size // STEP
        return f"{tried} memory limits, {low} of them too low"

    def calls(self, most):
        """Each read fails, and then nothing is written. Each write fails. And all are of one byte, which changes nothing."""
        for number in range(1, self.reads + 1):
            status, text = self.run({**self.preload, "READ_AT": str(number)})
            self.judge(f"read {number} of {self.reads}", status, text, READ_FAULT)
            if text:
                self.wrong.append(f"read {number} of {self.reads}: {len(text)} bytes written")
        tried = range(1, self.writes + 1, -(-self.writes // most) or 1)
        for number in tried:
            status, text = self.run({**self.preload, "WRITE_AT": str(number)})
            self.judge(f"write {number} of {self.writes}", status, text, WRITE_FAULT)
        if self.run({**self.preload, "BYTEWISE": "1"}) != (self.status, self.text):
            self.wrong.append("single bytes: another status or text")
        return f"{self.reads} reads, {len(tried)} of {self.writes} writes"

    def sources(self):
        """No source, and one that is a folder. Where none is read, that is nothing to the program."""
        for what, source in (("closed", None), ("folder", os.open(self.folder, os.O_RDONLY))):
            close = (lambda: os.close(0)) if source is None else None
            done = subprocess.run(self.words, stdin=source, stdout=subprocess.PIPE, stderr=subprocess.DEVNULL, preexec_fn=close)
            self.judge(f"source {what}", done.returncode, done.stdout, READ_FAULT if self.reads else self.status)
            if done.stdout != (b"" if self.reads else self.text):
                self.wrong.append(f"source {what}: {len(done.stdout)} bytes written")
        os.close(source)
        return 2

    def sink(self, what, sink, before=None, wanted=WRITE_FAULT, held=lambda: b""):
        """Runs with this file as its sink, and judges what that holds."""
        done = subprocess.run(self.words, input=self.given, stdout=sink, stderr=subprocess.DEVNULL, preexec_fn=before)
        self.judge(what, done.returncode, held(), wanted)

    def sinks(self):
        """A closed sink, a closed pipe, a full disk, and files that may not grow past some sizes."""
        self.sink("no sink", None, lambda: os.close(1))
        reader, writer = os.pipe()
        os.close(reader)
        self.sink("closed pipe", writer)
        os.close(writer)
        with open("/dev/full", "wb") as full:
            self.sink("full disk", full)
        sizes = range(0, len(self.text) + 1, len(self.text) // 20 or 1)
        for size in sizes:
            name = self.folder / "sink"

            def bounded():
                signal.signal(signal.SIGXFSZ, signal.SIG_IGN)
                resource.setrlimit(resource.RLIMIT_FSIZE, (size, size))

            wanted = self.status if size >= len(self.text) else WRITE_FAULT
            with open(name, "wb") as file:
                self.sink(f"file of {size} bytes", file, bounded, wanted, name.read_bytes)
            if len(name.read_bytes()) != size:
                self.wrong.append(f"file of {size} bytes: {len(name.read_bytes())} bytes")
        return 3 + len(sizes)

    def pipes(self):
        """A reader that takes some bytes and goes away. What the program had written by then, it was told that it had."""
        sizes = [0, 1, 10, 100]
        for size in sizes:
            program = subprocess.Popen(self.words, stdin=subprocess.PIPE, stdout=subprocess.PIPE, stderr=subprocess.DEVNULL)
            reader = program.stdout
            if size == 0:
                reader.close()
            program.stdin.write(self.given)
            program.stdin.close()
            text = reader.read(size) if size else b""
            reader.close()
            status = program.wait()
            whole = size > 0 and status == self.status
            self.judge(f"pipe of {size} bytes", status, text, self.status if whole else WRITE_FAULT)
        return len(sizes)


def inputs(program, names):
    """Each name with the words and what the program is given: a script, then the output of its run."""
    for name in names:
        if name == "sample":
            yield name, ["sample", "1"], b""
        elif name in OUTPUTS:
            yield name, ["check"], OUTPUTS[name].encode()
        else:
            script = SCRIPTS[name].encode() if name in SCRIPTS else pathlib.Path(name).read_bytes()
            yield name, ["run"], script
            yield name, ["check"], subprocess.run([program, "run"], input=script, stdout=subprocess.PIPE, check=False).stdout


def main():
    program, folder, most, names = sys.argv[1], pathlib.Path(sys.argv[2]), int(sys.argv[3]), sys.argv[4:]
    wrong = 0
    for name, words, given in inputs(program, names or [*SCRIPTS, *OUTPUTS, "sample"]):
        trials = Trials(program, folder, words, given)
        counts = f"{trials.allocations(most)}; {trials.limits()}; {trials.calls(most)}; {trials.sources()} sources"
        print(f"{name} {words[0]}: {counts}; {trials.sinks() + trials.pipes()} sinks; {len(trials.wrong)} wrong", flush=True)
        for line in trials.wrong[:20]:
            print(f"  {line}", file=sys.stderr)
        wrong += len(trials.wrong)
    return 1 if wrong else 0


sys.exit(main())
