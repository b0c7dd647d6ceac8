"""What all groups of trials share: a trial's cases, its folder, the programs that it calls, and what it reports."""
import os
import random
import shutil
import struct
import subprocess
import sys
import tempfile
import time
from collections import Counter

HERE = os.path.dirname(os.path.abspath(__file__))
TOP = os.path.dirname(os.path.dirname(HERE))


def program_nested():
    """The path of `nested`: what NESTED names, or the one on the path."""
    named = os.environ.get("NESTED")
    found = os.path.abspath(named) if named else shutil.which("nested")
    if not found or not os.access(found, os.X_OK):
        sys.exit("dev/trials: there is no program `nested`; NESTED names one")
    return found


class Trial:
    """A run of one group: its cases, and what came of them. Each case has a generator of its own, made of the group, the seed and its number."""

    def __init__(self, group, cases, seed, only=None, keep=None):
        self.group, self.seed = group, seed
        self.numbers = range(cases) if only is None else range(only, only + 1)
        self.keep = os.path.abspath(keep) if keep else None
        self.nested = program_nested()
        self.started = time.monotonic()
        self.differing = {}
        self.tally = Counter()
        self.left_out = Counter()

    def __enter__(self):
        self.folder = self.keep or tempfile.mkdtemp(prefix="trials-")
        os.makedirs(self.folder, exist_ok=True)
        return self

    def __exit__(self, *_):
        if not self.keep:
            shutil.rmtree(self.folder, ignore_errors=True)

    def random(self, case):
        return random.Random(f"{self.group} {self.seed} {case}")

    def path(self, *names):
        return os.path.join(self.folder, *names)

    def needs(self, *programs):
        for program in programs:
            if not shutil.which(program):
                sys.exit(f"dev/trials {self.group}: there is no program `{program}`")

    def call(self, *words, input=b"", cwd=None, seconds=60):
        """What a program answers: its status (negative where a signal ended it), its output and its error output, as bytes."""
        done = subprocess.run(words, input=input, cwd=cwd or self.folder, capture_output=True, timeout=seconds, check=False)
        return done.returncode, done.stdout, done.stderr

    def ask(self, *words, **options):
        """What `nested` answers: its status, its output, and its line on error output."""
        status, out, error = self.call(self.nested, *words, **options)
        return status, out, error.decode(errors="replace").strip()

    def differ(self, case, text):
        """The two differ in this case."""
        self.differing.setdefault(case, []).append(text)

    def came(self, what, times=1):
        """Counts what came of a case, for the line."""
        self.tally[what] += times

    def leave_out(self, rule):
        """Counts a case that is left out by a rule of the group."""
        self.left_out[rule] += 1

    def try_cases(self, group):
        """Tries all cases of the group, whose file has `ready`, what its cases share, and `try_case`."""
        with group.ready(self) as shared:
            for case in self.numbers:
                try:
                    group.try_case(self, case, shared)
                except (AssertionError, LookupError, OSError, RuntimeError, ValueError, struct.error, subprocess.TimeoutExpired) as error:
                    self.differ(case, f"{type(error).__name__}: {error}")

    def report(self):
        for case, texts in sorted(self.differing.items()):
            for text in texts:
                print(f"{self.group} case {case}: {text}")
        parts = [f"{times} {what}" for what, times in self.tally.most_common()]
        parts += [f"left out {times}: {rule}" for rule, times in self.left_out.most_common()]
        said = f" ({', '.join(parts)})" if parts else ""
        seconds = time.monotonic() - self.started
        print(f"{self.group}: {len(self.numbers)} cases, {len(self.differing)} differences, {seconds:.0f} seconds{said}", flush=True)
        return len(self.differing)
