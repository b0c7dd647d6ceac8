"""The other side of trials of classes: a program in Java that answers a line for each line that it is asked."""
import glob
import os
import subprocess
import sys

from common import HERE


class Java:
    """A running program of the folder java/."""

    def __init__(self, trial, name, *words, options=()):
        trial.needs("java", "javac")
        out = trial.path("java")
        os.makedirs(out, exist_ok=True)
        sources = glob.glob(os.path.join(HERE, "java", "**", "*.java"), recursive=True)
        status, _, error = trial.call("javac", "-d", out, *sources, seconds=300)
        if status:
            sys.exit(error.decode())
        command = ["java", "-XX:TieredStopAtLevel=1", "-Xshare:auto", *options, "-cp", out, name, *words]
        self.process = subprocess.Popen(command, stdin=subprocess.PIPE, stdout=subprocess.PIPE, text=True)

    def __enter__(self):
        return self

    def __exit__(self, *_):
        self.process.stdin.close()
        self.process.wait()

    def ask(self, *words):
        """Its answer to a line of these words."""
        print(*words, file=self.process.stdin, flush=True)
        answer = self.process.stdout.readline()
        if not answer:
            raise EOFError("the Java virtual machine ended")
        return answer.rstrip("\n")


def write_classes(folder, files):
    """Writes class files by the names of their classes."""
    for name, data in files.items():
        path = os.path.join(folder, name + ".class")
        os.makedirs(os.path.dirname(path), exist_ok=True)
        with open(path, "wb") as file:
            file.write(data)
