"""Runs of the program with `allocations.c` inside, which counts its requests for memory and can refuse one of them."""

import os
import subprocess
import time
from collections import namedtuple

from run import HERE, PROGRAM, Run

# How a run ended, what it wrote on standard error, how often it asked for memory, and what it took.
Told = namedtuple("Told", "status notes requests run")


class Inside:
    """The library, built in a folder for temporary files."""

    def __init__(self, folder):
        self.library, self.told = os.path.join(folder, "allocations.so"), os.path.join(folder, "told")
        source = os.path.join(HERE, "allocations.c")
        subprocess.run(["cc", "-O1", "-shared", "-fPIC", "-o", self.library, source, "-ldl"], check=True)

    def run(self, words, path, into=os.devnull, refused=0):
        """A run on a file; of its requests that with this number, from 1, gets no memory. The peak is the program's own."""
        environment = dict(os.environ, LD_PRELOAD=self.library, ALLOCATIONS=self.told, REFUSED=str(refused))
        with open(path, "rb") as source, open(into, "wb") as out:
            begun = time.perf_counter()
            child = subprocess.Popen([PROGRAM, *words], stdin=source, stdout=out, stderr=subprocess.PIPE, env=environment)
            notes = child.stderr.read().decode("utf-8", "replace").strip()
            _, status, usage = os.wait4(child.pid, 0)
            seconds = time.perf_counter() - begun
        child.stderr.close()
        child.returncode = os.waitstatus_to_exitcode(status)
        with open(self.told, encoding="ascii") as lines:
            requests, peak = map(int, lines)
        return Told(child.returncode, notes, requests, Run(seconds, usage.ru_utime + usage.ru_stime, peak * 1024))
