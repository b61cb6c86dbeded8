"""Gives a program what nobody would give it on purpose. Each time it has to end by itself within a minute, with one of the statuses that it has, and say why
where that is not 0; what else has to hold is for the caller to look at.
"""

import os
import resource
import subprocess
import sys

LIMIT = 60  # seconds of a processor, and of the clock three times as many, as other programs run beside it
MEMORY = 4 << 30


class Tries:
    def __init__(self, program, folder):
        self.program, self.folder, self.count, self.failed = program, folder, 0, 0

    def fails(self, what, why):
        self.failed += 1
        print(f"{what[:200]!r}: {why}", flush=True)

    def ask(self, words, given=b"", prepare=None, **options):
        """Runs the program. Its status, what it printed and what it said; the status is None where it did not end."""

        def bounds():
            resource.setrlimit(resource.RLIMIT_CPU, (LIMIT, LIMIT))
            resource.setrlimit(resource.RLIMIT_AS, (MEMORY, MEMORY))
            resource.setrlimit(resource.RLIMIT_CORE, (0, 0))
            if prepare:
                prepare()

        options = {"stdout": subprocess.PIPE, "stderr": subprocess.PIPE, "cwd": self.folder, **options}
        feed = {} if "stdin" in options else {"input": given}
        try:
            ran = subprocess.run([self.program, *words], preexec_fn=bounds, timeout=3 * LIMIT, **feed, **options)
        except subprocess.TimeoutExpired as it:
            return None, it.stdout or b"", it.stderr or b""
        return ran.returncode, ran.stdout or b"", ran.stderr or b""

    def hold(self, what, words, given=b"", statuses=(0, 1, 2, 3), **how):
        """Tries one input, and counts it. Its status, what it printed and what it said."""
        self.count += 1
        status, out, err = self.ask(words, given, **how)
        if status is None:
            self.fails(what, "does not end")
        elif status < 0:
            self.fails(what, f"ended by the signal {-status}")
        elif status not in statuses:
            self.fails(what, f"status {status}; {(out + err)[-300:]!r}")
        elif status and not (out or err or how.get("stderr") or how.get("prepare")):
            self.fails(what, f"status {status}, and not a word")
        return status, out, err

    def ended(self, least):
        """Ends the whole: so many at least were to be tried."""
        if self.count < least:
            self.fails("the list", f"has {self.count}, and not {least}")
        print(f"{self.count} tried, {self.failed} failed", flush=True)
        sys.exit(self.failed > 0)


def program_of(argument, top, name):
    """The program that a caller names, or that `rt run` builds."""
    path = os.path.abspath(argument or f"{top}/crates/{name}/out/{name}")
    if not os.access(path, os.X_OK):
        sys.exit(f"no program at {path}: run 'rt run' in crates/{name} first")
    return path
