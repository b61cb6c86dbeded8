"""What the tests share."""
import os
import subprocess
import sys
import tempfile
import threading
import unittest

import vahondrisa


# A shell that is not at a terminal has what it runs beside it ignore interrupts, and Python then leaves them so. No test waits for ever.
BEGIN = "import signal; signal.signal(signal.SIGINT, signal.default_int_handler); signal.alarm(300)\n"


class Case(unittest.TestCase):
    """A test with a folder for its store."""

    def setUp(self):
        self.room = tempfile.TemporaryDirectory()
        self.dir = os.path.join(self.room.name, "store")

    def tearDown(self):
        self.room.cleanup()

    def run_on(self, text, **options):
        """Runs a program in a process of its own, with the folder as its argument."""
        environment = dict(os.environ, PYTHONPATH=os.pathsep.join(filter(None, sys.path)))
        return subprocess.Popen([sys.executable, "-c", BEGIN + text, self.dir], stdout=subprocess.PIPE, env=environment, **options)

    def turns(self):
        """The keys of each row id that the store has."""
        found = {}
        with vahondrisa.open(self.dir) as store, store.begin() as txn:
            for key, rid in txn.range():
                found.setdefault(rid, []).append(key)
        return found


def together(*bodies):
    """Calls each in a thread of its own, and waits for all. What they raised, in order; None where one raised nothing."""
    raised = [None] * len(bodies)

    def run(i, body):
        try:
            body()
        except BaseException as it:
            raised[i] = it

    threads = [threading.Thread(target=run, args=it) for it in enumerate(bodies)]
    for it in threads:
        it.start()
    for it in threads:
        it.join()
    return raised
