"""The examples of `help(vahondrisa)`: each public name has one, and each prints what it says. The package's own is a program, and has types."""
import doctest
import os
import re
import shutil
import subprocess
import textwrap
import unittest

import vahondrisa
from support import Case


# What the package's own example prints.
PRINTED = """\
7 False None
b'apple' 7
b'pear' 8
5 [(b'apple', 7), (b'fig', 1), (b'pear', 8), (b'plum', 5)]
"""


def own_example():
    """The program in the docstring of the package."""
    return textwrap.dedent(re.search(r"(?:(?:    .*)?\n)+", vahondrisa.__doc__.partition("\n\n")[2])[0])


class Help(Case):
    def test_the_example_of_the_package_is_a_program(self):
        with self.run_on(own_example(), cwd=self.room.name) as run:
            self.assertEqual(run.communicate()[0].decode(), PRINTED)
        self.assertEqual(run.returncode, 0)

    @unittest.skipUnless(shutil.which("mypy"), "there is no mypy in PATH")
    def test_the_package_and_its_own_example_have_types(self):
        package, program = os.path.join(self.room.name, "vahondrisa"), os.path.join(self.room.name, "program.py")
        shutil.copytree(os.path.dirname(vahondrisa.__file__), package, ignore=lambda _, names: [it for it in names if not it.endswith((".py", ".typed"))])
        with open(program, "w") as file:
            file.write(own_example() + "reveal_type(store.get(b'fig', 0))\n")
        words = ["mypy", "--strict", "--cache-dir", self.dir, package, program]
        ran = subprocess.run(words, cwd=self.room.name, stdout=subprocess.PIPE, stderr=subprocess.STDOUT, text=True)
        self.assertEqual(ran.returncode, 0, ran.stdout)
        self.assertIn('Revealed type is "builtins.int"', ran.stdout)  # and so the package's own types were read

    def test_each_public_name_has_an_example(self):
        for name in vahondrisa.__all__:
            self.assertIn(">>> ", getattr(vahondrisa, name).__doc__, name)

    def test_each_example_prints_what_it_says(self):
        finder, found = doctest.DocTestFinder(recurse=True), []
        for name in vahondrisa.__all__:
            found += [it for it in finder.find(getattr(vahondrisa, name), name, module=False) if it.examples]
        self.assertGreaterEqual(len(found), len(vahondrisa.__all__))
        for i, test in enumerate(found):
            folder, said = os.path.join(self.room.name, str(i)), []
            with self.subTest(test.name), vahondrisa.open(folder) as store:
                test.globs = {"vahondrisa": vahondrisa, "os": os, "folder": folder, "store": store}
                runner = doctest.DocTestRunner()
                runner.run(test, out=said.append)
                self.assertEqual(runner.failures, 0, "".join(said))


if __name__ == "__main__":
    unittest.main()
