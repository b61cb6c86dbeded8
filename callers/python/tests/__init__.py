"""The tests: `python3 -m unittest discover -s tests`, or one of them, `python3 -m unittest tests.test_words`; `pytest` runs them too."""
import os
import sys

# What they share is imported by its name, however they were found.
sys.path.insert(0, os.path.dirname(os.path.abspath(__file__)))
