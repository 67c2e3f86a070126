#!/usr/bin/env python3
"""Writes a decision as one page of HTML, by the package in the folder python beside this one. `--help` says how."""
import os
import sys

sys.path.insert(0, os.path.join(os.path.dirname(os.path.abspath(__file__)), "..", "python"))
from welungad._scripts import report  # noqa: E402

if __name__ == "__main__":
    report()
