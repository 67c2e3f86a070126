"""Runs the program: `python -m welungad test < case.txt`. Ends with its status, or with 125 if there is no program to run."""
import sys

from ._scripts import program

if __name__ == "__main__":
    try:
        program(sys.argv[1:])
    except OSError as error:
        sys.stderr.write(f"welungad: {error}\n")
        sys.exit(125)
