"""Reads files of cases and prints what comes out of them."""
import sys

from cases import run_files

if __name__ == "__main__":
    sys.exit(run_files(sys.argv[1:], sys.stdout.buffer, sys.stderr))
