"""Writes the generated files of cases, `crates/cases/data/generated_*.cases`. They are the same at each run.

    python3 scripts/second/generate [WRITER..]

With words those of these modules alone."""
import sys
from importlib import import_module
from pathlib import Path

# In place of this folder, whose modules have names of their own there.
sys.path[0] = str(Path(__file__).resolve().parents[1])

WRITERS = ("sites", "markets", "desks", "wallets", "payments", "versions", "chains", "settlement", "trees", "renewals", "proxies", "schedules", "doors")


def main():
    for name in sys.argv[1:] or WRITERS:
        import_module("generate." + name).main()


if __name__ == "__main__":
    main()
