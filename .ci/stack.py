"""Holds docs/CALLING.md to performance/stack: no call takes more stack than the page says.

Prints the call that takes most; exit status 1 where it takes more, or where the page or the command tells nothing.
"""
import pathlib
import re
import subprocess
import sys

TOP = pathlib.Path(__file__).resolve().parent.parent
CALLS = 15


def main():
    page = re.findall(r"no call takes more than ([\d,]+) bytes", (TOP / "docs" / "CALLING.md").read_text())
    ran = subprocess.run(["performance/stack"], cwd=TOP, stdin=subprocess.DEVNULL, stdout=subprocess.PIPE, text=True)
    rows = [(int(size), call) for call, size in re.findall(r"(?m)^\| (.+) \| (\d+) \|$", ran.stdout)]
    if ran.returncode or len(page) != 1 or len(rows) != CALLS:
        print(ran.stdout + "the page or performance/stack does not tell")
        return 1
    size, call = max(rows)
    most = int(page[0].replace(",", ""))
    print(f"{call}: {size} bytes of stack, of {most}")
    return 1 if size > most else 0


if __name__ == "__main__":
    sys.exit(main())
