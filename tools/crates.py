"""The repository's crates, by its crates.txt.

    python3 tools/crates.py NAME..      prints the lines of these crates and of all crates that they depend on; a crate of the kit has none
"""
import os
import sys

TOP = os.path.dirname(os.path.dirname(os.path.abspath(__file__)))


def lines_of_crates():
    """The line of each crate in crates.txt, by its name."""
    with open(os.path.join(TOP, "crates.txt"), encoding="utf-8") as file:
        lines = [line.split("#")[0].strip() for line in file]
    return {line.partition(":")[0].split()[0]: line for line in lines if line}


def libraries_of(name):
    """This crate and all crates that it depends on, each with those of the repository that its line names."""
    lines = lines_of_crates()
    libraries, left = {}, [name]
    while left:
        name = left.pop()
        if name not in libraries:
            libraries[name] = [it for it in lines[name].partition(":")[2].split() if it in lines]
            left += libraries[name]
    return libraries


def main():
    lines = lines_of_crates()
    for name in sorted({it for asked in sys.argv[1:] if asked in lines for it in libraries_of(asked)}):
        print(lines[name])


if __name__ == "__main__":
    main()
