"""A program over some libraries of this repository, in a copy of it, which is proved and built as any other."""

import os
import shutil
import subprocess
import sys

ROOT = os.path.dirname(os.path.dirname(os.path.abspath(__file__)))


def copied(folder, name, libraries, text):
    """Makes a repository of the libraries and the program in the folder, and answers the program's folder."""
    with open(f"{ROOT}/crates.txt", encoding="utf-8") as lines:
        kept = [line for line in lines if line.partition(":")[0] in libraries]
    with open(f"{folder}/crates.txt", "w", encoding="utf-8") as to:
        to.writelines([*kept, f"{name}: {' '.join(libraries)}\n"])
    for library in libraries:
        for part in ("src", "specs", "proofs"):
            if os.path.isdir(f"{ROOT}/crates/{library}/{part}"):
                shutil.copytree(f"{ROOT}/crates/{library}/{part}", f"{folder}/crates/{library}/{part}")
    os.makedirs(f"{folder}/crates/{name}/src")
    with open(f"{folder}/crates/{name}/src/main.rt", "w", encoding="utf-8") as to:
        to.write(text)
    return f"{folder}/crates/{name}"


def ran(program, words, count):
    """Runs the program of a folder, and answers the words of each of the lines that it prints, of which there are so many."""
    run = subprocess.run(["rt", "run", "--", *words], cwd=program, stdout=subprocess.PIPE, encoding="ascii")
    lines = [line.split() for line in run.stdout.splitlines()]
    if run.returncode or len(lines) != count:
        sys.exit("the program did not run")
    return lines
