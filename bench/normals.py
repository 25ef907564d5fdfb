#!/usr/bin/env python3
"""Measures ./wpgoal on large formulas, and prints the time and memory of each: normal forms of a sum, of an `and` and of stores under a
load, each of a size and of twice that size, and verdicts on goals that are split often. A time is the least of three runs.

Run by hand in the top folder, after a first call of ./wpgoal: bench/normals.py
"""
import os
import resource
import subprocess
import sys
import tempfile
import time

TOP = os.path.dirname(os.path.dirname(os.path.abspath(__file__)))
# A step that goes through the names in another order than they have.
STEP = 7919


def total(n):
    return f"(= (+ {' '.join(f'x{i * STEP % n}' for i in range(n))}) 0)"


def conjunction(n):
    parts = (f"(< x{i} 0)" if i % 2 else f"(not (< x{i * STEP % n} 0))" for i in range(n))
    return f"(and {' '.join(parts)})"


def stores(n):
    memory = "M:int"
    for i in range(n):
        memory = f"(store {memory} b{i} 0 {i})"
    return f"(= (load {memory} c 0) 1)"


def splits(n):
    """A valid goal whose n disjunctions hang together: each name is at least the one before."""
    facts = " ".join(f"(or (= x{i + 1} x{i}) (= x{i + 1} (+ x{i} 1)))" for i in range(n))
    return f"(imp (and {facts}) (<= x0 x{n}))"


def literals(n):
    """A valid goal with a chain of n inequalities, the claim its ends."""
    facts = " ".join(f"(<= x{i * STEP % n} x{i * STEP % n + 1})" for i in range(n))
    return f"(imp (and {facts}) (<= x0 x{n}))"


def seconds(words, text):
    with tempfile.NamedTemporaryFile("w", suffix=".goals", delete=False) as file:
        file.write(text + "\n")
    least, answer = None, ""
    for _ in range(3):
        begun = time.monotonic()
        run = subprocess.run([os.path.join(TOP, "wpgoal"), *words, file.name], capture_output=True, text=True, check=False)
        took = time.monotonic() - begun
        least = took if least is None else min(least, took)
        answer = run.stdout.strip() if run.returncode == 0 else f"status {run.returncode}: {run.stderr.strip()}"
    os.unlink(file.name)
    return least, answer


def rows():
    for name, make, sizes in (
        ("sum of atoms", total, (10000, 100000)),
        ("and of literals", conjunction, (10000, 100000)),
        ("stores under a load", stores, (500, 1000)),
    ):
        for n in sizes:
            yield name, n, ["--normal"], make(n)
    for name, make, sizes in (("splits", splits, (4, 8)), ("chain of literals", literals, (50, 100, 200))):
        for n in sizes:
            yield name, n, ["--branches", "65536"], make(n)


def main():
    print(f"{'formula':22} {'size':>8} {'seconds':>9}  answer")
    for name, n, words, text in rows():
        took, answer = seconds(words, text)
        shown = answer if len(answer) < 40 else f"{len(answer)} bytes"
        print(f"{name:22} {n:>8} {took:>9.2f}  {shown}")
        sys.stdout.flush()
    most = resource.getrusage(resource.RUSAGE_CHILDREN).ru_maxrss
    print(f"most memory of a run: {most // 1024} MB")


if __name__ == "__main__":
    main()
