#!/usr/bin/env python3
"""What a search and the check of its certificate take: `analyse` and then `check` on the problems of examples/, each
problem once, and on families that grow; and `resolve 3` and then `check` on Koszul matrices.

One row of a table for each: the kind of the certificate and what `check` says of it; the pairs that it treats and skips,
and the steps; the bits of its longest coefficient; its bytes; and of the search and then of `check` the instructions
(measure.py says how they are counted), the processor milliseconds of the shortest of some runs, and the greatest memory in
MiB. Pairs and steps are those that the certificate lists, or of a report those of all runs that it lists.

Run by hand: benches/searches.py [PROGRAM] [WORD]. PROGRAM has a `/`. Where it isn't named it is the proved one, which is
proved first where it isn't built or a source is newer. With a word only the problems whose name has it.
"""
import importlib.util
import re
import subprocess
import sys
from collections import Counter
from importlib.machinery import SourceFileLoader
from pathlib import Path

from measure import LIMIT, instructions, kilobytes, shortest_run
from run_families import chain, curl, delays, koszul, pendulums

TOP = Path(__file__).resolve().parent.parent
EXAMPLES = TOP / "examples"
HEADS = ["problem", "answer", "treated", "skipped", "steps", "bits", "bytes"] + ["instructions", "ms", "MiB"] * 2


def reader_of_examples():
    """The script of the gate that reads the files of examples/, as a module."""
    spec = importlib.util.spec_from_loader("examples", SourceFileLoader("examples", str(TOP / ".ci/examples")))
    module = importlib.util.module_from_spec(spec)
    written, sys.dont_write_bytecode = sys.dont_write_bytecode, True
    spec.loader.exec_module(module)
    sys.dont_write_bytecode = written
    return module


def problem_part(text):
    """The lines up to the first `end`, without comments."""
    lines = []
    for line in text.splitlines():
        if not line.startswith(b"#"):
            lines.append(line + b"\n")
        if line == b"end":
            break
    return b"".join(lines)


def example_problems():
    """The names and texts of the problems of examples/, each problem under the first of its names."""
    found = {}
    for path in sorted(EXAMPLES.glob("*.txt")) + sorted(EXAMPLES.glob("gallery/*.txt")):
        found.setdefault(problem_part(path.read_bytes()), str(path.relative_to(EXAMPLES).with_suffix("")))
    searches = reader_of_examples().searches
    for path in sorted(EXAMPLES.glob("*.searches")):
        for number, (words, text, _, written, _) in enumerate(searches(path), 1):
            problem = problem_part(written if words[0] == b"generate" else text)
            found.setdefault(problem, "%s, search %d" % (path.stem, number))
    return [(name, text) for text, name in found.items()]


def families():
    """The names and texts of the problems of families that grow."""
    for count in (5, 10, 20, 40):
        yield "chain of %d integrators" % count, chain(count)
    for count in (2, 4, 6, 8):
        yield "%d coupled pendulums" % count, pendulums(count)
    for count in (5, 10, 20):
        yield "chain of %d delays" % count, delays(count)
    for count in (3, 4, 5, 6):
        yield "curl in %d directions" % count, curl(count)
    for count in (3, 4, 5):
        for place in range(1, count + 1):
            yield "Koszul, %d letters, matrix %d" % (count, place), koszul(count, place)


def resolved():
    """The names and texts of the matrices that are resolved."""
    for count in (3, 4, 5):
        for place in range(1, count):
            yield "Koszul, %d letters, matrix %d" % (count, place), koszul(count, place)


def list_sizes(certificate):
    """How many pairs the lines of a certificate or of a report treat and skip, and how many steps they have."""
    heads = Counter(re.findall(rb"^\w+", certificate, re.M))
    return [heads[b"pair"] + heads[b"treat"], heads[b"skip"], heads[b"step"]]


def longest_coefficient(certificate):
    """The bits of the longest numerator or denominator of a coefficient."""
    operators = b"\n".join(re.findall(rb"^(?:row|operator|step \d+) (.*)$", certificate, re.M))
    return max((int(number).bit_length() for number in re.findall(rb"(?<![\w^])\d+", operators)), default=0)


def cost(command, text, run):
    """The cells of a run: instructions, milliseconds and memory."""
    try:
        memory = "%.1f" % (kilobytes(command, text) / 1024)
    except subprocess.TimeoutExpired:
        memory = ""
    counted = instructions(command, text)
    return ["" if counted is None else format(counted, ","), "%.1f" % (1000 * run.seconds), memory]


def row(program, words, name, text):
    """The cells of a problem."""
    search, check = [program, *words], [program, "check"]
    found = shortest_run(search, text)
    if found.status < 0:
        return [name, "ended by the signal %d; the limit is %d seconds" % (-found.status, LIMIT)]
    if not found.output.startswith(b"certificate 1\n"):
        return [name, "status %d: %s" % (found.status, found.output[:60].decode("latin-1").strip())]
    kind = found.output.split(b"\n")[1].decode()
    both = text + found.output
    checked = shortest_run(check, both)
    word = checked.output.split(b" ")[0].decode() if checked.status == 0 else "status %d of check" % checked.status
    sizes = [format(n, ",") for n in (*list_sizes(found.output), longest_coefficient(found.output), len(found.output))]
    return [name, "%s, %s" % (kind, word), *sizes, *cost(search, text, found), *cost(check, both, checked)]


def print_row(cells):
    print("| " + " | ".join(cells) + " |", flush=True)


def print_table(title, heads, row, problems, word):
    """A table with a row of cells for each of the problems whose name has the word."""
    chosen = [(name, text) for name, text in problems if word in name]
    if chosen:
        print("\n%s\n" % title)
        print_row(heads)
        print("|" + "---|" * len(heads))
    for name, text in chosen:
        print_row(row(name, text))


def proved_program():
    """The path of the proved program, once it is built."""
    with open(EXAMPLES / "differential.txt", "rb") as input:
        if subprocess.run([TOP / "orebench", "check"], stdin=input, stdout=subprocess.DEVNULL).returncode != 0:
            sys.exit("the program isn't built")
    return str(TOP / "crates/ore_bench/out/ore_bench")


def program_and_word():
    """The path of the program and the word that the names of the problems have to have, as the command line says."""
    program = next((word for word in sys.argv[1:] if "/" in word), None) or proved_program()
    return program, next((word for word in sys.argv[1:] if "/" not in word), "")


def main():
    program, word = program_and_word()
    for words, problems in ((["analyse"], [*example_problems(), *families()]), (["resolve", "3"], resolved())):
        title = "`%s`, then `check`" % " ".join(words)
        print_table(title, HEADS, lambda name, text: row(program, words, name, text), problems, word)


if __name__ == "__main__":
    main()
