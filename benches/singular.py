#!/usr/bin/env python3
"""The families of searches.py by Singular, beside the program: one row of a table for each.

Singular gets the ring of the problem, a commutative one where no letter acts and else a G-algebra, and finds what `analyse`
decides: the syzygies of the transposed adjoint, those of the parametrisation Q, and whether these lie in the row module. For
`resolve 3` it runs `nres`. It forms no certificate. No entry of these families has a coordinate, so the transposed adjoint
is the transpose; a problem with one is left out.

The times are processor milliseconds: of Singular's whole process, of the computation within it (the mean of as many as
take a fifth of a second), and of the whole process of the program, which writes a certificate. The answers stand beside
each other: the verdicts, or how many rows each link has, by Singular up to the first without rows.

Run by hand: benches/singular.py [PROGRAM] [WORD], as searches.py. On Debian the packages singular-ui and singular-modules
have Singular; without the second it is slower.
"""
import re
import shutil
import sys

from measure import LIMIT, one_run, shortest_run
from searches import families, print_table, program_and_word, resolved

HEADS = ["problem", "Singular", "process, ms", "computation, ms", "program", "process, ms"]

START = """ring letters = 0,(%(names)s),(dp,c);
%(algebra)s
matrix equations[%(rows)d][%(columns)d] = %(entries)s;
module row_module = module(transpose(equations));
module column_kernel, row_kernel;
list links;
string answer;
system("--ticks-per-sec", 1000);
int k, times, begun = 0, 0, timer;
while (times == 0 or timer - begun < %(ticks)d)
{
%(work)s
  times++;
}
print(answer + ";" + string(timer - begun) + ";" + string(times));
"""

ALGEBRA = """matrix brackets[%(letters)d][%(letters)d];
%(brackets)s
def algebra = nc_algebra(1, brackets);
setring algebra;"""

ANALYSE = """  column_kernel = syz(module(equations));
  row_kernel = freemodule(%(columns)d);
  if (size(column_kernel) > 0)
  {
    row_kernel = syz(module(transpose(matrix(column_kernel, %(columns)d, ncols(column_kernel)))));
  }
  answer = "controllable";
  if (size(reduce(row_kernel, std(row_module))) > 0) { answer = "autonomous-element"; }"""

RESOLVE = """  links = nres(row_module, 4);
  answer = "";
  for (k = 2; k <= size(links); k++) { answer = answer + " " + string(size(links[k])); if (size(links[k]) == 0) { break; } }"""

BRACKETS = {"differential": "1", "shift": "%(step)s*%(name)s", "delay": "-%(step)s*%(name)s"}


def brackets(declarations):
    """The lines that say by what `d t` differs from `t d`, for each letter that acts."""
    place = {words[1]: k for k, words in enumerate(declarations, 1)}
    lines = []
    for kind, name, *rest in declarations:
        if rest:
            value = BRACKETS[kind] % {"name": name, "step": rest[-1]}
            lines.append("brackets[%d,%d] = %s;" % (place[rest[0]], place[name], value))
    return "\n".join(lines)


def singular_text(problem, work, ticks):
    """What Singular reads: the ring, the matrix, and the work again until so many milliseconds are over; None where an
    entry has a coordinate."""
    lines = problem.decode().splitlines()
    head = next(k for k, line in enumerate(lines) if line.startswith("matrix "))
    declarations = [line.split() for line in lines[2:head]]
    rows, columns = map(int, lines[head].split()[1:])
    entries = ",".join(line.removeprefix("row ") for line in lines[head + 1 : head + 1 + rows])
    if {words[1] for words in declarations if words[0] == "coordinate"} & set(re.findall(r"[A-Za-z]\w*", entries)):
        return None
    acting = brackets(declarations)
    algebra = ALGEBRA % {"letters": len(declarations), "brackets": acting} if acting else ""
    values = {"names": ",".join(words[1] for words in declarations), "rows": rows, "columns": columns, "entries": entries}
    return (START % {**values, "algebra": algebra, "work": work % {"columns": columns}, "ticks": ticks}).encode()


def answer_of_program(written):
    """The verdict, or how many rows each link has."""
    links = re.findall(rb"^matrix L (\d+)", written, re.M)
    return b", ".join(links).decode() if links else written.partition(b"\n")[2].partition(b"\n")[0].decode()


def row(program, words, work, name, text):
    """The cells of a problem."""
    once, often = singular_text(text, work, 0), singular_text(text, work, 200)
    if once is None:
        return [name, "left out"]
    whole = shortest_run(["Singular", "-q"], once)
    told = one_run(["Singular", "-q"], often).output.decode().strip().rpartition("\n")[2].split(";")
    if whole.status < 0 or len(told) != 3:
        return [name, "refused, or not done in %d seconds" % LIMIT]
    found = shortest_run([program, *words], text)
    singular = [", ".join(told[0].split()), "%.1f" % (1000 * whole.seconds), "%.2f" % (int(told[1]) / int(told[2]))]
    return [name, *singular, answer_of_program(found.output), "%.1f" % (1000 * found.seconds)]


def main():
    if not shutil.which("Singular"):
        sys.exit("singular.py: Singular isn't installed")
    program, word = program_and_word()
    for words, work, problems in ((["analyse"], ANALYSE, families()), (["resolve", "3"], RESOLVE, resolved())):
        print_table("`%s`" % " ".join(words), HEADS, lambda name, text: row(program, words, work, name, text), problems, word)


if __name__ == "__main__":
    main()
