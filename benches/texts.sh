#!/bin/sh
# The processor time of the built program on problem texts of 1,048,576 bytes of several kinds, and on
# certificates of growing size. Run by hand: benches/texts.sh
set -u
here=$(cd "$(dirname "$0")/.." && pwd)
"$here/orebench" check <"$here/examples/differential.txt" >/dev/null || exit 1
python3 - "$here/crates/ore_bench/out/ore_bench" <<'PY'
import resource, subprocess, sys

PROGRAM = sys.argv[1]
SIZE = 1048576
FRAME = b"ore 1\norder degrevlex\ncoordinate t\ndifferential d t\n"


def filled(front, piece, back):
    """The front, as many pieces as fit into a text of the size, and the back."""
    count = (SIZE - len(front) - len(back)) // len(piece)
    return front + piece * count + back


def matrix(rows, cols):
    return FRAME + b"matrix %d %d\n" % (rows, cols)


def certificate(rows):
    """The problem of a row of zeros, and a certificate with so many rows of `1/2*t^2*d + d - 3`."""
    return matrix(1, 1) + b"row 0\nend\ncertificate 1\nright-inverse\nmatrix S %d 1\n" % rows + b"row 1/2*t^2*d + d - 3\n" * rows + b"end\n"


def joined(signs, terms):
    """A row whose entry is a sum of these terms, with these signs in turn, in a text of the size."""
    front, back = matrix(1, 1) + b"row 0", b"\nend\n"
    room = SIZE - len(front) - len(back)
    pieces = []
    for k, term in enumerate(terms):
        piece = signs[k % len(signs)] + term
        room -= len(piece)
        if room < 0:
            break
        pieces.append(piece)
    return front, pieces, back


def degrees(count):
    """The first monomials in two letters, from the least up."""
    for degree in range(1, count):
        for power in range(degree + 1):
            yield b"t^%d*d^%d" % (power, degree - power)


def sums():
    """Sums of many parts in one entry."""
    front, pieces, back = joined([b"+"], degrees(32000))
    yield "a sum upwards", front + b"".join(pieces) + back
    yield "a sum downwards", front + b"".join(reversed(pieces)) + back
    front, pieces, back = joined([b"+", b"-"], degrees(32000))
    yield "alternating signs", front + b"".join(pieces) + back
    half = pieces[: len(pieces) // 2]
    turned = [(b"-" if piece[:1] == b"+" else b"+") + piece[1:] for piece in half]
    yield "a sum, taken away again", front + b"".join(half + turned) + back
    yield "one term again", filled(front, b"+t^2*d", back)
    yield "zeros", filled(front, b"+t-t", back)
    yield "zeros as numbers", filled(front, b"+0*t", back)
    yield "sums of two in a sum", filled(front, b"+(t-d)", back)
    yield "products in a sum", filled(front, b"+(t+1)*(d+2)", back)
    yield "nested products", filled(front, b"+" + b"(" * 20 + b"t" + b"*d+1)" * 20, back)


def texts():
    yield "comments", filled(b"", b"#\n", FRAME + b"matrix 0 0\nend\n")
    yield "one comment", filled(b"#", b"x", b"\n" + FRAME + b"matrix 0 0\nend\n")
    yield "a sum", filled(matrix(1, 1) + b"row 0", b"+t", b"\nend\n")
    yield from sums()
    yield "a product of numbers", filled(matrix(1, 1) + b"row 1", b"*1", b"\nend\n")
    yield "spaces in a row", filled(matrix(1, 1) + b"row t", b" ", b"\nend\n")
    yield "digits of one number", filled(matrix(1, 1) + b"row ", b"0", b"1\nend\n")
    yield "a number too wide", filled(matrix(1, 1) + b"row ", b"7", b"\nend\n")
    yield "one name", filled(matrix(1, 1) + b"row ", b"t", b"\nend\n")
    yield "opening parentheses", filled(matrix(1, 1) + b"row ", b"(", b"\nend\n")
    yield "short parentheses", filled(matrix(1, 1) + b"row 0", b"+(1)", b"\nend\n")
    yield "commas", filled(matrix(1, 64) + b"row ", b",", b"\nend\n")
    yield "words of a declaration", filled(FRAME, b"a ", b"\n")
    yield "spaces before a word", filled(b"", b" ", b"ore 1\n")
    yield "a number of rows", filled(FRAME + b"matrix ", b"9", b" 1\n")
    yield "empty lines", filled(b"", b"\n", b"")
    yield "line ends of Windows", filled(b"ore 1\r\norder deglex\r\n", b"#\r\n", b"matrix 0 0\r\nend\r\n")
    yield "zero bytes", filled(b"", b"\0", b"")
    for rows in (48000, 192000, 768000):
        yield "a certificate of %d rows" % rows, certificate(rows)


def spent():
    used = resource.getrusage(resource.RUSAGE_CHILDREN)
    return used.ru_utime + used.ru_stime


print("%-28s %9s  %-34s %8s" % ("text", "bytes", "answer", "seconds"))
for name, text in texts():
    before = spent()
    run = subprocess.run([PROGRAM, "check"], input=text, capture_output=True)
    print("%-28s %9d  %-34s %8.3f" % (name, len(text), run.stdout.decode().strip()[:34], spent() - before))
PY
