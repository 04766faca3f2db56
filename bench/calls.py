"""Runs the program vx_bench, which times calls of the library over the table of a request, and tells its times."""
import json
import os
import subprocess
import sys
import tempfile

import tables  # noqa: F401: brings wire and rows into reach
from wire import between, binary, item, lit

HERE = os.path.dirname(os.path.dirname(os.path.abspath(__file__)))
PROGRAM = os.path.join(HERE, "crates", "vx_bench", "out", "vx_bench")
X, Y = item("x"), item("y")
Y_IS_A = binary(Y, "=", lit("utf8", "a"))


def x_between(lower, upper, **strict):
    return between(X, lit("i64", lower), lit("i64", upper), **strict)


def joined(conditions):
    """Conditions joined by `and`, as evenly as can be, so that many of them stay within the depth of an expression."""
    if len(conditions) == 1:
        return conditions[0]
    half = len(conditions) // 2
    return binary(joined(conditions[:half]), "and", joined(conditions[half:]))


def told(what, request, runs=3):
    """The least number that the program prints of each name, over so many runs."""
    if not os.path.exists(PROGRAM):
        sys.exit("the program isn't built: cd crates/vx_bench && rt run")
    least = {}
    with tempfile.NamedTemporaryFile("w", suffix=".json") as file:
        json.dump(request, file, separators=(",", ":"))
        file.flush()
        for _ in range(runs):
            ran = subprocess.run([PROGRAM, what, file.name], stdout=subprocess.PIPE, check=True)
            for line in ran.stdout.decode().splitlines():
                name, number = line.split()
                least[name] = min(least.get(name, float("inf")), int(number))
    return least


def beside_calls(what, names, make, size, aim, growth_aim):
    """Prints the milliseconds of each call beside those of the calls on columns that it needs, and the growth from half the size."""
    half, whole = told(what, make(size // 2)), told(what, make(size))
    for name in names:
        calls = whole[name + "_calls"]
        print("%s of %d: %.1f ms, its column calls %.1f ms; ratio %.2f (at most %.1f), growth %.2f (at most %.1f)" % (
            name, size, whole[name] / 1e6, calls / 1e6, whole[name] / calls, aim, whole[name] / half[name], growth_aim))
    if "item" in whole:
        print("of these, %.1f ms to take each column out of the rows" % (whole["item"] / 1e6))
