#!/usr/bin/env python3
"""Makes sample jobs (NAME.job), and for each the card that `cardmake` must write (NAME.card) or the line of its error (NAME.err).

The cards are packed here from the card format alone, out of bounds that are given again as numbers, and not by reading the jobs.
"""
import pathlib
import sys

HERE = pathlib.Path(__file__).resolve().parent
sys.path.insert(0, str(HERE.parent))
from pack import card


def good(name, text, steps, bounds):
    (HERE / f"{name}.job").write_bytes(text.encode())
    (HERE / f"{name}.card").write_bytes(card(steps, bounds))


def wrong(name, text, line):
    (HERE / f"{name}.job").write_bytes(text.encode())
    (HERE / f"{name}.err").write_text(line + "\n")


def main():
    good("two_steps", "steps 2\nbound 0 1 10 20\n", 2, [(0, 1, 10, 20)])
    assert (HERE / "two_steps.card").read_bytes().hex() == "1040100" + "01c000140" + "0014"
    good(
        "washer",
        "# A film washer: fill, soak, drain.\n"
        "\n"
        "steps 4      # numbered 0 to 3\n"
        "bound 0 1 30 60\n"
        "\tbound 1 2 - 120   # no lower end\n"
        "bound 2 3 45 -\n"
        "   \n"
        "bound 3 0 -300 -5\n"
        "bound 1 3 -1000000 1000000",
        4,
        [(0, 1, 30, 60), (1, 2, None, 120), (2, 3, 45, None), (3, 0, -300, -5), (1, 3, -1000000, 1000000)],
    )
    good("no_bounds", "steps 1", 1, [])
    good("carriage_returns", "# dos\r\nsteps 3\r\n\r\nbound 0 2 -7 0\r\n", 3, [(0, 2, -7, 0)])
    good("zeros_before", "steps 0064\nbound 063 007 -0 007\n", 64, [(63, 7, 0, 7)])
    full = [(k % 64, (k * 7 + 1) % 64, k - 256, None if k % 3 else 1000 + k) for k in range(512)]
    lines = "".join(f"bound {a} {b} {l} {'-' if u is None else u}\n" for a, b, l, u in full)
    good("full", "steps 64\n" + lines, 64, full)

    wrong("empty", "", "error at line 1")
    wrong("no_steps", "# nothing but a comment\n\n", "error at line 3")
    wrong("no_steps_unended", "# nothing but a comment", "error at line 2")
    wrong("bound_before_steps", "\nbound 0 1 1 2\nsteps 2\n", "error at line 2")
    wrong("second_steps", "steps 2\nbound 0 1 1 2\nsteps 2\n", "error at line 3")
    wrong("three_words", "steps 2\n\nbound 0 1 5\n", "error at line 3")
    wrong("five_words", "steps 2\nbound 0 1 5 6 7\n", "error at line 2")
    wrong("steps_alone", "steps\n", "error at line 1")
    wrong("other_word", "steps 2\nbonds 0 1 5 6\n", "error at line 2")
    wrong("no_number", "steps 2\nbound 0 1 5 six\n", "error at line 2")
    wrong("plus_sign", "steps 2\nbound 0 1 +5 6\n", "error at line 2")
    wrong("two_minus_signs", "steps 2\nbound 0 1 --5 6\n", "error at line 2")
    wrong("steps_absent", "steps -\n", "error at line 1")
    wrong("steps_too_large", "# too many\nsteps 65536\n", "error at line 2")
    wrong("step_too_large", "steps 2\nbound 0 65536 5 6\n", "error at line 2")
    wrong("upper_too_large", "steps 2\nbound 0 1 5 2147483648\n", "error at line 2")
    wrong("lower_too_small", "steps 2\nbound 0 1 -2147483649 6\n", "error at line 2")
    wrong("many_digits", "steps 2\nbound 0 1 5 99999999999999999999999999\n", "error at line 2")
    wrong("comment_cuts", "steps 2\nbound 0 1 5 #6\n", "error at line 2")
    wrong("step_out_of_range", "steps 2\nbound 0 2 5 6\n", "refused 3 at 0")
    wrong("step_largest", "steps 2\nbound 0 1 5 6\nbound 65535 0 5 6\n", "refused 3 at 1")
    wrong("reach", "steps 2\nbound 0 1 5 6\nbound 0 1 5 1000001\n", "refused 4 at 1")
    wrong("reach_largest", "steps 2\nbound 0 1 -2147483648 2147483647\n", "refused 4 at 0")
    wrong("no_end", "steps 2\nbound 0 1 - -\n", "refused 5 at 0")
    wrong("zero_steps", "steps 0\n", "refused 7")
    wrong("65_steps", "steps 65\nbound 0 1 5 6\n", "refused 7")
    wrong("513_bounds", "steps 2\n" + "bound 0 1 5 6\n" * 513, "refused 7")


main()
