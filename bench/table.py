"""Rows of the table that `bench/all` prints and `bench/README.md` holds. A script that is run by itself writes none: the
file that takes the rows is named by the variable BENCH_TABLE."""
import os
import sys

HEAD = "| What | Script | Ours | Yardstick | Ratio | Aim | Met | Commit |\n|---|---|---|---|---|---|---|---|"
SCRIPT = os.path.basename(sys.argv[0])


def time_row(what, took, beside=None, most=None, within=None, memory=None):
    """A row for a time in seconds.

    beside: the yardstick's time and its name. most: the greatest ratio that is aimed at. within: the greatest time that
    is aimed at, in seconds. memory: the greatest memory in kB, which is shown only."""
    ours = "%.3f s" % took + ("" if memory is None else ", %.1f MB" % (memory / 1024))
    ratio = None if beside is None else took / beside[0]
    yardstick = "" if beside is None else "%.3f s %s" % beside
    aims = [aim for aim in (None if most is None else "%g" % most, None if within is None else "%g s" % within) if aim]
    met = (most is None or ratio <= most) and (within is None or took <= within)
    add_row(what, ours, yardstick, "" if ratio is None else "%.2f" % ratio, ", ".join(aims), met if aims else None)


def memory_row(what, taken, most, of):
    """A row for a greatest memory in bytes, beside the bytes that it may take: those of something."""
    add_row(what, "%.1f MB" % (taken / 1e6), "%.1f MB, %s" % (most / 1e6, of), "%.2f" % (taken / most), "1", taken <= most)


def growth_row(what, grows, most):
    """A row for how many times as long twice the input takes."""
    add_row(what, "%.2f times" % grows, "", "", "%g times" % most, grows <= most)


def add_row(what, ours, yardstick, ratio, aim, is_met):
    """A row of these cells; without an aim nothing can be met."""
    path = os.environ.get("BENCH_TABLE")
    if path:
        met = "" if is_met is None else "yes" if is_met else "no"
        with open(path, "a", encoding="utf-8") as file:
            file.write("| %s | `%s` | %s | %s | %s | %s | %s |\n" % (what, SCRIPT, ours, yardstick, ratio, aim, met))
