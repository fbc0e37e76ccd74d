"""Prints one table of the lines that several processes of the benchmark wrote: medians, and the spread of the ratios.

    python3 bench/table.py LINES..."""

import statistics
import sys

TITLES = {"open": "opening 16 full sectors", "spends": "one of 10,000 spends"}


def read(files):
    """For each work and number of keys, in order: the times and quartiles of each process."""
    rows = {}
    for name in files:
        with open(name, encoding="utf-8") as f:
            for line in f:
                work, keys, *figures = line.split()
                rows.setdefault((work, keys), []).append([float(x) for x in figures])
    return rows


def row(work, keys, processes):
    """A line of the table. The ratio of a process is that of its own two medians."""
    ours, rust, low, high = zip(*processes)
    ratios = [x / y for x, y in zip(ours, rust)]
    middle = [statistics.median(x) for x in (ours, rust)]
    return (
        f"| {TITLES[work]} | {keys} | {middle[0]:,.0f} | {middle[1]:,.0f} | {statistics.median(ratios):.2f} "
        f"| {min(ratios):.2f} to {max(ratios):.2f} | {statistics.median(low):.2f} to {statistics.median(high):.2f} |"
    )


def main():
    rows = read(sys.argv[1:])
    print(f"Medians of {len(sys.argv) - 1} processes; times in nanoseconds of processor time.\n")
    print("| work | keys | ours | Rust | ours / Rust | lowest and highest process | middle half of a process's rounds |")
    print("|---|---|---|---|---|---|---|")
    for (work, keys), processes in rows.items():
        print(row(work, keys, processes))


main()
