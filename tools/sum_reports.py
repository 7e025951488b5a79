#!/usr/bin/env python3
"""Puts the reports of many lists of jobs together.

    tools/sum_reports.py LISTS

LISTS is a file with the name of a list in each line, as tools/jobs.sh prints them; the report of a list is LIST.report.
A line 'IN: why' comes for each job that isn't ok, and then the summary line of all. A list without a whole report is
told on the standard error, and isn't in the sums. The status is 0 where all jobs are ok, 1 where some aren't, and 2
where a list has no whole report.
"""
import re
import sys

SUMMARY = re.compile(r"jobs (\d+) ok (\d+) failed (\d+) read (\d+) written (\d+)")


def lines_of(name):
    with open(name, "rb") as file:
        return file.read().split(b"\n")


def inputs_of(name):
    """The inputs of a list, in the order of its jobs."""
    words = [line.split() for line in lines_of(name)]
    return [it[2].decode("utf-8", "replace") for it in words if len(it) == 4 and not it[0].startswith(b"#")]


def report_of(name, inputs):
    """The outcomes of a list's jobs, and the numbers of its summary line; None where the report isn't whole."""
    lines = [line.decode("utf-8", "replace") for line in lines_of(f"{name}.report")]
    summary = SUMMARY.fullmatch(lines[-2]) if len(lines) > 1 and not lines[-1] else None
    outcomes = [line.partition(": ")[2] for line in lines[:-2]]
    if not summary or len(outcomes) != len(inputs) or int(summary[1]) != len(inputs):
        return None
    return outcomes, [int(it) for it in summary.groups()]


def main():
    if len(sys.argv) != 2:
        print("usage: tools/sum_reports.py LISTS", file=sys.stderr)
        return 2
    sums, unfinished = [0] * 5, 0
    for name in filter(None, (line.decode() for line in lines_of(sys.argv[1]))):
        inputs = inputs_of(name)
        try:
            found, why = report_of(name, inputs), f"{name}.report isn't that of the whole list"
        except OSError as fault:
            found, why = None, f"{name}.report: {fault.strerror}"
        if not found:
            print(f"sum_reports.py: {why}: run {name} again", file=sys.stderr)
            unfinished += 1
            continue
        for it, outcome in zip(inputs, found[0]):
            if outcome != "ok":
                print(f"{it}: {outcome}")
        sums = [a + b for a, b in zip(sums, found[1])]
    print("jobs {} ok {} failed {} read {} written {}".format(*sums))
    return 2 if unfinished else 1 if sums[2] else 0


if __name__ == "__main__":
    try:
        sys.exit(main())
    except OSError as fault:
        print(f"sum_reports.py: {fault.filename}: {fault.strerror}", file=sys.stderr)
        sys.exit(2)
