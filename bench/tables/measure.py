#!/usr/bin/env python3
"""measure.py COUNT: in the folder of the program, what it tells, and bytes a row beside the rows alone."""
import subprocess
import sys

count = sys.argv[1]


def peak(words):
    """Runs the program; its output, and the peak of its memory in bytes."""
    script = "import resource,subprocess,sys;r=subprocess.run(sys.argv[1:],stdout=subprocess.PIPE,text=True);print(r.stdout,end='');print('peak',resource.getrusage(resource.RUSAGE_CHILDREN).ru_maxrss*1024);sys.exit(r.returncode)"
    told = subprocess.run([sys.executable, "-c", script] + words, stdout=subprocess.PIPE, text=True, check=True).stdout.split("\n")
    return told, int(next(it for it in told if it.startswith("peak")).split()[1])


program = "out/tables_bench"
for line in peak([program])[0]:
    words = line.split()
    if len(words) == 3 and words[0] not in ("places", "held"):
        print(f"{words[0]:18} {words[1]:>8} times, {int(words[2]) * 1000 / int(words[1]):8.0f} ns")
    elif words:
        print(line)
for table, rows in (("items", "item_rows"), ("subs", "sub_rows")):
    beside = peak([program, table, count])[1] - peak([program, rows, count])[1]
    print(f"{table}: {beside / int(count):.0f} bytes beside a row, of {count}")
