"""A check's table on the screen, what is wrong below it, and the status."""
import sys


def show(check, table, faults):
    widths = [max(len(line[at]) for line in table) for at in range(len(table[0]))]
    for line in table:
        print("  ".join(cell.ljust(width) for cell, width in zip(line, widths)).rstrip())
    for fault in faults:
        print(f"{check}: {fault}")
    print(f"{check}: {'all hold' if not faults else f'{len(faults)} do not hold'}")
    sys.exit(1 if faults else 0)
