#!/usr/bin/env python3
"""The script that is made by rule for a number from 1 to 999, computed apart from the program.

    checks/generated.py N    prints it

checks/run compares it with what the program writes.
"""
import sys

ACCOUNT, PASSWORD = "1000000001", "ABCD"


def outputs(number):
    """The outputs of the sequence that a number begins: bits 16 to 30 of each state of a linear congruential generator."""
    state = number
    while True:
        state = (state * 1103515245 + 12345) & 0x7FFFFFFF
        yield state >> 16


def script_of(number):
    """The whole text: the operator's edits, the call of one caller, a crash of both nodes, and the bill."""
    output = outputs(number)
    edits = ["LOGON 0000000000 0000", f"ACCOUNT 1 {ACCOUNT} {PASSWORD} 0 -"]
    for place in range(1, number + 1):
        edits += [f"NEW {1000 + place}a", f"ROW 2 FRAME {place}", f"PRICE {next(output) % 10}", f"STORE {place + 1}"]
    keys = [f"{ACCOUNT}{PASSWORD}"] + [f"*{1001 + next(output) % number}#" for _ in range(2 * number)]
    lines = [f"edit 0 {edit}" for edit in edits]
    lines += ["carry 0", "dial 0 0"] + [f"keys 0 0 {key}" for key in keys] + ["hang 0 0"]
    lines += ["crash 0", "crash u", "carry 0", f"bill {ACCOUNT}"]
    return "".join(f"{line}\n" for line in lines)


if __name__ == "__main__":
    sys.stdout.write(script_of(int(sys.argv[1])))
