#!/usr/bin/env python3
"""Writes hall.log.xml: a shift's readings of the detectors in three pentane
halls, the same bytes each time.

    ./make_hall.py > hall.log.xml

Every ten minutes each hall's twelve detectors are read: 3 x 12 x 9 = 324
points. A point has the detector and the minute as text and its value, in per
cent of the lower explosive limit, in v; what is below the detector's limit is
written &lt;0.1. A detector that timed out has no v. One round stands on one
line.
"""
import sys

HALLS, DETECTORS, ROUNDS = 3, 12, 9


def numbers(seed):
    """A plain linear congruence, so that no library decides the bytes."""
    while True:
        seed = (seed * 1103515245 + 12345) % 2**31
        yield seed >> 8


def value(draw, hall, detector):
    level = next(draw) % 100
    if level < 15:
        return "&lt;0.1"
    if hall == 2 and detector == 7:
        return str(8 + level % 9)  # a leaking flange
    return f"{level // 60}.{1 + level % 9}"


def main():
    draw = numbers(1978)
    out = ["<log>\n"]
    for turn in range(ROUNDS):
        minute = f"{6 + turn // 6:02}:{turn % 6}0"
        for hall in range(1, HALLS + 1):
            for detector in range(1, DETECTORS + 1):
                dead = hall == 3 and detector == 4 and turn >= 3
                out.append(f"<pt>H{hall}-D{detector:02} {minute}")
                if dead or next(draw) % 100 < 7:
                    out.append(" timeout")
                else:
                    out.append(f"<v>{value(draw, hall, detector)}</v>")
                out.append("</pt>")
            out.append("\n")
    out.append("</log>\n")
    sys.stdout.write("".join(out))


main()
