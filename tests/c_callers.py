"""Lines for a program that makes every call from C, and its answers held to second.py's.

    python3 tests/c_callers.py SEED COUNT PROGRAM..        PROGRAM.. are the words that run it

The lines are the stored ones of the trial program, edges and refusals among them, and COUNT random ones; a line that is no frame is left out.
Exit 1 at the first answer that differs, which is printed with its line.
"""

import os
import random
import subprocess
import sys

sys.dont_write_bytecode = True  # the tests leave no folder of their own

import cases
import second


def frames(seed, count):
    """Lines with their answers."""
    root = os.path.dirname(os.path.dirname(os.path.abspath(__file__)))
    with open(os.path.join(root, "crates", "trial", "stdin"), "rb") as stored:
        lines = second.lines_of(stored.read())
    rng = random.Random(f"c_callers {seed}")
    lines += [cases.some_trial_line(rng) for _ in range(count)]
    pairs = [(line, second.trial_answer(line)) for line in lines]
    return [pair for pair in pairs if pair[1] != b"FF"]


def main(words):
    if len(words) < 3 or not all(word.isdigit() for word in words[:2]):
        sys.exit("usage: c_callers.py SEED COUNT PROGRAM..")
    pairs = frames(int(words[0]), int(words[1]))
    data = b"".join(line + b"\n" for line, _ in pairs)
    ran = subprocess.run(words[2:], input=data, stdout=subprocess.PIPE)
    written = ran.stdout.split(b"\n")[:-1]
    for i, (line, due) in enumerate(pairs):
        given = written[i] if i < len(written) else b""
        if given != due:
            sys.exit(f"c_callers: the answers differ\n  line    {line!r}\n  due     {due!r}\n  written {given!r}")
    if ran.returncode != 0:
        sys.exit(f"c_callers: the program ended with {ran.returncode}")
    print(f"c_callers: {len(pairs)} calls from C are answered as second.py answers them")


if __name__ == "__main__":
    main(sys.argv[1:])
