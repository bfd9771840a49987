"""Runs random scripts by the program and by the evaluator here, and compares the transcripts.

usage: python3 examples/random/compare.py FIRST COUNT [PROGRAM [WORD]]

The scripts are those of COUNT seeds from FIRST on. PROGRAM is the proved one where it isn't given, and WORD is `plain`.
Each script for which the program writes another text is kept in the folder of temporary files.
"""

import pathlib
import subprocess
import sys
import tempfile

from evaluate import transcript
from generate import script

PROVED = pathlib.Path(__file__).resolve().parents[2] / "crates/attrs/out/attrs"


def is_same(program, word, seed):
    text = script(seed)
    done = subprocess.run([program, word], input=text.encode(), capture_output=True, check=False)
    if done.returncode == 0 and done.stdout.decode() == transcript(text):
        return True
    kept = pathlib.Path(tempfile.gettempdir()) / f"seed-{seed}.attrs"
    kept.write_text(text)
    print(f"{kept}: another text, with status {done.returncode}")
    return False


def main(first, count, program=PROVED, word="plain"):
    seeds = range(int(first), int(first) + int(count))
    differing = sum(not is_same(program, word, seed) for seed in seeds)
    print(f"{len(seeds)} scripts, {differing} with another text")
    return 1 if differing else 0


if __name__ == "__main__":
    if not 3 <= len(sys.argv) <= 5:
        sys.exit(__doc__)
    sys.exit(main(*sys.argv[1:]))
