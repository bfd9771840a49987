"""Writes the transcript of the script on standard input."""

import sys

from execution import Run
from script import Script


def transcript(text):
    return Run(Script(text)).transcript()


if __name__ == "__main__":
    sys.stdout.write(transcript(open(0, newline="").read()))
