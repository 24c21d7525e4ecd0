"""`python3 -m model < SCRIPT`, in tools/, does what `apexplay play` does, by the model."""

import sys

from .play import play

outcome = play(sys.stdin.buffer.read())
sys.stdout.write(outcome.text)
sys.stderr.write(outcome.message)
sys.exit(outcome.status)
