"""What the harness says to its user while it works, and how it gives up a step."""
import sys


class Failure(Exception):
    """Why a step of the measurement could not be made, in words for the user."""


def say(line):
    print(f"bench: {line}", file=sys.stderr, flush=True)
