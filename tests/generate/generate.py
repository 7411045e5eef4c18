#!/usr/bin/env python3
"""generate.py SEED [PROFILE]: writes one session to standard output, the same one for the same seed and profile.

A generator steers and does not judge: it remembers the parameters it wrote and how many conversions it gave, so that it
can aim at thresholds, but never works out what the gauge holds. Without a profile the seed chooses one: each has its turns
in a round. `generate.py SEED tray` writes a session of a tray, whose profile the seed chooses. builder.py has what sessions
are made of, each file of scenes/ scenes and profiles of one theme.
"""
import functools
import importlib
import pathlib
import random
import sys

from builder import (  # what the tests and the bench take from here
    CAMERA_IMAGE, CONVERSION, COPY, IMAGE, LONG_TRANSACTION, MOST, POWER_ON, PROFILES, READ, READING, SAMPLE, SLOT_KINDS, TRANSACTION, TRAY_TURNS, TRAYS,
    TURNS, WRITE, boundaries, little, record)

for file in sorted(pathlib.Path(__file__).with_name("scenes").glob("*.py")):
    importlib.import_module(f"scenes.{file.stem}")



def round_of(turns):
    return [name for turn in range(max(turns.values())) for name in sorted(turns) if turns[name] > turn]


ROUND, TRAY_ROUND = round_of(TURNS), round_of(TRAY_TURNS)
SEEDS, LONG_SEEDS = 24 * len(ROUND), 300 * len(ROUND)  # how many sessions are compared, usually and with --long
TRAY_SEEDS, TRAY_LONG_SEEDS = 24 * len(TRAY_ROUND), 300 * len(TRAY_ROUND)


def profile_of(seed):
    return ROUND[seed % len(ROUND)]


def tray_profile_of(seed):
    return TRAY_ROUND[seed % len(TRAY_ROUND)]


@functools.lru_cache(SEEDS + TRAY_SEEDS)  # a case asks for many of them several times
def generated(seed, profile):
    return {**PROFILES, **TRAYS}[profile](random.Random(f"{profile} {seed}"))


def generate(seed, profile=None):
    return generated(seed, profile or profile_of(seed))


def generate_tray(seed):
    return generate(seed, tray_profile_of(seed))


def main(arguments):
    if not 1 <= len(arguments) <= 2 or not arguments[0].isdigit() or arguments[1:] and arguments[1] not in {*PROFILES, *TRAYS, "tray"}:
        sys.exit("generate.py SEED [PROFILE]; profiles: " + " ".join(sorted(PROFILES)) + "; of trays: tray " + " ".join(sorted(TRAYS)))
    seed, profile = int(arguments[0]), (arguments + [None])[1]
    sys.stdout.buffer.write(generate_tray(seed) if profile == "tray" else generate(seed, profile))


if __name__ == "__main__":
    main(sys.argv[1:])
