#!/usr/bin/env python3
"""Writes a capture of made frames.

generate.py SEED COUNT FILE [--micros]

Frames 1 to COUNT follow from SEED by the rule that docs/FORMATS.md states. The capture is little-endian,
with stamps in nanoseconds, or with --micros in microseconds.
"""
import sys

import frames


def check_rule():
    """Compares the first frame of seed 0 with what is written out in docs/FORMATS.md."""
    draw = next(frames.draws(0, 1))
    recipe = frames.RECIPES["mixed"]()
    assert draw == 0x14057B7E
    assert recipe.shape(draw).back[3] == 14 and recipe.shape(draw).payload == 898
    _, capture = frames.portions(recipe, 0, 1, micros=True)
    assert capture[16 + 14 : 16 + 34].hex() == "4500039e000100004011633f0a00000e0a010001"
    assert len(capture) == 16 + 14 + 28 + 898 and capture[-1] == 1


def main(words):
    micros = "--micros" in words
    words = [word for word in words if word != "--micros"]
    if len(words) != 3 or not all(word.isdecimal() for word in words[:2]):
        print("usage: generate.py SEED COUNT FILE [--micros]", file=sys.stderr)
        return 2
    check_rule()
    frames.write_capture(words[2], "mixed", int(words[0]), int(words[1]), micros)
    return 0


if __name__ == "__main__":
    sys.exit(main(sys.argv[1:]))
