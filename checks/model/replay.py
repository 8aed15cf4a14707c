#!/usr/bin/env python3
"""Replays captures as `onvm --serial` does, by a model of its own that was written after docs/FORMATS.md.

replay.py --serial [OPTION..] CHAIN OUT CAPTURE..

It takes the words of onvm, makes OUT and prints the report. It knows neither faults nor roles beside each other: each
word has to be right. What it says of an example is compared with what the program said (checks/model.sh).
"""
import json
import sys

sys.dont_write_bytecode = True

import captures  # noqa: E402
import report  # noqa: E402
import serial  # noqa: E402


def main(words):
    options = [word for word in words if word.startswith("--")]
    chain, out, *feeds = [word for word in words if not word.startswith("--")]
    assert "--serial" in options, "only serial runs have a model"
    with open(chain, encoding="utf-8") as file:
        run = serial.Run(json.load(file), [captures.feed(word) for word in feeds])
    sent = [(frame.stamp, frame.data) for frames in run.frames for frame in frames if frame.outcome.startswith("sent ")]
    with open(out, "wb") as file:
        file.write(captures.emit(sent))
    print("\n".join(report.report(run, options)))
    return 0


if __name__ == "__main__":
    sys.exit(main(sys.argv[1:]))
