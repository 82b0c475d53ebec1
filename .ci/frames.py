#!/usr/bin/env python3
"""Reads off the built program `poolctl` how much stack each of its functions takes for its locals.

Disassembles it with `objdump`, and follows how far each function moves the stack's pointer down. Prints the functions
above `TOLD` bytes, the largest first. The exit status is 1 where one is above `MOST` bytes, and 2 where the program
can't be read, or has a frame whose size stands in a register. What is large lies on the heap.
"""
import argparse
import pathlib
import re
import subprocess
import sys

TOP = pathlib.Path(__file__).resolve().parent.parent
PROGRAM = TOP / "crates" / "poolctl" / "out" / "poolctl"

TOLD = 12 << 10
MOST = 16 << 10

FUNCTION = re.compile(r"^[0-9a-f]+ <(.+)>:$")
INSTRUCTION = re.compile(r"^ *[0-9a-f]+:\t(.*)$")
DOWN = re.compile(r"^sub +\$0x([0-9a-f]+),%rsp")
UP = re.compile(r"^add +\$0x([0-9a-f]+),%rsp")
# A large frame is made step by step in a loop, down to an address that is computed first.
STEPS = re.compile(r"^(?:lea +-0x([0-9a-f]+)\(%rsp\),%r11|sub +\$0x([0-9a-f]+),%r11)")
UNKNOWN = re.compile(r"^sub +%\w+,%rsp")


class Frame:
    """How deep a function's stack is, and how deep it was at most."""

    def __init__(self):
        self.depth, self.most, self.in_loop, self.is_known = 0, 0, False, True

    def move(self, bytes_down):
        self.depth = max(self.depth + bytes_down, 0)
        self.most = max(self.most, self.depth)

    def see(self, instruction):
        if found := STEPS.match(instruction):
            self.move(int(found[1] or found[2], 16))
            self.in_loop = True
        elif found := DOWN.match(instruction):
            # what the first such instruction behind the address takes is the loop's step
            if not self.in_loop:
                self.move(int(found[1], 16))
            self.in_loop = False
        elif found := UP.match(instruction):
            # the addition of a negative number moves down
            size = int(found[1], 16)
            self.move(2**64 - size if size >> 63 else -size)
        elif instruction.startswith("push "):
            self.move(8)
        elif instruction.startswith("pop "):
            self.move(-8)
        elif UNKNOWN.match(instruction):
            self.is_known = False


def frames():
    """The frames of all functions, by name."""
    command = ["objdump", "-d", "--no-show-raw-insn", str(PROGRAM)]
    read = subprocess.run(command, capture_output=True, text=True)
    if read.returncode != 0:
        sys.exit(read.stderr)
    found, frame = {}, Frame()
    for line in read.stdout.splitlines():
        if head := FUNCTION.match(line):
            frame = found[head[1]] = Frame()
        elif instruction := INSTRUCTION.match(line):
            frame.see(instruction[1])
    return found


def main():
    argparse.ArgumentParser(description=__doc__, formatter_class=argparse.RawDescriptionHelpFormatter).parse_args()
    try:
        found = frames()
    except OSError as error:
        found = {}
        print(error)
    unknown = [name for name, frame in found.items() if not frame.is_known]
    # a program without its symbols has but a few names, one for each section
    if unknown or len(found) < 100:
        print(f"the frames of {PROGRAM} can't be read: {len(found)} functions, of unknown size {unknown[:3]}")
        sys.exit(2)
    large = sorted(((frame.most, name) for name, frame in found.items() if frame.most > TOLD), reverse=True)
    for size, name in large:
        print(f"{'TOO LARGE' if size > MOST else 'large'}: {size} bytes of stack: {name}")
    print(f"{len(found)} functions, {len(large)} with a frame above {TOLD} bytes")
    sys.exit(1 if large and large[0][0] > MOST else 0)


main()
