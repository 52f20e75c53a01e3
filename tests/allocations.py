"""Makes each allocation of the built program fail, over whole scripts: that one alone, and that one with all behind it.

A run must then end as the whole one does, or with status 3 and its line, behind a front of the whole output that ends
with a reply. The next run, of the lines that had no reply, must tell the rest of the output: no statement is lost, and
none is executed twice. Prints only failures; it needs cc.

allocations.py PROGRAM SCRIPT..
"""

import os
import subprocess
import sys
import tempfile
from pathlib import Path

WANT = b"aria: want of memory\n"


def replies(told):
    return sum(not line.startswith(b"row ") for line in told.splitlines())


class Trial:
    def __init__(self, program, library, room):
        self.program = os.path.abspath(program)
        self.library = library
        self.room = room
        self.failures = 0

    def run(self, folder, lines, **variables):
        ended = subprocess.run(
            [self.program, "run"], cwd=folder, input=b"".join(line + b"\n" for line in lines), capture_output=True,
            timeout=60, env={"LD_PRELOAD": self.library, **variables} if variables else {})
        return ended.returncode, ended.stdout, ended.stderr

    def one(self, name, lines, whole, at, on):
        with tempfile.TemporaryDirectory(dir=self.room) as folder:
            status, told, error = self.run(folder, lines, FAILING=str(at), **({"FAILING_ON": "1"} if on else {}))
            if (status, told) == whole:
                return
            rest = self.run(folder, lines[replies(told):])
            if status != 3 or error != WANT or told + rest[1] != whole[1] or rest[0] not in (0, 1):
                print(f"FAILED: {name}, allocation {at}{' and on' if on else ''}: status {status}, {error!r}, "
                      f"{len(told)} bytes told, then status {rest[0]} and {len(rest[1])} of {len(whole[1])}")
                self.failures += 1

    def script(self, path):
        lines = [line for line in Path(path).read_bytes().split(b"\n") if line.strip(b" \t\r")]
        counted = os.path.join(self.room, "counted")
        with tempfile.TemporaryDirectory(dir=self.room) as folder:
            whole = self.run(folder, lines, COUNTED=counted)[:2]
        count = int(Path(counted).read_text())
        for at in range(1, count + 1):
            for on in (False, True):
                self.one(os.path.basename(path), lines, whole, at, on)
        return count


def main(program, *scripts):
    with tempfile.TemporaryDirectory() as room:
        library = os.path.join(room, "failing.so")
        source = Path(__file__).with_name("failing.c")
        subprocess.run(["cc", "-O1", "-shared", "-fPIC", "-o", library, source], check=True)
        trial = Trial(program, library, room)
        for path in scripts:
            trial.script(path)
        return 1 if trial.failures else 0


if __name__ == "__main__":
    sys.exit(main(*sys.argv[1:]))
