"""A `night` that kills somebody at chosen moments of its sessions.

    python3 clients_killer.py drive STORE     and all else that `night` does

WHOLE_NIGHT is the program. MOMENTS has three words for each moment, and a comma after all but the
last one:

- the number of a part of the input, over all sessions;
- where: 0 when the part has come, 1 when `night` has it, 2 when `night` has answered, 3 when the
  client has the answer;
- the victim: `client`, `night` or `both`.
"""

from __future__ import annotations

import os
import signal
import subprocess
import sys
from typing import IO

PLACES, VICTIMS = range(4), ("client", "night", "both")


def part_of(file: IO[bytes]) -> bytes | None:
    """The next part, with its empty line, if it comes as a whole."""
    part = b""
    while (line := file.readline()).endswith(b"\n"):
        part += line
        if line == b"\n":
            return part
    return None


class Killer:
    def __init__(self, program: str, store: str, moments: str) -> None:
        self.victims = {(int(part), int(place)): victim for part, place, victim
                        in (it.split(" ") for it in moments.split(","))}
        self.count_file = f"{store}.parts"
        self.night = subprocess.Popen([program, "drive", store], stdin=subprocess.PIPE,
                                      stdout=subprocess.PIPE)

    def counted(self) -> int:
        """How many parts have come, with this one."""
        with open(self.count_file, "ab") as file:
            file.write(b".")
            return file.tell()

    def strike(self, count: int, place: int) -> None:
        victim = self.victims.get((count, place))
        if victim in ("client", "both"):
            os.kill(os.getppid(), signal.SIGKILL)
        if victim in ("night", "both"):
            self.night.kill()
            os.kill(os.getpid(), signal.SIGKILL)

    def run(self) -> int:
        assert self.night.stdin and self.night.stdout
        while part := part_of(sys.stdin.buffer):
            count = self.counted()
            self.strike(count, 0)
            try:
                self.night.stdin.write(part)
                self.night.stdin.flush()
                self.strike(count, 1)
                answer = part_of(self.night.stdout)
                if answer is None:
                    break
                self.strike(count, 2)
                sys.stdout.buffer.write(answer)
                sys.stdout.buffer.flush()
            except BrokenPipeError:
                break
            self.strike(count, 3)
        try:
            self.night.stdin.close()
        except BrokenPipeError:
            pass
        return self.night.wait()


def main(*words: str) -> int:
    program = os.environ["WHOLE_NIGHT"]
    if words[0] != "drive":
        os.execv(program, [program, *words])
    return Killer(program, words[1], os.environ["MOMENTS"]).run()


if __name__ == "__main__":
    sys.exit(main(*sys.argv[1:]))
