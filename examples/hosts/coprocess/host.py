"""A host that drives the whole kernel as a program beside it: `vino run KEYS` over two pipes, a line in, its lines out.

An event's lines bear its number, and no line says that they are complete. So behind each event stands a call of process 99, which there
isn't: it is refused with one line, and changes nothing. The lines before that one are the event's.

usage: host.py PROGRAM FOLDER
"""

from __future__ import annotations

import pathlib
import subprocess
import sys

KEY = "0" * 64


class Kernel:
    """A running kernel."""

    def __init__(self, program: str) -> None:
        """Starts the program and boots."""
        self._process = subprocess.Popen([program, "run", KEY], stdin=subprocess.PIPE, stdout=subprocess.PIPE, text=True, bufsize=1)
        self._events = 0
        self._send("boot")
        self.booted = self._receive()

    def _send(self, line: str) -> None:
        assert self._process.stdin
        self._process.stdin.write(line + "\n")
        self._process.stdin.flush()

    def _receive(self) -> str:
        assert self._process.stdout
        return self._process.stdout.readline().rstrip("\n")

    def event(self, line: str) -> list[str]:
        """Sends a line of a script (docs/FORMATS.md), which is an event, and gives its lines."""
        self._send(line)
        self._send("peek 99 0")
        self._events += 2
        lines = []
        while (got := self._receive()) != f"{self._events} E1":
            lines.append(got)
        return lines

    def end(self) -> int:
        """Ends the input, and gives the program's status."""
        assert self._process.stdin
        self._process.stdin.close()
        return self._process.wait()


def main() -> None:
    """Installs a plug-in as the handler of port 0, which asks for bytes in capitals, and one that divides by zero."""
    folder = pathlib.Path(sys.argv[2])
    kernel = Kernel(sys.argv[1])
    print(kernel.booted)
    for line in (
        f"image 0 {(folder / 'shout.hex').read_text().strip()}",
        f"image 1 {(folder / 'bad-divides.hex').read_text().strip()}",
        "install 0 6 0 1000",
        "bill 0 6",
        "install 0 7 1 1000",
        "bill 0 7",
        "serve 0 0 " + b"over two pipes".hex(),
        "step 0 1000",
        "serve 0 1 00",
        "step 0 1000",
    ):
        print(*line.split()[:2], "--", "; ".join(kernel.event(line)))
    print("status", kernel.end())


if __name__ == "__main__":
    main()
