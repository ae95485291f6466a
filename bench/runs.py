"""What the benchmarks share: images of grafts, the plain program, and what a run of a program takes."""

import importlib.machinery
import importlib.util
import os
import pathlib
import re
import shutil
import subprocess
import sys
import tempfile

TOP = pathlib.Path(__file__).resolve().parent.parent
PROVED = TOP / "crates/vino/out/vino"


def module(path):
    """A script of this repository as a module."""
    sys.dont_write_bytecode = True
    loader = importlib.machinery.SourceFileLoader(path.name, str(path))
    result = importlib.util.module_from_spec(importlib.util.spec_from_loader(path.name, loader))
    loader.exec_module(result)
    return result


CASES = module(TOP / "cases/check")
KEY = CASES.KEY
RUN = ["run", KEY]


def image(slot, text, keeps=False):
    """The line that loads a graft of this assembler text."""
    code, data = CASES.assembled(text)
    return f"image {slot} {CASES.sealed([KEY], CASES.boxed(code), data, int(keeps)).hex()}\n"


def mixed(command, count, program):
    """A script of bench/mixed_calls or bench/mixed_lines: how it begins, up to the last `open`, and so many lines."""
    words, environment = [TOP / "bench" / command, str(count)], {**os.environ, "PROGRAM": program}
    text = subprocess.run(words, env=environment, stdout=subprocess.PIPE, text=True, check=True).stdout
    lines = text.splitlines(keepends=True)
    first = 1 + max(at for at, line in enumerate(lines) if line.startswith("open"))
    return "".join(lines[:first]), lines[first:]


class Folder:
    """A folder for the files of one benchmark, which goes with it."""

    def __init__(self):
        self.folder = tempfile.TemporaryDirectory()
        self.path = pathlib.Path(self.folder.name)
        self.texts = {}

    def script(self, text):
        """A file with this text."""
        if text not in self.texts:
            self.texts[text] = self.path / f"script-{len(self.texts)}"
            self.texts[text].write_text(text)
        return self.texts[text]


def programs(words, folder):
    """The built program and the plain one: those that the words name, or else those of this repository."""
    if not words and not PROVED.exists():
        raise SystemExit("there is no proved program: build it by ./vino, or name one")
    vino = pathlib.Path(words[0]).resolve() if words else PROVED
    plain = pathlib.Path(words[1]).resolve() if len(words) > 1 else folder.path / "plain"
    if len(words) < 2:
        main = str(TOP / "bench/plain/main.rs")
        subprocess.run(["rustc", "--edition", "2024", "-C", "opt-level=3", "-o", str(plain), main], check=True)
    return str(vino), str(plain)


def output(program, words, script):
    """What a program writes, and its status."""
    with open(script) as text:
        run = subprocess.run([program, *words], stdin=text, stdout=subprocess.PIPE)
    return run.stdout, run.returncode


def seconds(command, script, sink):
    """The processor's time that a command takes, that of the system's calls included."""
    with open(script) as text:
        run = subprocess.Popen(command, stdin=text, stdout=sink)
        _, status, usage = os.wait4(run.pid, 0)
    run.returncode = os.waitstatus_to_exitcode(status)
    return usage.ru_utime + usage.ru_stime


def instructions(program, words, script):
    """The machine instructions that a run takes, as valgrind counts them."""
    command = ["valgrind", "--tool=callgrind", "--callgrind-out-file=/dev/null", program, *words]
    with open(script) as text:
        run = subprocess.run(command, stdin=text, stdout=subprocess.DEVNULL, stderr=subprocess.PIPE)
    return int(re.search(rb"Collected : (\d+)", run.stderr)[1])


def functions(program, words, script):
    """The machine instructions that a run takes in each function itself."""
    with tempfile.TemporaryDirectory() as folder, open(script) as text:
        path = f"{folder}/counts"
        command = ["valgrind", "--tool=callgrind", f"--callgrind-out-file={path}", program, *words]
        subprocess.run(command, stdin=text, stdout=subprocess.DEVNULL, stderr=subprocess.DEVNULL)
        table = subprocess.run(["callgrind_annotate", "--threshold=100", path], capture_output=True, text=True)
    counts = {}
    for count, name in re.findall(r"^ *([\d,]+) \([ \d.]+%\) +\S*?:(.+)$", table.stdout, re.MULTILINE):
        name = name.split(" [")[0]
        counts[name] = counts.get(name, 0) + int(count.replace(",", ""))
    return counts


def has(command):
    """Whether a command is there."""
    return shutil.which(command) is not None
