"""What a command takes on an input, for the scripts of this folder."""
import os
import re
import resource
import shutil
import subprocess
import tempfile
from collections import namedtuple

LIMIT = 300  # seconds for one run
REPEATS = 5  # runs of which the shortest counts, where one takes less than a tenth of a second

Run = namedtuple("Run", "status output seconds")  # the status is negative where the limit ended the run


def one_run(command, text):
    """One run, with its processor seconds."""
    with tempfile.TemporaryFile() as source, tempfile.TemporaryFile() as sink:
        source.write(text)
        source.seek(0)
        process = subprocess.Popen(command, stdin=source, stdout=sink, stderr=subprocess.DEVNULL)
        resource.prlimit(process.pid, resource.RLIMIT_CPU, (LIMIT, LIMIT))
        _, ended, usage = os.wait4(process.pid, 0)
        process.returncode = os.waitstatus_to_exitcode(ended)
        sink.seek(0)
        return Run(process.returncode, sink.read(), usage.ru_utime + usage.ru_stime)


def shortest_run(command, text):
    """The shortest of some runs, where they are short."""
    first = one_run(command, text)
    again = REPEATS - 1 if 0 <= first.seconds < 0.1 else 0
    return min([first] + [one_run(command, text) for _ in range(again)], key=lambda run: run.seconds)


def kilobytes(command, text):
    """The greatest memory that a run holds; a parent as small as `time` doesn't raise it."""
    with tempfile.NamedTemporaryFile("r") as figures:
        command = ["/usr/bin/time", "--quiet", "--format=%M", "--output=" + figures.name, *command]
        subprocess.run(command, input=text, capture_output=True, timeout=LIMIT)
        return int(figures.read())


def by_perf(command, text):
    with tempfile.NamedTemporaryFile("r") as figures:
        command = ["perf", "stat", "-x,", "-e", "instructions:u", "-o", figures.name, *command]
        subprocess.run(command, input=text, capture_output=True, timeout=LIMIT)
        found = re.search(r"^(\d+),", figures.read(), re.M)
        return found and int(found.group(1))


def by_valgrind(command, text):
    command = ["valgrind", "--tool=callgrind", "--callgrind-out-file=/dev/null", *command]
    run = subprocess.run(command, input=text, capture_output=True, timeout=LIMIT)
    found = re.search(rb"Collected : (\d+)", run.stderr)
    return found and int(found.group(1))


def instructions(command, text):
    """How many instructions a run takes, or None where neither program counts them within the limit."""
    found = None
    try:
        if shutil.which("perf"):
            found = by_perf(command, text)
        if not found and shutil.which("valgrind"):
            found = by_valgrind(command, text)
    except subprocess.TimeoutExpired:
        pass
    return found
