"""Runs of a program: the processor time and the peak memory of one run."""

import array
import fcntl
import hashlib
import os
import resource
import signal
import subprocess
import tempfile
import termios
import time

PIPE_BYTES = 60_000
# A program that takes more is stopped: it would slow everything else on the machine.
ADDRESS_SPACE = 8 << 30


class Failed(Exception):
    """A run that was stopped or ended with an error; the text says which."""


def machine():
    """What the times are of: the processor and the number of cores."""
    with open("/proc/cpuinfo", encoding="utf-8") as file:
        models = [line.split(":", 1)[1].strip() for line in file if line.startswith("model name")]
    return f"{models[0] if models else 'unknown processor'}, {os.cpu_count()} cores"


def allow_many_arguments():
    """Raises the limit of the bytes of arguments, which is part of that of the stack, for programs started after it."""
    _, hard = resource.getrlimit(resource.RLIMIT_STACK)
    wanted = 64 << 20
    if hard != resource.RLIM_INFINITY:
        wanted = min(wanted, hard)
    resource.setrlimit(resource.RLIMIT_STACK, (wanted, hard))


def start(command, limit, stdin, stdout):
    child = subprocess.Popen(command, stdin=stdin, stdout=stdout, stderr=subprocess.DEVNULL)
    resource.prlimit(child.pid, resource.RLIMIT_CPU, (limit, limit))
    resource.prlimit(child.pid, resource.RLIMIT_AS, (ADDRESS_SPACE, ADDRESS_SPACE))
    return child


def finish(child, limit):
    """Waits for the end of a run; returns its seconds of user and system time."""
    _, status, usage = os.wait4(child.pid, 0)
    child.returncode = os.waitstatus_to_exitcode(status)
    if child.returncode in (-signal.SIGXCPU, -signal.SIGKILL):
        raise Failed(f"> {limit} s")
    # 1 is the status of a run without a matching line.
    if child.returncode not in (0, 1):
        raise Failed("error")
    return usage.ru_utime + usage.ru_stime


def seconds(command, limit, path):
    """The seconds of user and system time of one run on the lines of a file, whose output goes nowhere."""
    with open(path, "rb") as stdin, open(os.devnull, "wb") as stdout:
        return finish(start(command, limit, stdin, stdout), limit)


def output_digest(command, limit, path):
    """The number of lines of the output of one run, and a digest of its bytes."""
    with open(path, "rb") as stdin, tempfile.TemporaryFile() as stdout:
        finish(start(command, limit, stdin, stdout), limit)
        stdout.seek(0)
        output = stdout.read()
    return output.count(b"\n"), hashlib.sha256(output).hexdigest()


def least(tries, runs, limit, enough=None, known=None):
    """For each pair of a command and a file the least seconds of several runs, in alternation.

    Short ones run more often, up to ten times as often, until all have taken `enough` seconds (by default half a second each).
    Where a run failed the result is its failure; what is known to fail is not run.
    """
    if enough is None:
        enough = len(tries) / 2
    results = known or [None] * len(tries)
    rounds, spent = 0, 0
    while rounds < runs or rounds < 10 * runs and spent < enough:
        for index, (command, path) in enumerate(tries):
            if isinstance(results[index], Failed):
                continue
            try:
                taken = seconds(command, limit, path)
                results[index] = taken if rounds == 0 else min(taken, results[index])
                spent += taken
            except Failed as failed:
                results[index] = failed
        rounds += 1
    return results


def waits_for_input(pid, pipe):
    """Whether a process has read all that is in a pipe and sleeps, which it then does in reading."""
    unread = array.array("i", [0])
    fcntl.ioctl(pipe, termios.FIONREAD, unread)
    with open(f"/proc/{pid}/stat") as file:
        state = file.read().rsplit(")", 1)[1].split()[0]
    return unread[0] == 0 and state == "S"


def peak_bytes(command, limit, lines):
    """The peak of the resident memory of one run on lines that fit into a pipe.

    It is read while the program waits for more input, that is with its set of globs made and all these lines matched.
    `ru_maxrss` does not serve, since a new program starts with that of the process that made it.
    """
    text = "".join(line + "\n" for line in lines).encode()[:PIPE_BYTES]
    reading, writing = os.pipe()
    try:
        os.write(writing, text)
        with open(os.devnull, "wb") as stdout:
            child = start(command, limit, reading, stdout)
        while not waits_for_input(child.pid, reading):
            ended = os.waitid(os.P_PID, child.pid, os.WEXITED | os.WNOHANG | os.WNOWAIT)
            if ended is not None:
                break
            time.sleep(0.002)
        peak = 0
        with open(f"/proc/{child.pid}/status") as file:
            for line in file:
                if line.startswith("VmHWM:"):
                    peak = int(line.split()[1]) * 1024
    finally:
        os.close(writing)
        os.close(reading)
    finish(child, limit)
    return peak
