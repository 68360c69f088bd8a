"""Measures the time, the memory and the instructions of one run."""
import os
import re
import subprocess
import sys
import time


def timed(words, path):
    """Returns the seconds of processor time of one run of a command."""
    with open(path) as given:
        started = subprocess.Popen(words, stdin=given, stdout=subprocess.DEVNULL)
        _, status, used = os.wait4(started.pid, 0)
    started.returncode = os.waitstatus_to_exitcode(status)
    if started.returncode:
        sys.exit(f"{words[0]} ended with status {started.returncode}")
    return used.ru_utime + used.ru_stime


def held(words, path):
    """Returns the most memory of one run of a command, in KiB, as the kernel reports it every few milliseconds."""
    most = 0
    with open(path) as given:
        started = subprocess.Popen(words, stdin=given, stdout=subprocess.DEVNULL)
        while started.poll() is None:
            with open(f"/proc/{started.pid}/status") as status:
                found = re.search(r"VmHWM:\s+([0-9]+)", status.read())
            most = max(most, int(found[1])) if found else most
            time.sleep(0.002)
    return most


def instructions(program, path):
    """Returns the instructions of one run, which no other load on the machine disturbs."""
    tool = ["valgrind", "--tool=cachegrind", "--cache-sim=no", "--cachegrind-out-file=/dev/null", program]
    with open(path) as given:
        ran = subprocess.run(tool, stdin=given, stdout=subprocess.DEVNULL, stderr=subprocess.PIPE, text=True, check=True)
    return int(re.search(r"I\s+refs:\s+([0-9,]+)", ran.stderr)[1].replace(",", ""))


def answers(program, path):
    """Returns what a program prints for a script."""
    with open(path) as given:
        return subprocess.run([program], stdin=given, stdout=subprocess.PIPE, check=True).stdout
