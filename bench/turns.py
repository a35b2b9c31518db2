"""Programs that are timed in turn: of each row the least time counts."""
import collections
import os
import subprocess
import sys
import time

Used = collections.namedtuple("Used", "seconds read peak")


def bytes_read(child):
    """How many bytes a program that has ended asked the system for, and got."""
    with open(f"/proc/{child}/io") as counts:
        return int(counts.readline().split()[1])


def used_by(title, words, given=os.devnull):
    """What a program used whose input is a file: seconds, bytes that it read, and its peak memory in KiB. It has to end well."""
    with open(given, "rb") as source:
        start = time.perf_counter()
        child = subprocess.Popen(words, stdin=source, stdout=subprocess.DEVNULL)
        os.waitid(os.P_PID, child.pid, os.WEXITED | os.WNOWAIT)
        seconds = time.perf_counter() - start
        read = bytes_read(child.pid)
        _, status, used = os.wait4(child.pid, 0)
        child.returncode = os.waitstatus_to_exitcode(status)
    if child.returncode != 0:
        sys.exit(f"{title} ended with status {child.returncode}")
    return Used(seconds, read, used.ru_maxrss)


def least_of_turns(turns, rows_of, prepare, seconds_of):
    """The least seconds of each row. A turn begins anew by `prepare`, and runs the rows that `rows_of` gives of its number."""
    least = {}
    for number in range(turns):
        prepare()
        for row in rows_of(number):
            seconds = seconds_of(row)
            least[row] = min(seconds, least.get(row, seconds))
    return least


def par2_words(width, into, given):
    """Reed-Solomon by par2 with as many blocks as `width` clouds have chunks: any 2 * (width - 2) of them give the file."""
    blocks = [f"-b{2 * (width - 2)}", "-c4", "-n1"]
    return ["par2create", "-q", "-q", *blocks, "-B", os.path.dirname(given), into, given]
