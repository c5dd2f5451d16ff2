"""How much memory and processor time a command takes."""
import subprocess
import sys

# A process counts as its own the peak of the one that starts it, so a small one starts the command.
WATCH = """
import os, sys
nothing = os.open(os.devnull, os.O_RDWR)
streams = [(os.POSIX_SPAWN_DUP2, nothing, stream) for stream in (0, 1)]
_, status, used = os.wait4(os.posix_spawn(sys.argv[1], sys.argv[1:], os.environ, file_actions=streams), 0)
print(os.waitstatus_to_exitcode(status), used.ru_maxrss * 1024, used.ru_utime + used.ru_stime)
"""


def watched(*words):
    """The status of a command, its peak memory in bytes, and its processor time in seconds. It reads and writes
    nothing."""
    words = [sys.executable, "-I", "-S", "-c", WATCH, *map(str, words)]
    status, peak, seconds = subprocess.run(words, stdout=subprocess.PIPE, check=True).stdout.split()
    return int(status), int(peak), float(seconds)
