"""Copies a line of 8 MB and one of 32 MB, each as long as may be, and compares the times that the processor takes.

usage: long_line.py PROGRAM
"""

import os
import subprocess
import sys
import tempfile

MEGABYTE = 1 << 20
SHORT, LONG = 8, 32  # megabytes
RUNS = 5
# The greatest ratio: the bytes come to 4. A look at each segment at each read comes to about 8, and a search from the front at
# each read to 16.
MOST = 6


def processor_time(megabytes):
    with tempfile.TemporaryFile() as line:
        line.write(b"x" * (megabytes * MEGABYTE))
        line.seek(0)
        program = subprocess.Popen(
            [sys.argv[1], "copy", "line", "len4", f"max={megabytes * MEGABYTE}"],
            stdin=line,
            stdout=subprocess.DEVNULL,
        )
        _, status, usage = os.wait4(program.pid, 0)
    if status != 0:
        raise RuntimeError(f"a line of {megabytes} MB: wait status {status}")
    return usage.ru_utime + usage.ru_stime


short = min(processor_time(SHORT) for _ in range(RUNS))
long = min(processor_time(LONG) for _ in range(RUNS))
print(f"a line of {LONG} MB takes {long / short:.1f} times as long as one of {SHORT} MB")
sys.exit(long / short > MOST)
