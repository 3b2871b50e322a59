"""Prints the peak of memory of a program for each further pair: that of 2,000,000 pairs less that of 1,000,000.

    peak_memory.py PROGRAM    PROGRAM reads how many pairs it makes
"""

import os
import subprocess
import sys


def peak(pairs):
    child = subprocess.Popen([sys.argv[1]], stdin=subprocess.PIPE, stdout=subprocess.DEVNULL)
    child.stdin.write(b"%d\n" % pairs)
    child.stdin.close()
    _, status, usage = os.wait4(child.pid, 0)
    assert status == 0
    return usage.ru_maxrss * 1024


print(f"{os.path.basename(sys.argv[1])}: {(peak(2000000) - peak(1000000)) / 1000000:.1f} bytes a pair at the peak")
