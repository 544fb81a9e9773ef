"""rereading.py CHANGE NAME COMMAND..: runs the command, and changes the file NAME by the shell command CHANGE before it reads
its files again. The command's first write to standard error, which comes between, waits for room in a full pipe. What it
writes there comes to our standard error. Ends with the command's status."""

import os
import subprocess
import sys
import time
from pathlib import Path

change, name, *command = sys.argv[1:]
reading, writing = os.pipe()
os.set_blocking(writing, False)
filled = 0
try:
    while True:
        filled += os.write(writing, bytes(4096))
except BlockingIOError:
    pass
os.set_blocking(writing, True)
running = subprocess.Popen(command, stderr=writing)
os.close(writing)


def waits_at_standard_error():
    """Is the command in a system call whose first argument is descriptor 2?"""
    words = Path(f"/proc/{running.pid}/syscall").read_text().split()
    return len(words) > 1 and words[1] == "0x2"


deadline = time.monotonic() + 60
while not waits_at_standard_error() and running.poll() is None and time.monotonic() < deadline:
    time.sleep(0.01)
subprocess.run(["sh", "-c", change, "sh", name], check=True)
with open(reading, "rb") as told:
    text = told.read()
sys.stderr.buffer.write(text[filled:])
sys.exit(running.wait())
