"""terminal.py STREAMS TYPED COMMAND..: runs the command with a terminal of 100 columns as those of its three streams whose
numbers stand in STREAMS, and with our own as the others. At the terminal the text of the file TYPED is typed, which it does
not echo, and then the key that ends an input. What it shows goes to descriptor 3. Ends with the command's status."""

import fcntl
import os
import pty
import struct
import sys
import termios

streams, typed, *command = sys.argv[1:]
ours = {number: os.dup(number) for number in range(3) if str(number) not in streams}
running, terminal = pty.fork()
if running == 0:
    fcntl.ioctl(1, termios.TIOCSWINSZ, struct.pack("HHHH", 25, 100, 0, 0))
    for number, kept in ours.items():
        os.dup2(kept, number)
    os.close(3)
    os.execv(command[0], command)
modes = termios.tcgetattr(terminal)
modes[3] &= ~termios.ECHO
termios.tcsetattr(terminal, termios.TCSANOW, modes)
with open(typed, "rb") as text:
    keys = text.read() + modes[6][termios.VEOF]
try:
    os.write(terminal, keys)
except OSError:
    pass  # the command has ended, and has read nothing
try:
    while shown := os.read(terminal, 65_536):
        os.write(3, shown)
except OSError:
    pass  # the command has ended
_, answer = os.waitpid(running, 0)
sys.exit(os.waitstatus_to_exitcode(answer))
