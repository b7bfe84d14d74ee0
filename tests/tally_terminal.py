"""tally_terminal.py stdout|stderr FILE COMMAND...: runs a command with that one of its streams on a terminal.

What the terminal gets goes to FILE as it was written; the exit status is the command's.
"""
import os
import pty
import subprocess
import sys
import tty


def until_shut(terminal):
    """What is written there, until nobody has it open."""
    while True:
        try:
            part = os.read(terminal, 4096)
        except OSError:
            return
        if not part:
            return
        yield part


def main(stream, file, command):
    ours, theirs = pty.openpty()
    tty.setraw(theirs)  # or each end of a line becomes two bytes
    child = subprocess.Popen(command, **{stream: theirs})
    os.close(theirs)
    with open(file, 'wb') as kept:
        for part in until_shut(ours):
            kept.write(part)
    return child.wait()


if __name__ == '__main__':
    sys.exit(main(sys.argv[1], sys.argv[2], sys.argv[3:]))
