#!/usr/bin/env python3
"""terminal.py COLUMNS COMMAND..: runs a command on a terminal of so many columns and prints what stood on its lines, one after another.

'drew LINE' is a line as it stood before the cursor went back to its start; 'kept LINE' one that a line feed ended, or that is left at the end, unless it is
empty. A character beyond the last column begins a new line, as on a real terminal. The exit status is the command's.
"""
import fcntl
import os
import pty
import struct
import sys
import termios


def run(columns, command):
    child, terminal = pty.fork()
    if child == 0:
        fcntl.ioctl(2, termios.TIOCSWINSZ, struct.pack("HHHH", 24, columns, 0, 0))
        os.execvp(command[0], command)
    written = b""
    try:
        while piece := os.read(terminal, 4096):
            written += piece
    except OSError:  # the other end is closed
        pass
    return written.decode(), os.waitstatus_to_exitcode(os.waitpid(child, 0)[1])


def lines(written, columns):
    line, at = [], 0

    def text():
        return "".join(line).rstrip()

    for character in written.replace("\r\n", "\n"):
        if character == "\r":
            if text() and at > 0:
                yield "drew " + text()
            at = 0
        elif character == "\n" or at == columns:
            yield "kept " + text()
            line, at = [], 0
        if character not in "\r\n":
            line[at : at + 1] = character
            at += 1
    if text():
        yield "kept " + text()


columns = int(sys.argv[1])
# A width of 0 is that of a terminal that does not tell it.
written, status = run(columns, sys.argv[2:])
for told in lines(written, columns or 80):
    print(told)
sys.exit(status)
