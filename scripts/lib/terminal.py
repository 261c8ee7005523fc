"""A terminal as the standard error of a program."""

import contextlib
import os
import pty
import select
import subprocess

from lib.stopping import kill

PATIENCE = 60


def through_terminal(words, awaited=b""):
    """Returns the status and the output of a program, and what it writes to a terminal as its standard error. If words are
    awaited there, the terminal is its standard input too, and ends once they came."""
    ours, theirs = pty.openpty()
    ran = subprocess.Popen(words, stdin=theirs if awaited else subprocess.DEVNULL, stdout=subprocess.PIPE, stderr=theirs)
    try:
        os.close(theirs)
        said = b""
        # the system tells of the end by an error
        with contextlib.suppress(OSError):
            while select.select([ours], [], [], PATIENCE)[0] and (more := os.read(ours, 4096)):
                said += more
                if awaited and awaited in said:
                    os.write(ours, b"\x04")
                    awaited = b""
        output, _ = ran.communicate(timeout=PATIENCE)
        return ran.returncode, output, said.replace(b"\r\n", b"\n").decode()
    finally:
        kill(ran)
        os.close(ours)
