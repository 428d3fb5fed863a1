"""on_terminal.py FILE COMMAND...: runs the command with a terminal as standard input, at which the file is typed."""

import os
import pty
import subprocess
import sys

leader, follower = pty.openpty()
with open(sys.argv[1], "rb") as typed:
    os.write(leader, typed.read() + b"\x04")
sys.exit(subprocess.run(sys.argv[2:], stdin=follower, check=False).returncode)
