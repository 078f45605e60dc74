#!/usr/bin/env python3
"""Runs a program with a terminal as its standard input, and ends with its status.

    tests/terminal.py once PROGRAM [ARGUMENT...]
    tests/terminal.py lost PROGRAM [ARGUMENT...]

What comes on standard input is typed at the terminal. once: then the end of the
input is given, once. lost: then every read fails, as where a line is cut.
A program that still runs after 60 seconds is stopped, and the status is 124.
"""
import os
import pty
import subprocess
import sys
import tty

how, *command = sys.argv[1:]
text = sys.stdin.buffer.read()
upper, lower = pty.openpty()
if how == "once":
    os.write(upper, text + b"\4")
    process = subprocess.Popen(command, stdin=lower)
    os.close(lower)
else:
    tty.setraw(lower)
    os.write(lower, text)
    process = subprocess.Popen(command, stdin=upper)
    os.close(lower)
try:
    sys.exit(process.wait(timeout=60))
except subprocess.TimeoutExpired:
    process.kill()
    sys.exit(124)
