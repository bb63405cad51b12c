#!/usr/bin/env python3
"""Runs each line of standard input in a shell on a terminal of 80 columns. Prints the line after '$ ', then what the terminal shows, and a status that is
not 0. Lines of progress, which a command takes away again, are left out.
"""
import fcntl
import os
import pty
import re
import struct
import subprocess
import sys
import termios


def on_terminal(command: str) -> tuple[str, int]:
    """Runs a command with a terminal for its three streams. Returns what the terminal shows, and the status."""
    ours, theirs = pty.openpty()
    fcntl.ioctl(theirs, termios.TIOCSWINSZ, struct.pack("HHHH", 24, 80, 0, 0))
    running = subprocess.Popen(["sh", "-c", command], stdin=theirs, stdout=theirs, stderr=theirs)
    os.close(theirs)
    shown = b""
    try:
        while part := os.read(ours, 65536):
            shown += part
    except OSError:  # so Linux reports that no process has the terminal open
        pass
    os.close(ours)
    return re.sub(r"(f11fs: \d+%| +)\r(?!\n)", "", shown.decode("utf-8", "replace")).replace("\r\n", "\n"), running.wait()


def main() -> None:
    for command in sys.stdin.read().splitlines():
        shown, status = on_terminal(command)
        print(f"$ {command}\n{shown}{f'(status {status})' if status else ''}".rstrip("\n"))


if __name__ == "__main__":
    main()
