#!/usr/bin/env python3
"""Runs a command and prints for each write on its standard error how many bytes it gave to it, and these.

    tests/writes.py WORD..
    tests/writes.py --out WORD..    the same of its standard output

That stream of the command is a socket that keeps writes apart. The other is thrown away, and the status is passed on.
"""
import argparse
import socket
import subprocess
import sys


def main():
    read = argparse.ArgumentParser(description=__doc__, formatter_class=argparse.RawDescriptionHelpFormatter)
    read.add_argument("--out", action="store_true")
    read.add_argument("words", nargs=argparse.REMAINDER)
    given = read.parse_args()
    ours, theirs = socket.socketpair(socket.AF_UNIX, socket.SOCK_SEQPACKET)
    streams = {"stdout": theirs, "stderr": subprocess.DEVNULL} if given.out else {"stdout": subprocess.DEVNULL, "stderr": theirs}
    status = subprocess.run(given.words, check=False, **streams).returncode
    theirs.close()
    while written := ours.recv(1 << 16):
        print(len(written), written.decode(), end="")
    sys.exit(status)


if __name__ == "__main__":
    main()
