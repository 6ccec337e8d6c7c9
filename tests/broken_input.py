"""A standard input that fails: data comes, and then a read that is no end but an error."""
import os
import socket
import subprocess


def run(argv, data):
    """The program's answer to data after which reading fails with ECONNRESET: a peer that went without having read what it was sent."""
    ours, peer = socket.socketpair()
    with ours:
        ours.send(b"unread")
        peer.sendall(data)
        peer.close()
        return subprocess.run(argv, stdin=ours, capture_output=True, timeout=120)


def run_directory(argv):
    """The program's answer where not even the first read succeeds: a directory cannot be read."""
    fd = os.open(".", os.O_RDONLY)
    try:
        return subprocess.run(argv, stdin=fd, capture_output=True, timeout=120)
    finally:
        os.close(fd)


TOLD = b"input could not be read to its end\n"
