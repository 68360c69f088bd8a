#!/usr/bin/env python3
"""client.py SOCKET LABEL: asks the service with a label without end, and finds its next instance whenever it dies.

SOCKET is that of a dsrs. It needs the package `pengtawis`: PYTHONPATH=python in the repository, or docs/guide/python.md.
"""
import contextlib
import sys

from pengtawis import Client


def answers(path, label):
    """Yields each answer with the endpoint that was asked. Once an instance died, its answer is empty."""
    with Client(path) as dsrs:
        while True:
            where, service = dsrs.connect(label)
            with service, contextlib.suppress(ConnectionError):
                service.send(b"hello")
                while said := service.recv(4096):
                    yield where, said
                    service.send(b"hello")
            yield where, b""


if __name__ == "__main__":
    last, count = None, 0
    for where, said in answers(*sys.argv[1:3]):
        if said and where != last:
            print(f"found at {where}", flush=True)
        if not said and where == last:
            print(f"{where} died, after {count} answers", flush=True)
        last, count = where if said else None, count + 1
