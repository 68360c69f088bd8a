"""calls.py WHAT COUNT: does what bench/calls.c does, with the package for Python. all publishes 256 values by each call."""
import sys

from pengtawis import RS, Endpoint, Store

DRIVERS, AT_ONCE = 16, 256


def main(what, count):
    drivers = [(Endpoint(it + 1, 16 + it), f"d{it}.mtu") for it in range(DRIVERS)]
    with Store(1) as store:
        for it, (at, name) in enumerate(drivers):
            store.publish(RS, f"d{it}", at, version=(it + 1, 0))
            store.publish(at, name, 0, version=(it + 1, 0))
            store.publish(at, name, bytes(1024), version=(it + 1, 0))
        if what == "all":
            at, name = drivers[0]
            for first in range(1, count + 1, AT_ONCE):
                store.publish_all(at, [(name, it, (1, it)) for it in range(first, min(first + AT_ONCE, count + 1))], overwrite=True)
            return
        calls = {
            "publish": lambda i, at, name: store.publish(at, name, i, version=(at.generation, i), overwrite=True),
            "retrieve": lambda _, at, name: store.retrieve(name, int),
            "nameof": lambda _, at, name: store.nameof(at),
            "memory": lambda _, at, name: store.retrieve(name, bytes),
        }
        call = calls[what]
        for i in range(1, count + 1):
            call(i, *drivers[i % DRIVERS])


main(sys.argv[1], int(sys.argv[2]))
