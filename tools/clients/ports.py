"""Free ports of 127.0.0.1."""
import random
import socket

# Below those that the system gives to connections that go out, so that none of them takes a port while the centre is down.
FIRST, LAST = 20_000, 32_000


def free_ports(count):
    """So many ports at which nobody listens, other than each other."""
    found, start = [], random.randrange(FIRST, LAST)
    for number in range(LAST - FIRST):
        port = FIRST + (start - FIRST + number) % (LAST - FIRST)
        with socket.socket() as probe:
            try:
                probe.bind(("127.0.0.1", port))
            except OSError:
                continue
        found.append(port)
        if len(found) == count:
            return found
    raise OSError(f"no {count} free ports of {FIRST} to {LAST}")


def is_open(port):
    """Whether somebody listens at a port."""
    try:
        socket.create_connection(("127.0.0.1", port), 1).close()
        return True
    except OSError:
        return False
