"""Ports for services that are tested or measured side by side."""
import contextlib
import random
import socket

# A name in this machine's abstract space is bound for each port, which ends with the process.
HELD = []


def free_port():
    """A port at which nobody listens, and which nobody else is given until this process ends. It lies below the ports that the system
    gives to whoever calls out, so that no client can have it by the time that a service listens."""
    while True:
        port = random.randrange(10_000, 30_000)
        name = socket.socket(socket.AF_UNIX)
        with contextlib.suppress(OSError):
            name.bind("\0vomidegu-port-%d" % port)
            HELD.append(name)
            with socket.create_server(("127.0.0.1", port)):
                return port
