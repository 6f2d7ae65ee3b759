"""Ports for the scripts that start servers."""
import random
import socket


def free_port():
    """A port of the loopback at which nobody listens. It is below those that a system gives to connections, so that none
    of these takes it before the server does."""
    while True:
        port = random.SystemRandom().randrange(10_000, 30_000)
        try:
            with socket.create_server(("127.0.0.1", port)):
                return port
        except OSError:
            pass
