"""Where a venue listens: its address, the PORT of its words, and ports that are free."""
import argparse
import collections
import random
import socket

HOST = "127.0.0.1"
MOST_GATEWAYS = 8
LAST = 65535 - (MOST_GATEWAYS - 1)  # Those of the seven further gateways lie behind a PORT.
PORTS = range(10000, 32000)  # Those above are given to clients by the system, and one may be in use at any moment.
given = collections.deque[int](maxlen=1000)  # Ports that were given last: who asked for them may not listen yet.


def port_of(word: str) -> int:
    """The PORT that this word says, as venued takes it."""
    if not word.isdecimal() or not 1 <= int(word) <= LAST:
        raise argparse.ArgumentTypeError(f"not a number from 1 to {LAST}: {word}")
    return int(word)


def is_free(port: int) -> bool:
    with socket.socket() as it:
        try:
            it.bind((HOST, port))
        except OSError:
            return False
    return True


def free_port(count: int) -> int:
    """A port that is free, as those behind it are, so many in all, at this moment. None of them was given just before."""
    while True:
        port = random.choice(PORTS)
        those = range(port, port + count)
        if not any(it in given for it in those) and all(map(is_free, those)):
            given.extend(those)
            return port
