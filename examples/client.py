#!/usr/bin/env python3
"""A client of `crackd serve`: client.py PORT

Inserts a thousand rows without waiting for each reply, then counts, sums and selects some of them.
"""

import argparse
import socket
import threading


class Refused(Exception):
    """A statement that was refused, with the refusal's number and what it carries."""


class Session:
    """A session with a server on this machine."""

    def __init__(self, port):
        self.socket = socket.create_connection(("127.0.0.1", port))
        self.socket.setsockopt(socket.IPPROTO_TCP, socket.TCP_NODELAY, 1)
        self.replies = self.socket.makefile("r", encoding="ascii")

    def send(self, text):
        self.socket.sendall(text.encode("ascii"))

    def reply(self):
        """The words of the next line that the server sends."""
        words = self.replies.readline().split()
        if not words:
            raise ConnectionError("the server closed the connection")
        if words[0] == "refused":
            raise Refused(*words[1:])
        return words

    def ask(self, statement):
        self.send(statement + "\n")
        return self.reply()

    def insert_all(self, rows):
        """Inserts rows of a key and a payload, and returns their row numbers. It reads while it writes, so that neither
        side waits for ever."""
        text = "".join(f"insert {key} {payload}\n" for key, payload in rows)
        writer = threading.Thread(target=self.send, args=[text])
        writer.start()
        numbers = [self.reply()[1] for _ in rows]
        writer.join()
        return numbers

    def set_policy(self, name):
        """Sets how pending rows are merged from now on in this session. Under `auto` the first query after a load
        merges all rows at once."""
        self.ask(f"policy {name}")

    def count(self, low, high):
        return int(self.ask(f"count {low} {high}")[1])

    def sum(self, low, high):
        return int(self.ask(f"sum {low} {high}")[1])

    def select(self, low, high):
        """The rows whose keys are from low to below high, as tuples of row number, key and payload."""
        lines = range(int(self.ask(f"select {low} {high}")[1]))
        rows = (self.reply() for _ in lines)
        return [(number, int(key), int(payload)) for number, key, payload in rows]

    def close(self):
        self.ask("quit")
        self.socket.close()


def main(port):
    session = Session(port)
    session.set_policy("auto")
    numbers = session.insert_all([(key, 2 * key) for key in range(1000)])
    print("rows", numbers[0], "to", numbers[-1])
    print("count", session.count(250, 750))
    print("sum", session.sum(250, 750))
    print("select", session.select(10, 13))
    session.close()


if __name__ == "__main__":
    arguments = argparse.ArgumentParser(description=__doc__)
    arguments.add_argument("port", metavar="PORT", type=int)
    main(arguments.parse_args().port)
