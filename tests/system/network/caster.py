"""A caster on the loopback address, which serves a capture in parts.

    caster.py CAPTURE PORT-FILE PARTS [NAME:PASSWORD]

The port that it got is written to the file; a port that is there is taken again. Each connection is given the next part, in pieces of
150 bytes; after an odd part (the first, the third) it is cut, after an even one it stays open until the other side ends it. With a
name and a password it speaks HTTP, as a caster does, and serves who knows them; with an empty word NTRIP 1, and serves all.
"""

import base64
import os
import socket
import sys
import time


def is_welcome(connection, known):
    """Reads a request; answers it if it is refused, and gives the head of an answer if it isn't."""
    request = b""
    while b"\r\n\r\n" not in request:
        piece = connection.recv(4096)
        if not piece:
            return False
        request += piece
    if not known:
        connection.sendall(b"ICY 200 OK\r\n")
        return b"GET /BASE0 HTTP/1.0\r\n" in request
    wanted = b"\r\nAuthorization: Basic " + base64.b64encode(known.encode()) + b"\r\n"
    good = wanted in request
    head = b"200 OK" if good else b"401 Unauthorized"
    connection.sendall(b"HTTP/1.1 " + head + b"\r\nContent-Type: gnss/data\r\nConnection: close\r\n\r\n")
    return good


def main():
    capture, port_file, count, *known = sys.argv[1:]
    with open(capture, "rb") as file:
        text = file.read()
    size = len(text) // int(count) + 1
    parts = [text[at:at + size] for at in range(0, len(text), size)]
    port = open(port_file).read() if os.path.exists(port_file) else 0
    server = socket.create_server(("127.0.0.1", int(port)))
    with open(port_file + ".new", "w") as file:
        print(server.getsockname()[1], file=file)
    os.rename(port_file + ".new", port_file)
    for number, part in enumerate(parts, 1):
        connection = server.accept()[0]
        while known and not is_welcome(connection, known[0]):
            connection.close()
            connection = server.accept()[0]
        for at in range(0, len(part), 150):
            connection.sendall(part[at:at + 150])
            time.sleep(0.002)
        if number % 2 == 0:
            try:
                connection.recv(1)
            except ConnectionError:
                pass
        connection.close()


main()
