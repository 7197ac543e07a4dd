#!/usr/bin/env python3
"""A link that loses a reply: `lose_reply.py LISTEN SITE` (each an address and a port) listens, and goes on behind the command.
The first connection's request is brought to the site, the reply is thrown away, and the connection is ended. Then it ends."""
import os
import socket
import sys


def address(text):
    host, port = text.rsplit(":", 1)
    return host, int(port)


def main():
    listen, site = map(address, sys.argv[1:])
    with socket.create_server(listen) as server:
        if os.fork():
            return
        server.settimeout(60)
        client, _ = server.accept()
        with client, socket.create_connection(site, 60) as behind:
            request = b""
            while not request.endswith(b"\r\n\r\n"):
                more = client.recv(8192)
                if not more:
                    return
                request += more
            behind.sendall(request)
            while behind.recv(8192):
                pass


if __name__ == "__main__":
    main()
