"""Links to a site that lose, cut, change and repeat what they carry."""
import random
import socket
import threading


class Lossy:
    """Links to a site that lose, cut, repeat and mix up what they carry."""

    def __init__(self, site, counts):
        self.site, self.counts = site, counts
        self.is_whole, self.replies = False, []
        self.listener = socket.create_server(("127.0.0.1", 0))
        self.address = "127.0.0.1:%d" % self.listener.getsockname()[1]
        threading.Thread(target=self.carry_all, daemon=True).start()

    def carry_all(self):
        while True:
            try:
                client, _ = self.listener.accept()
            except OSError:
                return
            with client:
                try:
                    client.settimeout(10)
                    self.carry(client)
                except OSError:
                    self.counts["links that broke"] += 1

    def carry(self, client):
        asked = received(client, b"\r\n\r\n")
        if not asked:
            self.counts["links without a request"] += 1
            return
        how = 0 if self.is_whole else random.random()
        if how > 0.92:
            self.counts["requests that were lost"] += 1
            return
        if how > 0.85:
            self.counts["requests that were cut"] += 1
            self.ask(asked[:random.randrange(len(asked))])
            return
        if how > 0.75:
            self.counts["requests that came twice"] += 1
            self.ask(asked)
        reply = self.ask(asked)
        client.sendall(self.changed(reply, how))
        if reply:
            self.replies.append(reply)

    def ask(self, data):
        """What the site replies; nothing where it does not serve."""
        try:
            with socket.create_connection(self.site.address, 10) as link:
                link.sendall(data)
                link.shutdown(socket.SHUT_WR)
                return received(link)
        except OSError:
            self.counts["sites that did not reply"] += 1
            return b""

    def changed(self, reply, how):
        if not reply or how < 0.4:
            return reply
        if how < 0.5:
            self.counts["replies that were lost"] += 1
            return b""
        if how < 0.6:
            self.counts["replies that were cut"] += 1
            return reply[:random.randrange(len(reply))]
        if how < 0.65:
            self.counts["replies that were changed"] += 1
            at = random.randrange(len(reply))
            return reply[:at] + bytes((reply[at] ^ 1,)) + reply[at + 1:]
        if how < 0.7 and self.replies:
            self.counts["old replies"] += 1
            return random.choice(self.replies)
        return reply


def received(link, end=None):
    """What comes up to an end, or to the link's end."""
    data = b""
    while end is None or end not in data:
        more = link.recv(65_536)
        if not more:
            break
        data += more
    return data
