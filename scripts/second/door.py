"""A site that serves with a door for its operator: each link that came there brings one command, which is done to the open book.
And the program that tells a command there."""
from house import Ends, Server, came, received, received_on
from stage import LinkFault
from words import want

MOST_TOLD = 139_265
MOST_ANSWER = 2**24
DISK_FAULT = 4


class DoorServer(Server):
    """Serves customers by a house, and its operator by `obey`, which does words with an input to the house and answers the line."""

    def __init__(self, house, obey):
        self.house, self.stage, self.obey = house, house.stage, obey

    def serve_link(self):
        if self.stage.is_operators():
            self.serve_command()
        else:
            self.house.serve_link()

    def serve_command(self):
        """Does what the link that stands brings as one command, and answers it; nothing where receiving fails."""
        try:
            told = received_on(self.stage, MOST_TOLD)
        except LinkFault:
            return
        self.house.raise_time()
        status, line = came(lambda: self.obey(self.house, *read_told(told)))
        answer = b"%d %d\n" % (status, len(line)), line
        if status == DISK_FAULT:
            self.fail(*answer)
        try:
            self.send(*answer)
        except LinkFault:
            pass

    def send(self, head, line):
        """Sends the head of an answer, and then its line, where it has one."""
        self.stage.send(head)
        if line:
            self.stage.send(line)


def read_told(told):
    """The words that are told, and their input."""
    head, end, data = told.partition(b"\n")
    number, space, line = head.partition(b" ")
    want(bool(end) and bool(space) and number == b"%d" % len(data))
    return line.split(b" "), data


def ask(words, most, stage, up):
    """Tells words at a door, over the next link of the stage `up`, with what comes on the next link, up to one byte more than so
    many, where they take an input; answers the status and the line that come."""
    data = b"" if most is None else received(stage, most + 1)
    try:
        if not up.next_link():
            raise LinkFault
        up.send(b"%d %s\n%s" % (len(data), b" ".join((*words[:2], b"-", *words[3:])), data))
        answer = received_on(up, MOST_ANSWER)
    except LinkFault:
        raise Ends.link_fault()
    up.end_link()
    return read_answer(answer)


def read_answer(answer):
    """The status and the line of an answer that came whole."""
    head, end, line = answer.partition(b"\n")
    number, space, length = head.partition(b" ")
    if not (end and space and number in (b"0", b"2", b"4", b"5", b"7") and length == b"%d" % len(line)):
        raise Ends.link_fault()
    return int(number), line
