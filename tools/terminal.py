"""Terminals: one session, and sessions one after another in which a line is sent again until its reply has come."""
import random
import secrets
import socket
import struct
import time

try:
    from scans import line_of
except ModuleNotFoundError:
    # From the top of a checkout, as `from tools.terminal import Terminal`.
    from tools.scans import line_of

# Faults after which the same line is sent again, with its tag.
AGAIN = ("FAULT RATE", "FAULT JOURNAL")


class Terminal:
    """One session. Each line gets one reply, in order; those to an audit, a report and HELP have several lines."""

    def __init__(self, port, host="127.0.0.1", timeout=60):
        self.connection = socket.create_connection((host, port), timeout)
        self.connection.setsockopt(socket.IPPROTO_TCP, socket.TCP_NODELAY, 1)
        self.replies = self.connection.makefile("r", encoding="ascii", newline="\n")

    def ask(self, line):
        """The lines of the reply to this one. ConnectionError: the session ended, and what became of the line is unknown."""
        self.send(line)
        return self.reply()

    def ask_many(self, lines, ahead=64):
        """The lines of the reply to each of these, in their order. This number of lines is sent before the first reply is read,
        which saves a round trip for each."""
        waiting = 0
        for line in lines:
            self.send(line)
            waiting += 1
            if waiting == ahead:
                yield self.reply()
                waiting -= 1
        for _ in range(waiting):
            yield self.reply()

    def send(self, line):
        """Puts a line, whose reply is read after those of the earlier lines.
        ValueError: the line has a character that no line may have. An LF within it would be answered by one reply more, and
        every later reply would be that of the question before."""
        if not all(" " <= character <= "~" for character in line):
            raise ValueError("a line has no control character, and ASCII alone")
        self.connection.sendall(line.encode("ascii") + b"\n")

    def reply(self):
        reply = [self.read()]
        tag = reply[0].partition(" ")[0] + " " if reply[0].startswith("#") else ""
        word, _, number = reply[0].removeprefix(tag).partition(" ")
        if word == "SHOWN":
            reply += [self.read() for _ in range(int(number))]
        end = {"PRODUCT": tag + "END", "HELP": "HELP END"}.get(word, reply[-1])
        while reply[-1] != end:
            reply.append(self.read())
        return reply

    def read(self):
        text = self.replies.readline()
        if not text.endswith("\n"):
            raise ConnectionError("the session ended")
        return text[:-1]

    def close(self):
        self.replies.close()
        self.connection.close()


def ask_scanned(terminal, user, word, scan, national=None):
    """The lines of the reply to this question about the pack whose code was scanned. The scan is read here, as a terminal does
    before it asks: the server takes lines alone. Any terminal of this file will do.
    ValueError: the scan was refused, and nothing was asked. Its text is for the person who scanned."""
    return terminal.ask(line_of(user, word, scan, national))


def new_tag():
    return f"#{secrets.token_hex(8)} "


class TaggedTerminal:
    """Sessions one after another, each of which the function connects. Each line gets a tag of its own."""

    def __init__(self, connect):
        self.connect, self.session = connect, None

    def ask(self, line, patience=60):
        """The lines of the reply to this one, without its tag. Where none comes, or a fault of AGAIN, the line is sent again with
        the same tag after a pause that grows. After CHANGED it is sent with a new tag. ConnectionError: nothing else came for
        this number of seconds."""
        tag, until, pause = new_tag(), time.monotonic() + patience, 1
        while True:
            try:
                reply = self.ask_once(tag + line)
                answers_this = reply[0].startswith(tag)
                reply = [text.removeprefix(tag) for text in reply]
                if answers_this and reply[0] == "FAULT CHANGED":
                    tag = new_tag()
                    continue
                if answers_this and reply[0] not in AGAIN:
                    return reply
                if not answers_this:
                    self.close()
                fault, cause = reply[0], None
            except OSError as failed:
                self.close()
                fault = cause = failed
            if time.monotonic() + pause > until:
                raise ConnectionError(f"no reply: {fault}") from cause
            time.sleep(pause * random.uniform(0.8, 1.2))
            pause = min(2 * pause, 60)

    def ask_once(self, line):
        if self.session is None:
            self.session = self.connect()
        return self.session.ask(line)

    def close(self):
        if self.session is not None:
            self.session.close()
        self.session = None


def typed(kind, value):
    """A typed value of a header of the PROXY protocol, version 2."""
    return struct.pack(">BH", kind, len(value)) + value


def proxy_header(name, verified=0):
    """The header that a gateway sends before the first line of a client whose certificate has this common name
    (GATEWAY.md)."""
    tls = struct.pack(">BI", 7, verified) + typed(0x21, b"TLSv1.3") + typed(0x22, name.encode())
    content = socket.inet_aton("127.0.0.1") * 2 + struct.pack(">HH", 40_000, 7_443) + typed(0x20, tls)
    return (b"\r\n\r\n\0\r\nQUIT\n\x21\x11" + struct.pack(">H", len(content)) + content).decode("latin-1")
