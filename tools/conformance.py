#!/usr/bin/env python3
"""For vendors: a server with the users of the rehearsal and a pack for each status, over a port of this machine (build first:
./nmvs-serve --help). docs/TERMINALS.md lists the packs.

    tools/conformance.py [--port N]           serves terminals that are under test, until the end of standard input
    tools/conformance.py --http [--port N]    serves terminals that ask over HTTP
    tools/conformance.py LINES..              puts the lines of these files, as a terminal wrote them, one after another

With --silent SECONDS it answers nothing in this time, and hangs up on what comes: each such line or request has to come again.
With --sheet FILE the verdict is written too, with what only a person sees of a terminal, to be signed and handed in.

Each prints the lines or requests with their replies, and at the end what was not met. It ends with status 1 where one is none of
the format, or says what no terminal may say. What the packs are changes with the lines, and is as before at the next start.
"""
import argparse
import datetime
import hashlib
import http.client
import http.server
import json
import pathlib
import socket
import subprocess
import sys
import threading
import time

from model import REPLIES, kind, worded
from terminal import Terminal

PROGRAM = pathlib.Path(__file__).resolve().parent.parent / "crates/nmvs_serve/out/nmvs_serve"
# What a terminal wrote wrong.
FORM = "LONG RETURN BYTES FIELDS WORD USER JSON KEY SITE PATH METHOD LENGTH BODY TYPE".split()

# What a person tries at the terminal, by docs/TERMINALS.md.
BY_A_PERSON = (
    "Each alert is shown with its cause and flag, in words that nobody takes for a good reply.",
    "Each refusal, and each fault of what a person typed or scanned, is shown with what to do.",
    "A reply that the terminal does not know is shown as a failure.",
    "A pack goes out only after the terminal's own DECOMMISSIONED or HANDED_OVER.",
    "Batch and expiry date go along as printed on the pack, and the expiry date is compared with today.",
    "A question without a reply comes again with its tag, also after the terminal was switched off; no new pack gets that tag.",
    "After CHANGED the question comes with a new tag; after RATE and JOURNAL with the same, after a pause.",
    "Without a reply the person decides. What was handed out is kept on disk, and sent later.",
    "A scan that is refused asks nothing, and the person sees what was scanned instead.",
    "The three test codes are read character by character, with the scanner and the keyboard layout of the house.",
    "The certificate's key is on this terminal alone, and the user named is the one who works.",
)


def start():
    """The server, its port of lines, and that of HTTP."""
    options = ["--rehearsal", "--port", "0", "--http", "0", "--log-level", "warn"]
    process = subprocess.Popen([PROGRAM, *options], stdin=subprocess.PIPE, stdout=subprocess.PIPE, text=True)
    told = [process.stdout.readline() for _ in range(2)]
    if not all(line.startswith("LISTENING ") for line in told):
        sys.exit("the server does not listen")
    return process, *(int(line.split()[-1]) for line in told)


def each_of(body, text):
    """The question in the body of a request and its reply, or each of a bulk and its own."""
    said = json.loads(text)
    if "replies" in said:
        asked = (json.dumps(item) for item in json.loads(body)["questions"])
        return zip(asked, (json.dumps(one, separators=(",", ":")) for one in said["replies"]), map(worded, said["replies"]))
    return [(body.decode("latin-1"), text[:-1], worded(said))]


class Verdict:
    """The judgement of a terminal by its lines and their replies."""

    def __init__(self, silent=0):
        self.met, self.asked, self.wrong, self.lock = set(), 0, 0, threading.Lock()
        self.silent_until, self.unanswered = time.monotonic() + silent, {}

    def is_silent(self, asked):
        """Whether what is asked gets no reply, and has to come again."""
        with self.lock:
            if time.monotonic() < self.silent_until:
                self.unanswered[asked] = True
                print(f"NO REPLY {asked}", flush=True)
                return True
            self.unanswered.pop(asked, None)
            return False

    def note(self, line, reply, words=None):
        """Prints a line with its reply, of these words. HELP is for a person: a terminal has no use for its lines."""
        told = kind(words or reply[0])
        wrong = told.startswith("NOT") or told in ["HELP", *(f"FAULT {word}" for word in FORM)]
        with self.lock:
            self.asked, self.wrong = self.asked + 1, self.wrong + wrong
            self.met.add(told)
            print(f"{'WRONG ' if wrong else ''}{line}", *(f"    {text}" for text in reply), sep="\n", flush=True)

    def end(self):
        """Prints what was not met: the status."""
        with self.lock:
            for asked in self.unanswered:
                print(f"WRONG, it did not come again: {asked}")
            print("NOT MET:", self.not_met())
            return 0 if self.is_well() else 1

    def is_well(self):
        return not self.wrong and not self.unanswered

    def not_met(self):
        return ", ".join(reply for reply in REPLIES if reply not in self.met) or "none"

    def sheet(self, how):
        """The verdict as a vendor hands it in."""
        version = subprocess.run([PROGRAM, "--version"], capture_output=True, text=True, check=True).stdout.strip()
        digest = hashlib.sha256(PROGRAM.read_bytes()).hexdigest()
        line = "_" * 30
        rows = [
            "VERDICT ON A TERMINAL\n", f"Terminal and version {line}  Vendor {line}\n",
            f"{datetime.datetime.now(datetime.timezone.utc):%Y-%m-%dT%H:%M:%SZ}, {how}, by {version}, sha256 {digest}",
            f"{self.asked} asked, {self.wrong} wrong, {len(self.unanswered)} that did not come again",
            f"Replies not met: {self.not_met()}", f"Verdict: {'PASSED' if self.is_well() and self.asked else 'FAILED'}\n",
            "By a person, at the terminal (yes, no, or why it does not apply):\n",
            *(f"{number:>3}. [      ] {text}" for number, text in enumerate(BY_A_PERSON, 1)),
            f"\nName {line}  Date ______________  Signature {line}\n",
        ]
        return "\n".join(rows)


def put(port, lines, verdict):
    """Puts the lines, one after another."""
    terminal = Terminal(port)
    for line in lines:
        try:
            reply = terminal.ask(line)
        except ValueError as fault:
            reply = [f"NOT SENT: {fault}"]
        verdict.note(line, reply)
    terminal.close()


def relay(connection, port, verdict):
    """Hands each line of a terminal to the server byte for byte, and its reply back, until either ends the session."""
    server = Terminal(port)
    try:
        with connection, connection.makefile("rb") as lines:
            for line in lines:
                asked = line[:-1].decode("latin-1")
                if not line.endswith(b"\n") or verdict.is_silent(asked):
                    return
                server.connection.sendall(line)
                reply = server.reply()
                verdict.note(asked, reply)
                connection.sendall("".join(f"{text}\n" for text in reply).encode("ascii"))
                if reply[-1] == "BYE":
                    return
    except ConnectionError:
        pass
    finally:
        server.close()


def accept(listener, port, verdict):
    """Serves each terminal that connects."""
    while True:
        connection, _ = listener.accept()
        threading.Thread(target=relay, args=(connection, port, verdict), daemon=True).start()


class Relayed(http.server.BaseHTTPRequestHandler):
    """Hands each request of a terminal to the server, and its response back."""

    protocol_version = "HTTP/1.1"

    def log_message(self, *_):
        pass

    def relay(self):
        body = self.rfile.read(int(self.headers["content-length"] or 0))
        if self.server.verdict.is_silent(f"{self.command} {self.path} {self.headers['idempotency-key'] or ''} {body.decode('latin-1')}"):
            self.close_connection = True
            return
        server = http.client.HTTPConnection("127.0.0.1", self.server.behind)
        server.putrequest(self.command, self.path, skip_host=True, skip_accept_encoding=True)
        for name, value in self.headers.items():
            server.putheader(name, value)
        server.endheaders(body)
        response = server.getresponse()
        text = response.read()
        if response.headers["content-type"].endswith("json"):
            for asked, said, words in each_of(body, text.decode()):
                self.server.verdict.note(f"{self.command} {self.path} {asked}", [said], words)
        self.send_response_only(response.status)
        for name, value in response.getheaders():
            self.send_header(name, value)
        self.end_headers()
        self.wfile.write(text)

    do_GET = do_HEAD = do_POST = do_PUT = do_DELETE = relay


def serve(given, port, http_port, verdict):
    """Serves terminals over lines or HTTP, until the end of standard input."""
    if given.http:
        listener = http.server.ThreadingHTTPServer(("127.0.0.1", given.port), Relayed)
        listener.behind, listener.verdict = http_port, verdict
        print(f"LISTENING HTTP {listener.server_port}", flush=True)
        threading.Thread(target=listener.serve_forever, daemon=True).start()
    else:
        listener = socket.create_server(("127.0.0.1", given.port))
        print(f"LISTENING {listener.getsockname()[1]}", flush=True)
        threading.Thread(target=accept, args=(listener, port, verdict), daemon=True).start()
    sys.stdin.read()


def main():
    reader = argparse.ArgumentParser(description=__doc__, formatter_class=argparse.RawDescriptionHelpFormatter)
    reader.add_argument("--port", type=int, default=0)
    reader.add_argument("--http", action="store_true")
    reader.add_argument("--silent", type=float, default=0, metavar="SECONDS")
    reader.add_argument("--sheet", type=pathlib.Path, metavar="FILE")
    reader.add_argument("lines", nargs="*", type=pathlib.Path)
    given = reader.parse_args()
    process, port, http_port = start()
    try:
        verdict = Verdict(given.silent)
        if given.lines:
            # As the terminal wrote them: a line ends with LF alone, so one that ends with CR LF is wrong.
            put(port, [line for path in given.lines for line in path.read_bytes().decode("latin-1").split("\n")[:-1]], verdict)
        else:
            serve(given, port, http_port, verdict)
        if given.sheet:
            how = "lines of files" if given.lines else "over HTTP" if given.http else "over lines"
            given.sheet.write_text(verdict.sheet(how + f", silent for {given.silent:g} s" * bool(given.silent)))
        return verdict.end()
    finally:
        process.communicate("STOP\n")


if __name__ == "__main__":
    sys.exit(main())
