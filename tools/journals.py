"""The parts that the tools about the log share: the built program over a log, the disk under it (tools/disk.c), and the
content of the files of its folder."""
import json
import os
import pathlib
import signal
import struct
import subprocess
import threading

import model
from preloaded import compile_library
from terminal import Terminal
from told import QUIET, told_of

TOP = pathlib.Path(__file__).resolve().parent.parent
PROGRAM = TOP / "crates/nmvs_serve/out/nmvs_serve"
CHECKER = TOP / "crates/nmvs_check/out/nmvs_check"
BOUND = 300  # seconds that any wait takes at most; a start reads the whole log
SHARDS = 2

passed, failed = [], []


def judge(what, holds, seen=""):
    (passed if holds else failed).append(what)
    print(f"{what}: {'as it should be' if holds else 'WRONG'} {seen}".rstrip(), flush=True)


class Disk:
    """The files in a folder as tools/disk.c sees them: which calls there were, and what was confirmed of each file."""

    CALLS = ("write", "sync", "open", "lock", "truncate")
    FILES, NAME = 32, 120

    def __init__(self, place, folder):
        self.folder, self.library, self.notes = folder, place / "disk.so", place / "notes"
        compile_library(TOP / "tools/disk.c", self.library)

    def environment(self, call=None, number=0, fault="", delay=0):
        """For a program whose call of this kind and number fails so, and whose syncs take this number of microseconds
        longer."""
        self.notes.write_bytes(bytes(8 * len(self.CALLS) + (self.NAME + 8) * self.FILES))
        told = {"LD_PRELOAD": self.library, "DISK_FOLDER": self.folder, "DISK_NOTES": self.notes, "DISK_DELAY": delay}
        if call:
            told.update(DISK_CALL=call, DISK_NUMBER=number, DISK_FAULT=fault)
        return {**os.environ, **{name: str(value) for name, value in told.items()}}

    def calls(self):
        """How many calls of each kind there were."""
        return dict(zip(self.CALLS, struct.unpack_from(f"{len(self.CALLS)}q", self.notes.read_bytes())))

    def synced(self):
        """How many bytes of each file were confirmed, by its name; 1 of each folder that was synced, of which the disk's is "."."""
        noted = self.notes.read_bytes()[8 * len(self.CALLS):]
        rows = struct.iter_unpack(f"{self.NAME}sq", noted)
        return {name.rstrip(b"\0").decode(): length for name, length in rows if name[0]}

    def confirmed(self):
        """How many bytes of each file in the folder were confirmed, by its name."""
        return {name: length for name, length in self.synced().items() if name != "."}

    def forget(self):
        """Forgets what was counted and noted, while the program runs."""
        with self.notes.open("r+b") as notes:
            notes.write(bytes(8 * len(self.CALLS) + (self.NAME + 8) * self.FILES))


class Server:
    """The program over the log of a folder, which listens on a port that is free."""

    def __init__(self, place, folder, *options, environment=None, before=()):
        users = place / "users"
        users.write_text(model.USERS_TEXT)
        command = [*before, PROGRAM, "--users", users, "--journal", folder, "--port", "0", "--shards", str(SHARDS),
                   "--moment", str(model.MOMENT), *QUIET, *options]
        pipe = subprocess.PIPE
        self.process = subprocess.Popen(command, stdin=pipe, stdout=pipe, stderr=pipe, text=True, env=environment)
        self.is_late = False
        bound = threading.Timer(BOUND, self.give_up)
        bound.start()
        told = self.process.stdout.readline()
        bound.cancel()
        self.port = int(told.split()[1]) if told.startswith("LISTENING ") else None

    def give_up(self):
        """Ends a start that takes too long."""
        self.is_late = True
        self.process.kill()

    def refusal(self):
        """The end of a start that does not listen: its faults, its status, and whether it took too long."""
        faults = self.ended()[1]
        return faults, self.process.returncode, "took too long" if self.is_late else "ended by itself"

    def command(self, text):
        """The answer to a command, or nothing where the server ended."""
        try:
            self.process.stdin.write(text + "\n")
            self.process.stdin.flush()
            return self.process.stdout.readline()
        except OSError:
            return ""

    def resident(self):
        """Bytes of memory that the program has."""
        status = pathlib.Path(f"/proc/{self.process.pid}/status").read_text()
        return int(status.split("VmRSS:")[1].split()[0]) << 10

    def kill(self):
        """Ends it as kill -9 does, and returns its unread answers and its faults."""
        self.process.send_signal(signal.SIGKILL)
        return self.ended()

    def ended(self):
        said, faults = self.process.communicate(timeout=BOUND)
        return said, told_of(faults)


class Asker(threading.Thread):
    """A terminal that puts questions, this number in flight, until its session ends or there are none."""

    def __init__(self, port, questions, window):
        super().__init__()
        self.port, self.questions, self.window = port, questions, window
        self.asked, self.told = [], []

    def run(self):
        try:
            terminal = Terminal(self.port)
            for user, word, fields in self.questions:
                self.asked.append((user, word, fields))
                terminal.send(" ".join([user, word, *fields]))
                if len(self.asked) - len(self.told) >= self.window:
                    self.told.append(terminal.reply())
            while len(self.told) < len(self.asked):
                self.told.append(terminal.reply())
            terminal.close()
        except OSError:
            pass


def log_text(folder):
    """The bytes of a log."""
    path = folder / "trail.txt"
    return path.read_bytes() if path.exists() else b""


def commands_in(text):
    """The commands of a users file; the line above each has its moment."""
    return [line for line in text.splitlines() if not line.startswith("#")]


def kept_commands(folder):
    """The commands that the users file of a log's folder has."""
    return commands_in((folder / "users.txt").read_text())


def entries_by_code(folder):
    """The lines of a log by their product codes, in order."""
    entries = {}
    for line in log_text(folder).decode().splitlines():
        entries.setdefault(json.loads(line)[6][1], []).append(line)
    return entries


def faults_of(product, asker, lines):
    """Lets the model follow the entries of these questions that the log has gained, and returns the faults. Each reply
    that was read has its entry there, in order, and all other entries are those of the next questions."""
    had = len(product.entries)
    for number, question in enumerate(asker.asked):
        if number >= len(asker.told) and len(product.entries) - had >= len(lines):
            break
        due = product.ask(*question)
        if number < len(asker.told) and asker.told[number] != due:
            return [(question, asker.told[number], due)]
    entries = [line for _, line in product.entries[had:]]
    if entries == lines:
        return []
    place = next((i for i, pair in enumerate(zip(entries, lines)) if pair[0] != pair[1]), min(len(entries), len(lines)))
    return [(len(asker.told), len(entries), len(lines), entries[place:place + 1], lines[place:place + 1])]


def lawful(folder):
    """The checker's verdict on a log: its first line, or a fault."""
    ended = subprocess.run([CHECKER, folder / "trail.txt"], capture_output=True, text=True, timeout=600)
    return ended.stdout.partition("\n")[0] or ended.stderr.strip()


def closing():
    """Prints how many checks held, and returns the status."""
    print(f"{len(passed)} passed, {len(failed)} failed")
    return 1 if failed else 0
