"""The parts that the measurements of a running server share: packs and lines about them, the program, and the load that is
put to it (load.c)."""
import os
import pathlib
import socket
import subprocess
import typing

HERE = pathlib.Path(__file__).resolve().parent
SERVER = HERE.parent / "crates/nmvs_serve/out/nmvs_serve"
CODES = ("04012345678901", "04012345678918", "04012345678925", "04012345678932",
         "04012345678949", "04012345678956", "04012345678963", "04012345678970")
USERS = "ENROL mah1 HOLDER MAH-1 HQ\nENROL ph1 PHARMACY PH-1 P1\n"
TICK = os.sysconf("SC_CLK_TCK")


def free_port():
    with socket.socket() as any_port:
        any_port.bind(("127.0.0.1", 0))
        return any_port.getsockname()[1]


def build_load(folder):
    """The program that puts lines to a server."""
    load = folder / "load"
    subprocess.run(["cc", "-O2", "-pthread", "-o", load, HERE / "load.c"], check=True)
    return load


class Told(typing.NamedTuple):
    """The lines that were answered: their number a second and in all, and the microseconds from a line to its reply. Of these it
    has the median, the value that one in 100 exceeds, and the greatest."""
    rate: float
    lines: int
    median: int
    late: int
    slowest: int


def begin_load(load, port, window, files, pause=0, seconds=0):
    """Begins to put lines, a connection a file: each once, or over and over for this number of seconds. The pause
    between two lines of a connection is in milliseconds."""
    options = [*(("-p", str(pause)) if pause else ()), *(("-s", str(seconds)) if seconds else ())]
    return subprocess.Popen([load, *options, str(port), str(window), *files], stdout=subprocess.PIPE, text=True)


def end_load(putting):
    """Waits until the lines are answered."""
    said, _ = putting.communicate()
    assert putting.returncode == 0, "lines were not answered"
    nanoseconds, faults, lines, *waits = map(int, said.split())
    assert faults == 0, f"{faults} faults"
    return Told(lines / nanoseconds * 1e9, lines, *waits)


class Program:
    """A program that listens on a port."""

    def __init__(self, command, port, environment=None):
        self.port = port
        pipe = subprocess.PIPE
        if "--users" in command:  # the server, whose alerts are not to be logged meanwhile
            command = [*command, "--log-level", "warn"]
        self.process = subprocess.Popen(command, stdin=pipe, stdout=pipe, text=True, env=environment)
        assert self.process.stdout.readline() == f"LISTENING {port}\n"

    def processor(self):
        """Seconds in the program and in the kernel."""
        fields = pathlib.Path(f"/proc/{self.process.pid}/stat").read_text().rpartition(")")[2].split()
        return int(fields[11]) / TICK, int(fields[12]) / TICK

    def resident(self):
        status = pathlib.Path(f"/proc/{self.process.pid}/status").read_text()
        return int(status.split("VmRSS:")[1].split()[0]) * 1024

    def put(self, load, window, files):
        """Lines a second, and microseconds of a line in the program and in the kernel."""
        before = self.processor()
        told = end_load(begin_load(load, self.port, window, files))
        inside, kernel = ((now - then) / told.lines * 1e6 for now, then in zip(self.processor(), before))
        return told.rate, inside, kernel

    def end(self):
        self.process.terminate()
        self.process.wait(60)


def pack(number):
    return f"{CODES[number % len(CODES)]} SN{number}"


def upload(number):
    return f"mah1 UPLOAD {pack(number)} B{number // 10_000} 301231"


def verification(chance, packs):
    return f"ph1 VERIFY {pack(chance.randrange(packs))}"


def files_of(folder, name, lines, connections):
    """The lines, in a file for each connection."""
    files = []
    for connection in range(connections):
        files.append(folder / f"{name}-{connection}")
        files[-1].write_text("".join(line + "\n" for line in lines[connection::connections]))
    return files
