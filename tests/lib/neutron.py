"""The client that scripts share: requests as bytes, replies read back, and the program as a process, over a
pipe or a socket, and under callgrind where instructions are counted. PROGRAM in the environment names
another program than the one that `rt ci` or `bin/neutron --prove` builds."""

import json
import os
import re
import socket
import subprocess
import sys
import time

TOP = os.path.dirname(os.path.dirname(os.path.dirname(os.path.realpath(__file__))))
sys.path.insert(0, os.path.join(TOP, "bin/parts"))
# (scripts take these from here)
from messages import body_length, messages_in, read_reply, request  # pylint: disable=wrong-import-position,unused-import

PROGRAM = os.environ.get("PROGRAM", os.path.join(TOP, "crates/neutron/out/neutron"))
# Callgrind. The C library clears and copies more than 2 KB by `rep stosb` and `rep movsb`, which callgrind
# counts as an instruction a byte. Under these thresholds it doesn't.
TUNABLES = ":".join(f"glibc.cpu.x86_rep_{what}_threshold=1000000000" for what in ("movsb", "stosb"))
CALLGRIND = ["env", f"GLIBC_TUNABLES={TUNABLES}", "valgrind", "--tool=callgrind"]


def compact(value):
    """JSON without spaces, as bytes."""
    return json.dumps(value, separators=(",", ":")).encode()


def free_address():
    """An address of the loopback at which nobody listens."""
    with socket.socket() as free:
        free.bind(("127.0.0.1", 0))
        return free.getsockname()


def connected(address, seconds=60):
    """A socket that is connected to a server which is still starting, for at most so long."""
    for _ in range(10 * seconds):
        try:
            return socket.create_connection(address)
        except ConnectionRefusedError:
            time.sleep(0.1)
    raise SystemExit("the server doesn't listen")


class Client:
    """Requests one by one over a file of replies and a function that sends bytes."""

    def __init__(self, send, replies):
        self.send, self.replies = send, replies

    def exchange(self, given):
        """The status, the head and the body of the reply to these bytes."""
        self.send(given)
        reply = read_reply(self.replies)
        if reply is None:
            raise EOFError(f"no reply to {given[:200]!r}")
        return reply

    def ask(self, method, path, body=None, **who):
        """What the server replies to a request that it has to accept."""
        status, _, text = self.exchange(request(method, path, body, **who))
        if status not in (200, 201, 204):
            raise SystemExit(f"{method} {path}: {status} {text.decode()}")
        return json.loads(text) if text else None


class Piped(Client):
    """The program with these words, over its standard input and output."""

    def __init__(self, words, **more):
        self.run = subprocess.Popen(words, stdin=subprocess.PIPE, stdout=subprocess.PIPE, **more)
        super().__init__(self.write, self.run.stdout)

    def write(self, given):
        self.run.stdin.write(given)
        self.run.stdin.flush()

    def end(self):
        """Ends the input, and gives the program's status."""
        self.run.communicate()
        return self.run.returncode


class Connected(Client):
    """One connection to a server, which may still be starting."""

    def __init__(self, address, seconds=60):
        self.socket = connected(address, seconds)
        self.socket.setsockopt(socket.IPPROTO_TCP, socket.TCP_NODELAY, 1)
        super().__init__(self.socket.sendall, self.socket.makefile("rb"))

    def end(self):
        self.replies.close()
        self.socket.close()


class Counter:
    """Callgrind over one program, which counts nothing until it is told to. Its files are in a folder."""

    def __init__(self, folder):
        self.file, self.dumps = os.path.join(folder, "counts"), 0

    def words(self, words):
        """The words that run these words under callgrind."""
        return [*CALLGRIND, "--instr-atstart=no", f"--callgrind-out-file={self.file}", *words]

    @staticmethod
    def control(run, *words):
        subprocess.run(["callgrind_control", *words, str(run.pid)], check=True,
                       stdout=subprocess.DEVNULL, stderr=subprocess.DEVNULL)

    def mean(self, run, calls):
        """The instructions that the running program takes for these calls, in the mean."""
        self.control(run, "--instr=on")
        for call in calls:
            call()
        self.control(run, "--instr=off")
        self.control(run, "--dump")
        self.dumps += 1
        with open(f"{self.file}.{self.dumps}", encoding="utf-8") as dump:
            return int(re.search(r"^totals: (\d+)", dump.read(), re.MULTILINE)[1]) // len(calls)
