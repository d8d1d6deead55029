"""Tests flutejoin-receive where a signal comes at any step, a call is missing, or a disk stalls."""
from __future__ import annotations

import os
import signal
import subprocess
import sys
import unittest

from flutejoin_tools.fdt import hints
from tests.receive.receiver import LONGEST_WAIT, TOOL, TOOLS, Case, Receiver, packet, records
from tests.support.ports import free_port

NEEDS_PROGRAM = False
# Runs the tool again and again until it waits for datagrams for the first time. Each run ends by a
# signal, which comes one step of the tool's `open` or `run` later than in the run before.
STEPS = """
import os, signal, sys
sys.path.insert(0, {tools!r})
import flutejoin_tools.receive.main
code = compile(open({tool!r}).read(), {tool!r}, "exec")
def called(frame, event, _):
    name = frame.f_code.co_name if frame.f_code.co_filename == {main!r} else ""
    if name == "wait":
        os._exit(99)
    if name in ("open", "run"):
        frame.f_trace_opcodes = True
        return stepped
def stepped(frame, event, _):
    global left
    left -= event == "opcode"
    if not left:
        sys.settrace(None)
        signal.raise_signal(signal.SIGTERM)
    return stepped
step, status = 0, 1
while status == 1:
    step += 1
    child = os.fork()
    if not child:
        signal.alarm({longest})
        left = step
        sys.settrace(called)
        try:
            exec(code, dict(__name__="__main__"))
        except SystemExit as end:
            os._exit(end.code)
        finally:
            os._exit(98)
    status = os.waitstatus_to_exitcode(os.waitpid(child, 0)[1])
print(step, "steps, then", status)
"""


class Patched(Case):
    """Runs of the tool with a part of Python or of the system replaced."""

    def run_patched(self, patch: str, *words: str) -> Receiver:
        """Starts a receiver in which lines of Python have changed something."""
        script = (
            f"import runpy, sys\nsys.argv[0] = {TOOL!r}\nsys.path.insert(0, {TOOLS!r})\n{patch}\n"
            f"runpy.run_path({TOOL!r}, run_name='__main__')\n"
        )
        return Receiver(self, *words, tool=["-c", script])

    def test_without_the_call_for_many_datagrams(self) -> None:
        patch = "sys.modules['ctypes'] = None"
        receiver = self.run_patched(patch, "--count", "100", "-o", "kept")
        sent = [*self.symbols(98), b"", bytes(65507)]
        receiver.send(sent)
        self.assertEqual(receiver.ended()[0], 0)
        self.assertEqual(records(self.path("kept/127.0.0.1.fldg")), sent)

    def test_an_end_loses_nothing(self) -> None:
        """What comes after a look into the receive buffer is kept, even if the run ends then."""
        patch = (
            "import os, signal\nfrom flutejoin_tools.receive.sessions import Session\n"
            "receive = Session.receive\n"
            "def stopped(session, most, now):\n"
            "    came, kept = receive(session, most, now)\n"
            "    if came == 1:\n"
            "        os.kill(os.getpid(), signal.SIGSTOP)\n"
            "    return came, kept\n"
            "Session.receive = stopped"
        )
        receiver = self.run_patched(patch, "-o", "kept")
        sent = self.symbols(100)
        receiver.send(sent[:1])
        os.waitid(os.P_PID, receiver.process.pid, os.WSTOPPED | os.WEXITED | os.WNOWAIT)
        receiver.send(sent[1:])
        receiver.process.send_signal(signal.SIGINT)
        status, _ = receiver.end(signal.SIGCONT)
        self.assertEqual((status, records(self.path("kept/127.0.0.1.fldg"))), (0, sent))

    def test_a_signal_at_any_step(self) -> None:
        """A run ends by one that comes between any two steps of its beginning."""
        main = os.path.join(TOOLS, "flutejoin_tools", "receive", "main.py")
        code = STEPS.format(tool=TOOL, tools=TOOLS, main=main, longest=LONGEST_WAIT)
        words = "--port", str(free_port()), "--interface", "127.0.0.1", "-o", "kept"
        command = sys.executable, "-c", code, *words
        done = subprocess.run(command, cwd=self.folder, capture_output=True, text=True, check=False)
        self.assertRegex(done.stdout, r"^[1-9][0-9]+ steps, then 99\n$")
        self.assertNotIn("Traceback", done.stderr)

    def test_an_end_while_datagrams_come(self) -> None:
        """A run ends even if there is always another datagram."""
        patch = (
            "from flutejoin_tools.receive.sessions import Session\nreceive = Session.receive\n"
            "def more(session, most, now):\n"
            "    return most, receive(session, most, now)[1]\n"
            "Session.receive = more"
        )
        receiver = self.run_patched(patch, "-o", "kept")
        sent = self.symbols(10, 1000)
        receiver.send(sent)
        receiver.until_kept(len(sent), "kept/127.0.0.1.fldg")
        self.assertEqual(receiver.end()[0], 0)

    def test_a_disk_that_stalls(self) -> None:
        """Even while the disk stalls, the receive buffer is emptied."""
        patch = (
            "import os, time\nwrite = os.write\n"
            "def slow(descriptor, data):\n"
            "    while len(data) > 200 and not os.path.exists('works'):\n"
            "        time.sleep(0.01)\n"
            "    return write(descriptor, data)\n"
            "os.write = slow"
        )
        receiver = self.run_patched(patch, "-o", "kept")
        sent = self.symbols(500, 1000)
        receiver.send(sent[:1])
        name = self.path("kept/127.0.0.1.fldg")
        receiver.until(lambda: os.path.exists(name), "a file")
        for begin in range(1, 500, 100):
            receiver.send(sent[begin : begin + 100])
            receiver.until_received()
        self.assertEqual(os.path.getsize(name), 0)
        open(self.path("works"), "x").close()
        receiver.until_kept(len(sent), "kept/127.0.0.1.fldg")
        self.assertEqual(receiver.end()[0], 0)
        self.assertEqual(records(name), sent)


class Modules(unittest.TestCase):
    def test_names_of_files(self) -> None:
        import ipaddress

        from flutejoin_tools.common.file_names import file_name, name_of

        for address in ("10.0.0.1", "2001:db8::1", "::", "fe80::1", "fe80::1%eth0_1"):
            for epoch in 1, 2, 31:
                for part in 1, 2, 12:
                    name = file_name(address, part, epoch)
                    wanted = ipaddress.ip_address(address), epoch, part
                    self.assertEqual(name_of(name), wanted)
        for name in (
            *("10.0.0.1.e1.fldg", "10.0.0.1.e02.fldg", "10.0.0.1.2.e2.fldg", "e2.fldg"),
            *("10.0.0.01.fldg", "10.0.0.1", "FE80--1.fldg", "fe80--1%.fldg", "fe80--1%a-b.fldg"),
            *(f"10.0.0.1.{10**9}.fldg", f"10.0.0.1.e{10**9}.fldg", "10.0.0.1.fldg\n"),
        ):
            self.assertIsNone(name_of(name), name)

    def test_a_hint_remembers_the_newest(self) -> None:
        hint = hints.Hint()
        many = hints.MOST_SYMBOLS
        for number in range(many + 1):
            self.assertFalse(hint.look(packet(b"one", number, instance=1)))
        self.assertEqual(len(hint.hashes), many)
        self.assertFalse(hint.look(packet(b"other", 0, instance=1)))
        self.assertFalse(hint.look(packet(b"other", 2, instance=2)))
        self.assertFalse(hint.look(packet(b"other", 2, instance=1, tsi=8)))
        self.assertFalse(hint.look(packet(b"a file", 2)))
        self.assertFalse(hint.look(b"no packet"))
        self.assertTrue(hint.look(packet(b"other", many, instance=1)))
        self.assertFalse(hint.look(packet(b"once is told", many, instance=1)))
