#!/usr/bin/env python3
"""Peers that can't be trusted, and logs that change meanwhile: runs `serve` and `send` of the built program against them.

usage: bench/untrusted_peers.py [PROGRAM]    with no name: the one that ./stn build makes
It says `passed`, or what failed. It takes about a minute.

Peers say nothing, send a byte now and then, read nothing, or ask without end; each session has two seconds. After each such
peer comes an honest one, which has to be served within the limit and a few seconds more.
"""
import os
import re
import socket
import subprocess
import sys
import tempfile
import threading
import time
from pathlib import Path

TOP = Path(__file__).resolve().parent.parent
PROGRAM = TOP / "out" / "stn"
# A session may take so long, and a machine that does other work at the same time so much longer.
SECONDS = 2
SLACK = 4
WAITING = ": another program holds it, waiting\n"
FAILED = []


def check(what, holds, shown=""):
    print(f"{'ok    ' if holds else 'FAILED'} {what}{'' if holds else f': {shown!r}'}", flush=True)
    if not holds:
        FAILED.append(what)


def run(*words):
    """A command's output, or the line of its refusal or fault without the reason, its status, and how long it took. Hints, and
    that it waits, are left out."""
    start = time.monotonic()
    done = subprocess.run([PROGRAM, *map(str, words)], stdout=subprocess.PIPE, stderr=subprocess.STDOUT, timeout=120)
    lines = [it for it in done.stdout.decode().splitlines(True) if not it.startswith("hint: ") and not it.endswith(WAITING)]
    told = lines[:1] if lines and lines[0].startswith(("fault ", "refused ")) else lines
    return "".join(told), done.returncode, time.monotonic() - start


def made(*words):
    text, status, _ = run(*words)
    assert status == 0, (words, text)
    return text


def free_port():
    with socket.socket() as one:
        one.bind(("127.0.0.1", 0))
        return one.getsockname()[1]


class Serving:
    """`serve` of a log, for so many sessions."""

    def __init__(self, log, count, seconds=SECONDS):
        self.port = free_port()
        self.address = f"127.0.0.1:{self.port}"
        self.process = subprocess.Popen(
            [PROGRAM, "serve", log, "1", self.address, str(count), f"--seconds={seconds}"],
            stdout=subprocess.PIPE, stderr=subprocess.STDOUT,
        )
        assert self.process.stdout.readline() == b"listening\n"

    def connect(self):
        return socket.create_connection(("127.0.0.1", self.port))

    def lines(self):
        text, _ = self.process.communicate(timeout=120)
        return text.decode().splitlines()


def requests(log, site):
    """What `send` says, frame by frame: HELLO, RECORDS, ASK."""
    with socket.create_server(("127.0.0.1", 0)) as listener:
        address = f"127.0.0.1:{listener.getsockname()[1]}"
        process = subprocess.Popen([PROGRAM, "send", log, str(site), address], stdout=subprocess.DEVNULL, stderr=subprocess.DEVNULL)
        stream, _ = listener.accept()
        with stream:
            stream.settimeout(1)
            said = b""
            try:
                while piece := stream.recv(65536):
                    said += piece
            except TimeoutError:
                pass
        process.wait(timeout=120)
    frames = []
    while said:
        length = 4 + int.from_bytes(said[:4], "big")
        frames.append(said[:length])
        said = said[length:]
    return frames


def say_nothing(stream, frames, over):
    over.wait()


def stop_in_a_frame(stream, frames, over):
    stream.sendall(frames[0][:-1])
    over.wait()


def send_slowly(stream, frames, over):
    """A byte now and then, so that no single read waits for long."""
    for byte in b"".join(frames) * 1000:
        if over.wait(0.2):
            return
        stream.sendall(bytes([byte]))


def ask_without_reading(stream, frames, over):
    stream.sendall(frames[0] + frames[1])
    while not over.is_set():
        stream.sendall(frames[2] * 1000)


def ask_without_end(stream, frames, over):
    """Reports without end, all of them read."""
    stream.settimeout(0.2)
    stream.sendall(frames[0] + frames[1])
    while not over.is_set():
        stream.sendall(frames[2] * 20)
        try:
            stream.recv(1 << 20)
        except TimeoutError:
            pass


def send_after_a_refusal(stream, frames, over):
    """A frame of a length that there is not, and then bytes without end."""
    stream.sendall(bytes(4))
    while not over.wait(0.05):
        stream.sendall(bytes(1000))


def behave(peer, stream, frames, over):
    try:
        peer(stream, frames, over)
    except OSError:
        pass
    stream.close()


def serve_untrusted(peer, ends):
    """A peer, and an honest one that connects after it: it is served within the limit of the first one."""
    name = peer.__name__.replace("_", " ")
    frames = requests("t.log", 1)
    serving = Serving("t.log", 2)
    over = threading.Event()
    thread = threading.Thread(target=behave, args=(peer, serving.connect(), frames, over))
    thread.start()
    time.sleep(0.2)
    text, status, took = run("send", "u.log", 2, serving.address, f"--seconds={SECONDS + SLACK + 30}")
    over.set()
    thread.join()
    lines = serving.lines()
    check(f"{name}: the honest peer is served", status == 0 and text.startswith("plan 256 steps"), text)
    check(f"{name}: within the limit", took < SECONDS + SLACK, took)
    check(f"{name}: the session ends as it should", len(lines) == 2 and re.fullmatch(ends, lines[0]), lines)
    check(f"{name}: the honest one is closed", lines[1:] == ["session 3 closed"], lines)


def sit(stream, over):
    over.wait()


def drip(stream, over):
    """A reply, a byte now and then."""
    for byte in b"\x00\x00\x00\x01\x06" + b"\x00\x03\xff\xff":
        if over.wait(0.3):
            return
        stream.sendall(bytes([byte]))
    over.wait()


def send_to(server, log, site, answers):
    name = f"send, to one that {server.__doc__ or 'says nothing'}"
    over = threading.Event()
    with socket.create_server(("127.0.0.1", 0)) as listener:
        address = f"127.0.0.1:{listener.getsockname()[1]}"

        def serve():
            stream, _ = listener.accept()
            try:
                server(stream, over)
            except OSError:
                pass
            stream.close()

        thread = threading.Thread(target=serve)
        thread.start()
        text, status, took = run("send", log, site, address, f"--seconds={SECONDS}")
        over.set()
        thread.join()
    check(f"{name}: {answers}", (text, status) == (f"{answers}\n", 1), (text, status))
    check(f"{name}: within the limit", took < SECONDS + SLACK, took)


def send_to_no_answer():
    """An address whose queue is full."""
    with socket.socket() as listener:
        listener.bind(("127.0.0.1", 0))
        listener.listen(0)
        waiting = []
        for _ in range(64):
            one = socket.socket()
            one.setblocking(False)
            one.connect_ex(listener.getsockname())
            waiting.append(one)
        time.sleep(0.5)
        text, status, took = run("send", "u.log", 2, f"127.0.0.1:{listener.getsockname()[1]}", f"--seconds={SECONDS}")
        check("send, to an address that doesn't answer: fault net", (text, status) == ("fault net\n", 1), (text, status))
        check("send, to an address that doesn't answer: within the limit", took < SECONDS + SLACK, took)
        for one in waiting:
            one.close()


def refuse_a_large_state():
    """A site of another plan is told why it is refused, however much more it says."""
    for count in (10, 1000):
        log = f"large{count}.log"
        made("bare", log, 1, 2)
        for number in range(count):
            made("add", log, 1, "z", "s1", f"--lo={number}", f"--hi={number}")
        for _ in range(5):
            serving = Serving("t.log", 1)
            text, status, _ = run("send", log, 1, serving.address)
            lines = serving.lines()
            check(f"refused with {count} records: it sees why", (text, status) == ("refused 60\n", 1), (text, status))
            check(f"refused with {count} records: the session's line", lines == ["session 1 refused 60"], lines)


def add_meanwhile():
    """Bounds that are added while a session lasts are kept, and handed on in the next."""
    made("bare", "c.log", 1, 2)
    made("bare", "d.log", 2, 2)
    made("add", "d.log", 2, "z", "s1", "--lo=1", "--hi=9")
    frames = requests("d.log", 2)
    serving = Serving("c.log", 2)
    stream = serving.connect()
    stream.sendall(frames[0] + frames[1])
    time.sleep(0.5)
    added = [made("add", "c.log", 1, "z", "s1", f"--lo={number}", "--hi=10") for number in range(5)]
    text, status, _ = run("send", "d.log", 2, serving.address, "--seconds=60")
    stream.close()
    lines = serving.lines()
    check("added meanwhile: the ids follow one another", added == [f"added 1.{number}\n" for number in range(1, 6)], added)
    check("added meanwhile: the first session is cut off", lines[:1] == ["session read"], lines)
    check("added meanwhile: handed on in the next", status == 0 and "records 6 live" in text, text)
    for log, site in (("c.log", 1), ("d.log", 2)):
        text = made("report", log, site)
        check(f"added meanwhile: all are in {log}", "records 6 live" in text, text)


def serve_unsaved():
    """A log that can't be saved is not served, and no peer is told anything."""
    made("bare", "e.log", 1, 1)
    if os.path.exists("e.log.lock"):
        os.remove("e.log.lock")
    os.mkdir("e.log.lock")
    answer = run("serve", "e.log", 1, f"127.0.0.1:{free_port()}", 1)
    check("serve, where the log can't be saved: fault file, and no `listening`", answer[:2] == ("fault file\n", 1), answer)


def main():
    made("bare", "t.log", 1, 256)
    made("bare", "u.log", 2, 256)
    serve_untrusted(say_nothing, "session read")
    serve_untrusted(stop_in_a_frame, "session read")
    serve_untrusted(send_slowly, "session read")
    serve_untrusted(ask_without_reading, "session write")
    serve_untrusted(ask_without_end, "session (read|write)")
    serve_untrusted(send_after_a_refusal, "session 0 refused 50")
    drip.__doc__ = "sends a byte now and then"
    send_to(sit, "u.log", 2, "fault read")
    send_to(drip, "u.log", 2, "fault read")
    send_to_no_answer()
    refuse_a_large_state()
    add_meanwhile()
    serve_unsaved()
    print("passed" if not FAILED else f"FAILED: {len(FAILED)}")
    return 1 if FAILED else 0


if __name__ == "__main__":
    if len(sys.argv) > 1:
        PROGRAM = Path(sys.argv[1])
    PROGRAM = PROGRAM.resolve()
    with tempfile.TemporaryDirectory() as folder:
        os.chdir(folder)
        status = main()
        os.chdir("/")
    sys.exit(status)
