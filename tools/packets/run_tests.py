"""Tests of whole runs: arguments, statuses, messages, long captures, a terminal; and the commands of docs/FEEDS.md."""

import gzip
import os
import pty
import re
import subprocess
import sys
import tempfile
import threading
import time
from concurrent.futures import ThreadPoolExecutor

import making as m
from common import FASTCAT, HERE, MADE, TOP, content, expect, run

FEED = f"{TOP}/examples/packets/templates.toml"
CAPTURE = f"{TOP}/examples/packets/capture.pcap"
ALWAYS = ("--reset", "always")


def test_statuses():
    """A run that fails prints one line that says what to do, has the status of the failure, and writes nothing."""
    frame = m.ethernet(m.ip(m.udp(b"")))
    made = {
        name: MADE.file(name, data)
        for name, data in (
            *(("empty", b""), ("text", b"packets of text\n"), ("packed.gz", gzip.compress(m.pcap([frame]))), ("head", m.pcap([]))),
            *(("feed.xml", content(f"{TOP}/examples/packets/templates.xml")), ("latin", b"# \xe9\n"), ("refused.toml", b"template = 1\n")),
        )
    }
    no_library = f"{MADE.folder}/none.so"
    refusals = (
        ((*ALWAYS, FEED, made["empty"]), 3, "it is empty: give a capture"),
        ((*ALWAYS, FEED, made["text"]), 3, "70 61 63 6b, so it is neither pcap nor pcapng: messages by themselves are shown by fastcat show"),
        ((*ALWAYS, FEED, made["packed.gz"]), 3, "it is packed by gzip: zcat FILE | tools/packets/run .. -"),
        ((*ALWAYS, FEED, MADE.folder), 3, "Is a directory"),
        ((*ALWAYS, FEED, "no-such-file"), 3, "No such file or directory"),
        ((*ALWAYS, FEED, "/dev/zero"), 3, "it begins with 00 00 00 00, so it is neither pcap nor pcapng"),
        ((*ALWAYS, FEED, made["head"]), 1, "no packet of UDP or TCP"),
        ((*ALWAYS, FEED, "--port", "9", CAPTURE), 1, "no packet of UDP or TCP to port 9"),
        ((*ALWAYS, "no-such-file", CAPTURE), 3, "No such file or directory"),
        ((*ALWAYS, made["feed.xml"], CAPTURE), 2, "XML, of which tools/from_xml/run makes a template text"),
        ((*ALWAYS, made["latin"], CAPTURE), 2, "byte 2 is no UTF-8"),
        ((*ALWAYS, made["refused.toml"], CAPTURE), 2, "S1: "),
        ((*ALWAYS, FEED, "--max-text", "1", CAPTURE), 2, "limits: "),
        ((*ALWAYS, "--library", no_library, FEED, CAPTURE), 3, "none.so is not there: "),
        ((*ALWAYS, "--library", FEED, FEED, CAPTURE), 3, "templates.toml"),
        (("--packet", "0", made["empty"]), 3, "it is empty: give a capture"),
    )
    with ThreadPoolExecutor(4) as pool:
        for (words, status, said), ended in zip(refusals, pool.map(lambda it: run(*it[0]), refusals)):
            is_line = ended[2].startswith("packets: ") and ended[2].count("\n") == 1
            expect(" ".join(words), ended[:2] == (status, b"") and is_line and said in ended[2])


def test_words():
    """A usage error is reported, with status 2."""
    mistakes = [(), ("--packet", "x"), (FEED, CAPTURE), ALWAYS, ("--packet", "0", FEED, CAPTURE), (*ALWAYS, FEED, CAPTURE, "x"), ("--skip", "-1")]
    for words in (("--sequence", "be9"), ("--length", "4"), ("--b3", "--skip", "2"), ("--reset", "maybe")):
        mistakes.append((*ALWAYS, *words, FEED, CAPTURE))
    with ThreadPoolExecutor(4) as pool:
        for words, ended in zip(mistakes, pool.map(lambda it: run(*it), mistakes)):
            expect(f"words {words}", ended[:2] == (2, b""))
    expect("help", run("--help")[0] == 0)
    expect("a device that is full", full_device() == (3, "packets: reading or writing failed: No space left on device\n"))


def full_device():
    with open("/dev/full", "wb") as full:
        ran = subprocess.run([sys.executable, f"{HERE}/run", "--packet", "0", CAPTURE], stdout=full, stderr=subprocess.PIPE)
    return ran.returncode, ran.stderr.decode()


def test_cut_capture():
    """The packets before the end of a truncated capture are shown."""
    whole = run(*ALWAYS, "--skip", "5", FEED, stdin=content(CAPTURE))
    cut = run(*ALWAYS, "--skip", "5", FEED, stdin=content(CAPTURE)[:-3])
    said = r"packets: -: it ends at byte \d+, inside a record at byte \d+: it was cut, capture or copy it again\n"
    is_told = re.fullmatch(said, cut[2]) is not None
    expect("a cut capture", cut[0] == 3 and cut[1] == whole[1][: whole[1].rindex(b"packet 9")] and is_told)


def fed(pieces, *words, **more):
    """Runs the tool with standard input piece by piece; returns its status, and its peak memory in KiB."""
    ran = subprocess.Popen([sys.executable, f"{HERE}/run", *words], stdin=subprocess.PIPE, env=MADE.environment(), **more)

    def write():
        with ran.stdin as it:
            for piece in pieces:
                it.write(piece)
                it.flush()

    writer = threading.Thread(target=write)
    writer.start()
    _, status, usage = os.wait4(ran.pid, 0)
    writer.join()
    return os.waitstatus_to_exitcode(status), usage.ru_maxrss


def test_long():
    """Captures of any length take the same memory: UDP, TCP with a segment that never arrives, and pcapng with blocks that are skipped."""
    most = []
    many = m.pcap([m.ethernet(m.ip(m.udp(bytes(1400))))] * 100)[24:]
    segment = b"".join(m.pcap([m.ethernet(m.ip(m.tcp(bytes(1400), 1400 * it)))])[24:] for it in range(1, 2000))
    blocks = m.block("<", 4, bytes(1 << 20))
    for begun, piece, times in (
        *((m.pcap([]), many, 1), (m.pcap([]), many, 400)),
        *((m.pcap([]), segment, 1), (m.pcap([]), segment, 8)),
        (m.section("<") + m.interface("<", 1), blocks, 100),
    ):
        status, memory = fed([begun, *[piece] * times], "--packet", "4000000000", stderr=subprocess.DEVNULL)
        expect("a long capture", status == 1)
        most.append(memory)
    expect(f"memory of long captures {most}", max(most) < min(most) + 12 * 1024)


def slowly(frames, out):
    """Writes a capture whose second half follows one second after the first was shown."""
    yield m.pcap([]) + frames
    for _ in range(3000):
        if os.pread(out.fileno(), 1 << 20, 0).count(b"packet ") >= 1024:
            break
        time.sleep(0.01)
    time.sleep(1.05)
    yield frames


def test_terminal():
    """The progress of a long capture is printed on a terminal after one second; the output is the same."""
    frames = m.pcap([m.ethernet(m.ip(m.udp(b"")))] * 1024)[24:]
    for is_terminal, form in ((True, rb"(\r\x1b\[K(1024|2048) packets, 0 MiB){1,2}\r\x1b\[K"), (False, b"")):
        ours, theirs = pty.openpty() if is_terminal else os.pipe()
        with tempfile.TemporaryFile() as out:
            status, _ = fed(slowly(frames, out), *ALWAYS, FEED, stdout=out, stderr=theirs)
            os.close(theirs)
            said = os.read(ours, 4096)
            os.close(ours)
            expect("packets on a terminal", status == 0 and os.pread(out.fileno(), 1 << 20, 0).count(b"packet ") == 2048)
        expect("progress", re.fullmatch(form, said) is not None)


def blocks_of(page):
    """Returns the commands of a page, each with its expected lines; `..` stands for any lines."""
    found = []
    for line in content(page).decode().splitlines():
        if found and found[-1][0].endswith("\\"):
            found[-1] = found[-1][0][:-1] + line.strip(), []
        elif line.startswith("    $ "):
            found.append((line[6:], []))
        elif line.startswith("    ") and found and found[-1][1] is not None:
            found[-1][1].append(line[4:])
        elif found and not line.strip() and found[-1][1] == []:
            continue
        elif found and line.strip():
            found.append(("", None))
    return [(command, lines) for command, lines in found if command]


def test_page():
    """The commands of docs/FEEDS.md print what the page says."""
    commands = blocks_of(f"{TOP}/docs/FEEDS.md")
    with tempfile.TemporaryDirectory() as folder:
        for name in ("tools", "examples", "docs"):
            os.symlink(f"{TOP}/{name}", f"{folder}/{name}")
        with open(f"{folder}/fastcat", "w", encoding="utf-8") as it:
            it.write(f'#!/bin/sh\nexec "{os.path.abspath(FASTCAT)}" "$@"\n')
        os.chmod(f"{folder}/fastcat", 0o755)
        for command, lines in commands:
            ran = subprocess.run(["bash", "-c", command], cwd=folder, capture_output=True, env=MADE.environment())
            form = "".join("(?s:.*)" if line == ".." else re.escape(line + "\n") for line in lines)
            expect(f"docs/FEEDS.md: {command}", re.fullmatch(form, ran.stdout.decode()) is not None and ran.stderr == b"")
    expect("docs/FEEDS.md has commands", len(commands) > 6)
