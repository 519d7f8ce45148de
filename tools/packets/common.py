"""Shared by the tests of tools/packets/run."""

import importlib.util
import io
import os
import subprocess
import sys
from importlib.machinery import SourceFileLoader

HERE = os.path.dirname(os.path.realpath(__file__))
TOP = os.path.dirname(os.path.dirname(HERE))
FASTCAT = os.environ.get("FASTCAT") or f"{TOP}/fastcat"
FAILED, COUNT = [], [0]


def expect(name, is_so):
    COUNT[0] += 1
    if not is_so:
        FAILED.append(name)
        print(f"packets: {name}: not as it should be", file=sys.stderr)


def tool():
    """Returns the tool as a module, for the packets of captures."""
    loader = SourceFileLoader("packets", f"{HERE}/run")
    module = importlib.util.module_from_spec(importlib.util.spec_from_loader("packets", loader))
    sys.modules["packets"] = module
    loader.exec_module(module)
    return module


def content(path):
    with open(path, "rb") as it:
        return it.read()


TOOL = tool()


def cut_out(capture, *words):
    """Returns the packets of a capture, each with its time, sequence number, bytes, gap and fault; and how the capture ends."""
    words = TOOL.words_of([*words, "--packet", "0"])
    payloads, found, ended = TOOL.Payloads(words.port), [], ""
    try:
        for it in TOOL.packets(TOOL.Source(io.BytesIO(capture), "capture"), words, payloads):
            if not it.ends:
                found.append((it.time, it.sequence, it.data, it.gap, it.wrong))
    except TOOL.Failed as failed:
        ended = str(failed)
    return found, ended or ", ".join(f"{count} {what}" for what, count in payloads.passed.items())


def run(*words, stdin=b"", **more):
    """Runs the tool; returns its status, standard output and standard error."""
    ran = subprocess.run([sys.executable, f"{HERE}/run", *words], input=stdin, capture_output=True, env=MADE.environment(), **more)
    return ran.returncode, ran.stdout, ran.stderr.decode()


def shown(templates, stream, *words):
    """Returns the output of `fastcat show` for a stream."""
    return subprocess.run([FASTCAT, "show", *words, templates], input=stream, stdout=subprocess.PIPE).stdout


class MADE:
    """The temporary folder of the tests, with the shared library."""

    folder = library = ""

    @classmethod
    def make(cls, folder):
        cls.folder, cls.library = folder, f"{folder}/libfast_c.so"
        archive = os.environ.get("LIBRARY")
        if not archive:
            subprocess.run([f"{TOP}/tools/library", "fast_c"], check=True)
            archive = f"{TOP}/crates/fast_c/out/libfast_c.a"
        whole = ["-Wl,--whole-archive", archive, "-Wl,--no-whole-archive", f"{TOP}/include/heap.c"]
        subprocess.run([os.environ.get("CC", "cc"), "-shared", "-fPIC", "-O2", "-o", cls.library, *whole], check=True)

    @classmethod
    def environment(cls):
        return {**os.environ, "FAST_LIBRARY": cls.library}

    @classmethod
    def file(cls, name, data):
        with open(f"{cls.folder}/{name}", "wb") as it:
            it.write(data)
        return f"{cls.folder}/{name}"
