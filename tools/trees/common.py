"""Files of some age, and runs of the tools."""

import os
import subprocess
import time

TOP = os.path.dirname(os.path.dirname(os.path.dirname(os.path.realpath(__file__))))


def write(path, text, mode=0o644):
    os.makedirs(os.path.dirname(path), exist_ok=True)
    with open(path, "w", encoding="utf-8") as file:
        file.write(text)
    os.chmod(path, mode)


def content(path):
    """Returns the text of a file, or an empty string if there is none."""
    if not os.path.exists(path):
        return ""
    with open(path, encoding="utf-8") as file:
        return file.read()


def age(path, minutes):
    """Makes a file, or a folder with its contents, this many minutes old."""
    at = time.time() - 60 * minutes
    os.utime(path, (at, at))
    for folder, folders, files in os.walk(path):
        for it in (*folders, *files):
            os.utime(f"{folder}/{it}", (at, at))


def run(words, at, **environment):
    """Returns the status, standard output and standard error of a run with no input."""
    ran = subprocess.run(words, cwd=at, input=b"", capture_output=True, env={**os.environ, **environment}, timeout=60)
    return ran.returncode, ran.stdout.decode(), ran.stderr.decode()
