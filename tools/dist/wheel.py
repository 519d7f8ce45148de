"""A wheel of Python: a zip file with the module and what describes it (PEP 427)."""

import base64
import hashlib
import os
import tomllib
import zipfile

# The oldest C library that the shared library asks for is that of this tag (tools/dist/test looks).
TAG = "py3-none-manylinux_2_17_x86_64"


def metadata(project):
    """Returns the file METADATA of a table [project]."""
    lines = ["Metadata-Version: 2.1", f"Name: {project['name']}", f"Version: {project['version']}", f"Summary: {project['description']}"]
    lines += [f"License: {project['license']['text']}", f"Requires-Python: {project['requires-python']}"]
    lines += [f"Keywords: {','.join(project['keywords'])}", *(f"Classifier: {it}" for it in project["classifiers"])]
    for extra, needs in project.get("optional-dependencies", {}).items():
        lines += [f"Provides-Extra: {extra}", *(f"Requires-Dist: {it}; extra == '{extra}'" for it in needs)]
    return "\n".join(lines) + "\n"


def record_line(name, data):
    """Returns the line of a file in RECORD."""
    digest = base64.urlsafe_b64encode(hashlib.sha256(data).digest()).rstrip(b"=").decode()
    return f"{name},sha256={digest},{len(data)}\n"


def make(folder, pyproject, files, licence):
    """Writes the wheel of a project into a folder; `files` has the path of each file by its name in the wheel."""
    project = tomllib.loads(pyproject)["project"]
    head = f"{project['name']}-{project['version']}"
    info, members = f"{head}.dist-info", {}
    for name, path in {**files, f"{info}/LICENSE": licence}.items():
        with open(path, "rb") as it:
            members[name] = it.read()
    members[f"{info}/METADATA"] = metadata(project).encode()
    members[f"{info}/WHEEL"] = f"Wheel-Version: 1.0\nGenerator: talvrugon\nRoot-Is-Purelib: false\nTag: {TAG}\n".encode()
    record = f"{info}/RECORD"
    members[record] = "".join(record_line(*it) for it in members.items()).encode() + f"{record},,\n".encode()
    os.makedirs(folder, exist_ok=True)
    with zipfile.ZipFile(f"{folder}/{head}-{TAG}.whl", "w", zipfile.ZIP_DEFLATED) as it:
        for name, data in members.items():
            entry = zipfile.ZipInfo(name)  # of 1980: the same bytes at any time
            entry.external_attr, entry.compress_type = 0o644 << 16, zipfile.ZIP_DEFLATED
            it.writestr(entry, data)
