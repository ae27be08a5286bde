"""The crates that are linked into a program, by the names in its symbols: those of this repository and those of the kit, with their licences."""
import os
import re
import shutil
import subprocess
from dataclasses import dataclass, field


@dataclass(frozen=True)
class Crate:
    """A crate. `licences` are the names and texts of its licence files; the kit's own crates have none."""

    name: str
    version: str
    terms: str
    licences: dict = field(default_factory=dict)


def kit_folder():
    """The folder of the kit, by the command `rt` on the PATH, or None."""
    found = shutil.which("rt")
    return os.path.dirname(os.path.dirname(os.path.realpath(found))) if found else None


def names_in(program):
    """The crates that have symbols in a program."""
    listed = subprocess.run(["nm", program], capture_output=True, text=True)
    words = [line.split()[-1] for line in listed.stdout.splitlines() if "::" in line]
    return {found[1] for word in words for found in re.finditer(r"(?:^[<+]?|[<(&, ']|\d')([a-z][a-z0-9_]*)::", word)}


def _read(path):
    with open(path, encoding="utf-8") as file:
        return file.read()


def crate_of(folder, name):
    """What a kit's folder says of a crate."""
    files = sorted(file for file in os.listdir(folder) if file.startswith("LICENSE"))
    about = _read(f"{folder}/README.md") if os.path.exists(f"{folder}/README.md") else ""
    version = re.search(rf"`{re.escape(name)}` (\d+\.\d+\.\d+)", about)
    terms = re.search(r"\((MIT or Apache-2\.0|Apache-2\.0 or MIT|MIT|Unlicense or MIT)[,;)]", about) if files else None
    by_files = {("LICENSE-APACHE", "LICENSE-MIT"): "MIT or Apache-2.0", ("LICENSE-MIT",): "MIT"}.get(tuple(files), "")
    return Crate(name, version[1] if version else "", terms[1] if terms else by_files, {file: _read(f"{folder}/{file}") for file in files})


def named_by(own, folder):
    """The crates that crates.txt names for crates of this repository. Some, as those of macros alone, have no symbols."""
    lines = _read(os.path.join(os.path.dirname(folder), "crates.txt")).splitlines()
    parts = [line.partition(":") for line in lines if ":" in line and not line.startswith("#")]
    return {name for head, _, names in parts if head.split()[0] in own for name in names.split()}


def linked(program, kit, own):
    """The crates of the repository (`own` is its folder of crates) and of the kit that a program has, and the kit's identity."""
    names = names_in(program)
    ours = sorted(name for name in names if os.path.isdir(f"{own}/{name}"))
    names |= named_by(ours, own)
    theirs = [crate_of(f"{kit}/rattle/{name}", name) for name in sorted(names) if os.path.isdir(f"{kit}/rattle/{name}/src") and name not in ours]
    identity = _read(f"{kit}/KIT-ID").strip() if os.path.exists(f"{kit}/KIT-ID") else ""
    return ours, theirs, identity
