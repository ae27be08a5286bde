"""Builds a Debian package of a folder, so that the same files give the same bytes."""
import gzip
import hashlib
import os
import re
import subprocess

SYSTEM_LIBRARIES = {"libc.so.6": "libc6", "libm.so.6": "libc6", "ld-linux-x86-64.so.2": "libc6", "libgcc_s.so.1": "libgcc-s1", "libpthread.so.0": "libc6",
                    "libdl.so.2": "libc6"}
X86_64 = 62  # the machine in the header of an ELF file


class CannotPackage(Exception):
    """Why no package can be made."""


def write(path, data, mode=0o644):
    os.makedirs(os.path.dirname(path), exist_ok=True)
    with open(path, "wb") as file:
        file.write(data if isinstance(data, bytes) else data.encode())
    os.chmod(path, mode)


def compressed(data):
    return gzip.compress(data if isinstance(data, bytes) else data.encode(), 9, mtime=0)


def check_machine(program):
    with open(program, "rb") as file:
        head = file.read(20)
    if head[:4] != b"\x7fELF" or int.from_bytes(head[18:20], "little") != X86_64:
        raise CannotPackage(f"{program} is no program for amd64")


def needed_packages(program):
    """The packages of the libraries that a program needs, with the least version of the C library."""
    said = subprocess.run(["objdump", "-p", program], capture_output=True, text=True, check=True).stdout
    libraries = re.findall(r"^\s+NEEDED\s+(\S+)", said, re.MULTILINE)
    unknown = [name for name in libraries if name not in SYSTEM_LIBRARIES]
    if unknown:
        raise CannotPackage(f"{program} needs {', '.join(unknown)}, and it isn't known which package has that")
    glibc = max((tuple(map(int, found.split("."))) for found in re.findall(r"GLIBC_(\d+\.\d+(?:\.\d+)?)", said)), default=(2, 31))
    packages = {SYSTEM_LIBRARIES[name] for name in libraries}
    return sorted(f"libc6 (>= {'.'.join(map(str, glibc[:2]))})" if package == "libc6" else package for package in packages)


def _files(folder):
    for at, folders, names in os.walk(folder):
        folders.sort()
        for name in sorted(names):
            yield os.path.join(at, name)


def finish(root, control, scripts, conffiles, moment):
    """Adds the control files to a folder, and gives everything one time."""
    files = [path for path in _files(root)]
    sums = "".join(f"{hashlib.md5(open(path, 'rb').read()).hexdigest()}  {os.path.relpath(path, root)}\n" for path in files)
    size = sum(-(-os.path.getsize(path) // 1024) for path in files)
    control = {**control, "Installed-Size": str(size)}
    text = "".join(f"{name}: {control[name]}\n" for name in sorted(control, key=lambda name: (name == "Description", list(control).index(name))))
    write(f"{root}/DEBIAN/control", text)
    write(f"{root}/DEBIAN/md5sums", sums)
    write(f"{root}/DEBIAN/conffiles", "".join(f"{path}\n" for path in conffiles))
    for name, script in scripts.items():
        write(f"{root}/DEBIAN/{name}", script, 0o755)
    for at, folders, names in os.walk(root, topdown=False):
        for path in (at, *(os.path.join(at, name) for name in names)):
            os.utime(path, (moment, moment))
        os.chmod(at, 0o755)


def build(root, path, moment):
    """Makes the package. dpkg-deb sorts its members, and takes no time and no owner from this machine."""
    subprocess.run(["dpkg-deb", "--build", "--root-owner-group", "-Zxz", root, path], check=True, stdout=subprocess.DEVNULL,
                   env={**os.environ, "SOURCE_DATE_EPOCH": str(moment), "TZ": "UTC", "LC_ALL": "C"})
