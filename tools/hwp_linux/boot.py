"""What a boot needs: the kernel, its modules, the guest program, the disks and the command line of QEMU."""
from __future__ import annotations

import glob
import gzip
import lzma
import os
import re
import shutil
import stat
import subprocess
from pathlib import Path
from typing import Iterator, NamedTuple, Optional, Sequence

from hwp_tools.console import HOME, MISSING, READ, USAGE, Ended

SOURCES = os.path.join(HOME, "tools", "linux")
MODULES = ("crc32c_generic", "virtio_pci", "virtio_blk", "ext4", "hwpoison-inject")
FILES_BYTES, SWAP_BYTES = 16 << 20, 16 << 20
COMMAND_LINE = "console=ttyS0 loglevel=1 panic=-1 mce=ignore_ce mitigations=off nowatchdog rdinit=/init"
PACKAGES = {
    "qemu-system-x86_64": "qemu-system-x86",
    "gcc": "gcc (and libc6-dev)",
    "mke2fs": "e2fsprogs",
    "dpkg-deb": "dpkg",
}
FETCH = "`apt-get download linux-image-6.1.0-NN-amd64` fetches the package of a kernel, NN as apt-cache names it"
SECONDS = 120


class Kernel(NamedTuple):
    """A kernel: its image, its folder of modules, and its version as its files name it."""

    image: str
    modules: str
    version: str


def found(program: str, named: Optional[str] = None) -> str:
    """The path of a program: the one that is named, or the one on the PATH."""
    path = shutil.which(named or program, path=os.pathsep.join([os.environ.get("PATH", os.defpath), "/usr/sbin", "/sbin"]))
    if path is None:
        raise Ended(MISSING, f"there is no {named or program}: the package {PACKAGES[program]} has it")
    return path


def ran(words: Sequence[str]) -> None:
    """Runs a program that prepares the boot."""
    try:
        done = subprocess.run(words, stdin=subprocess.DEVNULL, capture_output=True, check=False, timeout=SECONDS)
    except subprocess.TimeoutExpired:
        raise Ended(MISSING, f"{words[0]} has no end after {SECONDS} seconds") from None
    if done.returncode != 0:
        raise Ended(MISSING, f"{words[0]} ended with status {done.returncode}: {done.stderr.decode('utf-8', 'replace').strip()}")


def package_of(named: Optional[str]) -> str:
    """The kernel's package: the one that is named, one in this folder, or the kernel of this machine."""
    named = named or os.environ.get("HWP_KERNEL")
    here = sorted(glob.glob("linux-image-*.deb"))
    if not named and not here and not glob.glob("/boot/vmlinuz-*"):
        raise Ended(MISSING, f"no kernel is named, by --kernel or HWP_KERNEL, and none is in this folder or in /boot: {FETCH}")
    return named or (here[-1] if here else "/")


def unpacked(package: str, folder: Path) -> str:
    """The folder into which a kernel's package is unpacked; a folder is one already."""
    if os.path.isdir(package):
        return package
    if not os.path.isfile(package):
        raise Ended(READ, f"can't read {package}: {FETCH}")
    ran([found("dpkg-deb"), "-x", package, str(folder / "kernel")])
    return str(folder / "kernel")


def kernel_in(top: str) -> Kernel:
    """The kernel in an unpacked package."""
    images = sorted(glob.glob(os.path.join(top, "boot", "vmlinuz-*")))
    if not images:
        raise Ended(USAGE, f"{top} has no boot/vmlinuz-*: it is no unpacked kernel")
    version = os.path.basename(images[-1]).removeprefix("vmlinuz-")
    modules = [path for lib in ("lib", "usr/lib") if os.path.isdir(path := os.path.join(top, lib, "modules", version))]
    if not modules:
        raise Ended(USAGE, f"{top} has no lib/modules/{version}")
    return Kernel(images[-1], modules[0], version)


def module_data(path: str) -> bytes:
    """The bytes of a module, which may be compressed."""
    with open(path, "rb") as file:
        data = file.read()
    return lzma.decompress(data) if path.endswith(".xz") else data


def modules_of(kernel: Kernel) -> dict[str, bytes]:
    """The modules that the guest loads, by their names, each behind those that it needs."""
    paths = {re.sub(r"\.ko(\.xz)?$", "", os.path.basename(path)).replace("-", "_"): path for path in _module_paths(kernel.modules)}
    taken: dict[str, bytes] = {}

    def take(name: str) -> None:
        if name in paths and name not in taken:
            data = module_data(paths[name])
            needed = re.search(rb"\0depends=([^\0]*)\0", data)
            for other in needed[1].decode().split(",") if needed else []:
                take(other.replace("-", "_"))
            taken[name] = data

    for name in MODULES:
        take(name.replace("-", "_"))
    return taken


def _module_paths(top: str) -> Iterator[str]:
    for at, _, names in os.walk(top):
        yield from (os.path.join(at, name) for name in names if name.endswith((".ko", ".ko.xz")))


def archive(files: dict[str, tuple[int, bytes]]) -> bytes:
    """An initramfs with these files, each with its mode and its bytes: the form that the kernel calls newc."""
    rows = []
    for number, (name, (mode, data)) in enumerate([*files.items(), ("TRAILER!!!", (0, b""))], 1):
        numbers = [number, mode, 0, 0, 1, 0, len(data), 0, 0, 0, 0, len(name) + 1, 0]
        head = b"070701" + b"".join(b"%08X" % number for number in numbers) + name.encode() + b"\0"
        rows.append(head + bytes(-len(head) % 4) + data + bytes(-len(data) % 4))
    return b"".join(rows)


def initramfs(kernel: Kernel, folder: Path) -> Path:
    """The path of the first root: the guest program as /init, and its modules with their list."""
    guest = folder / "init"
    sources = sorted(glob.glob(os.path.join(SOURCES, "*.c")))
    ran([found("gcc"), "-O1", "-static", "-pthread", "-o", str(guest), *sources])
    modules = modules_of(kernel)
    listed = "".join(f"/modules/{name}.ko\n" for name in modules)
    files = {"init": (stat.S_IFREG | 0o755, guest.read_bytes())}
    files.update({name: (stat.S_IFDIR | 0o755, b"") for name in ("dev", "proc", "sys", "files", "modules")})
    files["modules/list"] = (stat.S_IFREG | 0o644, listed.encode())
    files.update({f"modules/{name}.ko": (stat.S_IFREG | 0o644, data) for name, data in modules.items()})
    path = folder / "initramfs"
    path.write_bytes(gzip.compress(archive(files), 1))
    return path


def disks(folder: Path) -> list[Path]:
    """The two disks: a file system for the files of a script, and room for swap."""
    paths = [folder / "files.disk", folder / "swap.disk"]
    for path, size in zip(paths, (FILES_BYTES, SWAP_BYTES)):
        with open(path, "wb") as file:
            file.truncate(size)
    ran([found("mke2fs"), "-q", "-F", "-t", "ext4", "-b", "4096", "-O", "^has_journal", str(paths[0])])
    return paths


def qemu_words(qemu: str, kernel: Kernel, folder: Path, orders: int) -> list[str]:
    """The command line of QEMU: one processor, by software, in a window of its own process alone. `orders` is the open socket of
    the second serial line; the first one writes the console."""
    words = [qemu, "-nodefaults", "-no-user-config", "-display", "none", "-accel", "tcg,thread=single", "-cpu", "Nehalem-v1"]
    words += ["-m", "384", "-smp", "1", "-qmp", "stdio"]
    words += ["-kernel", kernel.image, "-initrd", str(initramfs(kernel, folder)), "-append", COMMAND_LINE]
    words += ["-chardev", f"file,id=console,path={folder / 'console'}", "-serial", "chardev:console"]
    words += ["-chardev", f"socket,id=orders,fd={orders}", "-serial", "chardev:orders"]
    for disk in disks(folder):
        words += ["-drive", f"if=virtio,format=raw,snapshot=on,file={disk}"]
    return words
