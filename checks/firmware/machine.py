"""A machine of QEMU's with firmware of EDK II: its disk, its flash, and its serial line as one reads and writes it."""
import os
import re
import select
import struct
import subprocess
import time

import samples
import variables

FIRMWARE = {
    "x86_64": ("/usr/share/OVMF/OVMF_CODE_4M.fd", "/usr/share/OVMF/OVMF_VARS_4M.fd"),
    # The first has the form of a flash of 64 MiB. Of the second only the headers are taken.
    "aarch64": ("/usr/share/AAVMF/AAVMF_CODE.fd", "/usr/share/AAVMF/AAVMF_VARS.snakeoil.fd"),
}
# qemu64 is QEMU's least processor of x86-64, here without SSE3 as well.
MACHINES = {
    "x86_64": ["qemu-system-x86_64", "-machine", "q35", "-cpu", "qemu64,-sse3"],
    "aarch64": ["qemu-system-aarch64", "-machine", "virt", "-cpu", "cortex-a57"],
}
# Where the programs lie on the disk.
FILES = {"/EFI/menu.efi": "menu", "/EFI/order.efi": "order", "/EFI/tools/hello.efi": "hello"}
ESCAPES = re.compile(rb"\x1b\[[0-9;=?]*[A-Za-z]")
DOWN, UP, ENTER = b"\x1b[B", b"\x1b[A", b"\r"


class Silent(Exception):
    """What was waited for did not come."""


def make_disk(path, files):
    """A disk with an MBR and one partition, the system partition, with these files: path in it and path here."""
    fat = path.with_suffix(".fat")
    fat.write_bytes(bytes(samples.SECTORS * 512))
    run = lambda *words: subprocess.run([str(it) for it in words], check=True, capture_output=True)
    run("mformat", "-i", fat, "::")
    folders = {parent for name in files for parent in folders_of(name)}
    for folder in sorted(folders, key=len):
        run("mmd", "-i", fat, f"::{folder}")
    for name, source in files.items():
        run("mcopy", "-i", fat, source, f"::{name}")
    partition = struct.pack("<B3sB3sII", 0, b"\xfe\xff\xff", 0xEF, b"\xfe\xff\xff", samples.FIRST_SECTOR, samples.SECTORS)
    record = bytes(440) + struct.pack("<IH", samples.SIGNATURE, 0) + partition + bytes(48) + b"\x55\xaa"
    path.write_bytes(record + bytes((samples.FIRST_SECTOR - 1) * 512) + fat.read_bytes())


def folders_of(name):
    parts = name.strip("/").split("/")[:-1]
    return ["/" + "/".join(parts[: i + 1]) for i in range(len(parts))]


def variables_of(entries, order):
    """The variables of the entries, by their numbers, and of their order.

    The firmware deletes what it takes for malformed among the entries of BootOrder, so that one has two at first, and the
    program of the first writes TestOrder into it.
    """
    made = [(f"Boot{number:04X}", data) for number, data in entries]
    return made + [(name, struct.pack(f"<{len(them)}H", *them)) for name, them in (("BootOrder", order[:2]), ("TestOrder", order))]


def devices(folder):
    """A network card, an NVMe disk, a USB stick, a CD and an SD card, all of them empty."""
    for it in ("nvme", "stick", "cd", "sd"):
        (folder / it).write_bytes(bytes(1 << 24))
    drive = lambda name, *words: ["-drive", ",".join(["if=none", f"id={name}", "format=raw", f"file={folder / name}", *words])]
    return ["-netdev", "user,id=net", "-device", "virtio-net-pci,netdev=net", *drive("nvme"), "-device", "nvme,drive=nvme,serial=1",
            *drive("stick"), "-device", "qemu-xhci", "-device", "usb-storage,drive=stick", *drive("cd", "media=cdrom"),
            "-device", "ide-cd,drive=cd,bus=ide.1", *drive("sd"), "-device", "sdhci-pci", "-device", "sd-card,drive=sd"]


def command(processor, disk, flash, entries, serial, added=("-net", "none")):
    """The command that starts a machine, whose flash is written with these variables, or kept if they are None."""
    code, template = FIRMWARE[processor]
    if entries is not None:
        with open(template, "rb") as file:
            flash.write_bytes(variables.with_variables(file.read(), entries))
    return [*MACHINES[processor], "-accel", "tcg", "-m", "256", "-display", "none", "-serial", serial, *added, "-no-reboot",
            "-drive", f"if=pflash,format=raw,readonly=on,file={code}", "-drive", f"if=pflash,format=raw,file={flash}",
            "-drive", f"if=none,id=disk,format=raw,file={disk}", "-device", "virtio-blk-pci,drive=disk"]


def first_files(files):
    """An archive that Linux unpacks, of programs by their names, with the device of the console."""
    fields = lambda name, mode, data: (0, mode, 0, 0, 1, 0, len(data), 0, 0, 5, 1, len(name) + 1, 0)
    head = lambda name, mode, data: b"070701" + b"".join(b"%08X" % it for it in fields(name, mode, data)) + name
    node = lambda *it: head(*it).ljust((len(head(*it)) + 4) // 4 * 4, b"\0") + it[2] + b"\0" * (-len(it[2]) % 4)
    nodes = [(b"dev", 0o40755, b""), (b"dev/console", 0o20600, b""), *((name, 0o100755, data) for name, data in files.items()),
             (b"TRAILER!!!", 0, b"")]
    return b"".join(node(*it) for it in nodes)


def commands(said):
    """The commands that a first program of Linux ran, as they are printed: the words of each, what it prints, and its status."""
    return re.findall(r"^\$ (.*)\n((?:.*\n)*?)status (\d+)$", said, re.M)


class Machine:
    """Runs with the variables in its flash, for so many seconds. `text` is what its serial line printed, without what a terminal obeys."""

    def __init__(self, processor, disk, flash, entries, *added, seconds=110):
        self.said, self.deadline = b"", time.monotonic() + seconds
        self.process = subprocess.Popen(
            [*command(processor, disk, flash, entries, "stdio", *added), "-monitor", "none"],
            stdin=subprocess.PIPE, stdout=subprocess.PIPE, stderr=subprocess.STDOUT)

    def __enter__(self):
        return self

    def __exit__(self, *_):
        self.process.kill()
        self.process.wait()

    def text(self):
        return ESCAPES.sub(b"", self.said).replace(b"\r", b"").decode(errors="replace")

    def wait_for(self, words, after=0):
        """Reads on until a line is printed after the first `after` characters: how many there are with it."""
        return self.wait_for_text(f"\n{words}\n", after) - 1

    def wait_for_text(self, wanted, after=0):
        """The same with a text, whatever is before and after it."""
        while (found := self.text().find(wanted, after)) < 0:
            left = self.deadline - time.monotonic()
            if left <= 0 or not select.select([self.process.stdout], [], [], left)[0]:
                raise Silent(f"it never prints '{wanted.strip()}'; at the end it prints\n{self.text()[-600:]}")
            part = os.read(self.process.stdout.fileno(), 65536)
            if not part:
                raise Silent(f"it ends before it prints '{wanted.strip()}':\n{self.text()[-600:]}")
            self.said += part
        return found + len(wanted)

    def press(self, keys):
        self.process.stdin.write(keys)
        self.process.stdin.flush()
