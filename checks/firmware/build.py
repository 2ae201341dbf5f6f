"""Builds the programs of examples/firmware and of this directory for firmware, with the archives of tools/firmware-lib."""
import importlib.machinery
import importlib.util
import pathlib
import subprocess

HERE = pathlib.Path(__file__).resolve().parent
TOP = HERE.parent.parent
SAMPLES = TOP / "examples/firmware"
GNU_EFI = ["-I/usr/include/efi", "-I/usr/include/efi/x86_64"]
STRICT = ["-O2", "-Wall", "-Wextra", "-Werror", f"-I{TOP / 'include'}", f"-I{SAMPLES}"]
FREESTANDING = ["-std=c11", "-ffreestanding", "-fno-stack-protector", "-fshort-wchar", *STRICT, *GNU_EFI]
SECTIONS = [".text", ".sdata", ".data", ".dynamic", ".dynsym", ".rel", ".rela", ".rel.*", ".rela.*", ".reloc"]
PROGRAMS = {"menu": ["menu", "lines", "reader", "memory"], "hello": ["hello"], "order": ["order"],
            "timer": ["timer", "planted", "lines", "reader", "memory"], "texts": ["texts", "lines", "reader", "memory"],
            "collation": ["collation", "lines", "reader", "memory"]}


class Wrong(Exception):
    """Something is wrong."""


def run(*words, **how):
    ran = subprocess.run([str(it) for it in words], stdout=subprocess.PIPE, stderr=subprocess.STDOUT, **how)
    if ran.returncode:
        said = ran.stdout.decode(errors="replace").splitlines()
        said = [it for it in said if "rejected: " in it] or said
        raise Wrong(f"status {ran.returncode} of {pathlib.Path(words[0]).name}: " + "\n".join(said[:12]))
    return ran.stdout.decode(errors="replace")


def of_file(path):
    """A program in Python, as a module."""
    loader = importlib.machinery.SourceFileLoader(path.name, str(path))
    module = importlib.util.module_from_spec(importlib.util.spec_from_loader(path.name, loader))
    loader.exec_module(module)
    return module


def source_of(name):
    """Returns the file of a part of a program."""
    return next(it for it in (SAMPLES / f"{name}.c", HERE / f"{name}.c") if it.is_file())


def by_gnu_efi(name, room, archives):
    """Builds a program of PROGRAMS in a folder, by gcc and gnu-efi: its file."""
    objects = []
    for it in PROGRAMS[name]:
        # The planted function alone is not told that there is no red zone.
        told = [] if it == "planted" else ["-mno-red-zone"]
        objects.append(room / f"{it}.o")
        run("gcc", *FREESTANDING, "-fpic", "-DGNU_EFI_USE_MS_ABI", *told, "-c", source_of(it), "-o", objects[-1])
    return linked(room / f"{name}.efi", *objects, archives / "x86_64/libnardcorbel_firmware.a")


def linked(made, *parts):
    """Links objects and archives to a program for firmware, over gnu-efi: its file."""
    run("ld", "-nostdlib", "-znocombreloc", "-T", "/usr/lib/elf_x86_64_efi.lds", "-shared", "-Bsymbolic", "--no-undefined",
        "--exclude-libs", "ALL", "/usr/lib/crt0-efi-x86_64.o", *parts, "-o", made.with_suffix(".so"), "-L/usr/lib", "-lefi", "-lgnuefi")
    run("objcopy", *(word for it in SECTIONS for word in ("-j", it)), "--target", "efi-app-x86_64", "--subsystem=10",
        made.with_suffix(".so"), made)
    return made


def alone(name, room):
    """Builds a program that needs no archive, by clang for x86-64: its file."""
    made = room / f"{name}.efi"
    run("clang", "--target=x86_64-unknown-windows", *FREESTANDING, "-c", source_of(name), "-o", room / f"{name}.obj")
    run("lld-link", "-subsystem:efi_application", "-entry:efi_main", "-nodefaultlib", room / f"{name}.obj", f"-out:{made}")
    return made


def by_lld(processor):
    """The same by clang and lld-link, for a processor."""
    def build(name, room, archives):
        # gnu-efi has no header for aarch64 on x86-64: that of x86-64 fits, but for the convention.
        (room / "aarch64").mkdir(exist_ok=True)
        (room / "aarch64/efibind.h").write_text("#include <x86_64/efibind.h>\n")
        convention = [] if processor == "x86_64" else ["-DEFIAPI=", f"-I{room}"]
        objects = [room / f"{it}.obj" for it in PROGRAMS[name]]
        for it, made in zip(PROGRAMS[name], objects):
            run("clang", f"--target={processor}-unknown-windows", *FREESTANDING, *convention, "-c", source_of(it), "-o", made)
        run("lld-link", "-subsystem:efi_application", "-entry:efi_main", "-nodefaultlib", *objects,
            archives / processor / "nardcorbel_firmware.lib", f"-out:{room / name}.efi")
        return room / f"{name}.efi"
    return build
