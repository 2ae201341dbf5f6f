"""Debian's packages, downloaded once."""
import contextlib
import pathlib
import re
import shutil
import subprocess
import tempfile


def quietly(*words, **how):
    subprocess.run(words, check=True, stdout=subprocess.DEVNULL, stderr=subprocess.DEVNULL, **how)


@contextlib.contextmanager
def own_lists(kind, *options):
    """Gives options for apt's commands, which then know all packages of Debian's main section: `deb-src` for sources, or `deb`. Uses the
    mirrors that apt-get uses for the packages of this machine."""
    listed = ["apt-get", "indextargets", "--format", f"{kind} $(SITE) $(RELEASE) $(COMPONENT)", "Created-By: Packages"]
    lines = subprocess.run(listed, stdout=subprocess.PIPE, text=True, check=True).stdout.splitlines()
    with tempfile.TemporaryDirectory() as name:
        own = pathlib.Path(name)
        (own / "lists").mkdir()
        (own / "sources.list").write_text("\n".join(sorted({it for it in lines if it.endswith(" main") and "/debian" in it})) + "\n")
        given = ["APT::Sandbox::User=root", f"Dir::State::lists={own / 'lists'}", f"Dir::Etc::sourcelist={own / 'sources.list'}",
                 "Dir::Etc::sourceparts=-", "Dir::Cache::pkgcache=", "Dir::Cache::srcpkgcache=", *options]
        words = [word for it in given for word in ("-o", it)]
        quietly("apt-get", *words, "update")
        yield words


def downloaded(package, room):
    """Returns the .dsc file of a source package in `room`."""
    room = pathlib.Path(room)
    if not list(room.glob(f"{package}_*.dsc")):
        room.mkdir(parents=True, exist_ok=True)
        with own_lists("deb-src") as given:
            quietly("apt-get", *given, "source", "--download-only", package, cwd=room)
    return sorted(room.glob(f"{package}_*.dsc"))[0]


def unpacked(package, room):
    """Returns the directory in `room` with the source of a package."""
    source = pathlib.Path(room) / package
    if not source.is_dir():
        with tempfile.TemporaryDirectory() as name:
            quietly("dpkg-source", "-x", downloaded(package, name), f"{name}/source")
            source.parent.mkdir(parents=True, exist_ok=True)
            shutil.move(f"{name}/source", source)
    return source


def installed(packages, room, processor="amd64"):
    """Returns the directory `room` with the files of binary packages, and of the kernel on which one of them depends."""
    room = pathlib.Path(room)
    if not room.is_dir():
        with tempfile.TemporaryDirectory() as name, own_lists("deb", f"APT::Architecture={processor}") as given:
            said = subprocess.run(["apt-cache", *given, "depends", *packages], stdout=subprocess.PIPE, text=True, check=True).stdout
            quietly("apt-get", *given, "download", *packages, *re.findall(r"Depends: (linux-image-\S+)", said), cwd=name)
            for it in pathlib.Path(name).glob("*.deb"):
                quietly("dpkg-deb", "-x", it, f"{name}/files")
            room.parent.mkdir(parents=True, exist_ok=True)
            shutil.move(f"{name}/files", room)
    return room
