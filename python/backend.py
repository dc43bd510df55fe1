"""Builds the wheel with the standard library alone, so that `pip install ./python` downloads nothing. The library is
included if it was built; the wheel's tag says then which system it needs. With `pip install -e ./python` the package is
used where it is.
"""

import base64
import hashlib
import pathlib
import re
import sysconfig
import zipfile

HERE = pathlib.Path(__file__).resolve().parent
LIBRARIES = ("libcrackd.so", "libcrackd-unproved.so")


def field(name):
    """A field of pyproject.toml, which Python 3.10 can't read."""
    return re.search(rf'^{name} = "(.*)"$', (HERE / "pyproject.toml").read_text(encoding="utf-8"), re.MULTILINE)[1]


def section(name):
    """The lines of a section of pyproject.toml."""
    return (HERE / "pyproject.toml").read_text(encoding="utf-8").partition(f"[{name}]\n")[2].partition("\n[")[0]


def extras():
    """The optional dependencies, by the name of their extra."""
    lines = re.findall(r"^(\w+) = \[(.*)\]$", section("project.optional-dependencies"), re.MULTILINE)
    return {name: re.findall(r'"(.*?)"', listed) for name, listed in lines}


def scripts():
    """The commands that are installed, as the file of entry points has them."""
    lines = re.findall(r'^(\w+) = "(.*)"$', section("project.scripts"), re.MULTILINE)
    return "".join(["[console_scripts]\n", *(f"{name} = {call}\n" for name, call in lines)])


def packed():
    """The files of the package, by their paths in the wheel."""
    suffixes = {".py", ".typed"}
    found = sorted(it for it in (HERE / "crackd").rglob("*") if it.suffix in suffixes or it.name in LIBRARIES)
    return {it.relative_to(HERE).as_posix(): it.read_bytes() for it in found}


def metadata():
    """What the wheel says of the package."""
    lines = ["Metadata-Version: 2.1"]
    lines += [f"{title}: {field(title.lower())}" for title in ("Name", "Version")]
    lines += [f"Summary: {field('description')}", f"Requires-Python: {field('requires-python')}"]
    for extra, names in extras().items():
        lines.append(f"Provides-Extra: {extra}")
        lines += [f'Requires-Dist: {name}; extra == "{extra}"' for name in names]
    return "\n".join(lines) + "\n"


def digest(content):
    return base64.urlsafe_b64encode(hashlib.sha256(content).digest()).rstrip(b"=").decode("ascii")


def platform(library):
    """The platform that a library needs, by the newest version of glibc that it names, as PEP 600 writes it."""
    system, _, machine = sysconfig.get_platform().rpartition("-")
    versions = [int(it) for it in re.findall(rb"GLIBC_2\.(\d+)", library)]
    if system != "linux" or not versions:
        return re.sub(r"[^A-Za-z0-9]", "_", sysconfig.get_platform())
    # (pip knows no older ones)
    return f"manylinux_2_{max(*versions, 5 if machine == 'x86_64' else 17)}_{machine}"


def build_wheel(wheel_directory, config_settings=None, metadata_directory=None):
    files = packed()
    libraries = b"".join(files.get(f"crackd/{it}", b"") for it in LIBRARIES)
    return write_wheel(wheel_directory, files, platform(libraries) if libraries else "any")


def build_editable(wheel_directory, config_settings=None, metadata_directory=None):
    return write_wheel(wheel_directory, {"crackd.pth": f"{HERE}\n".encode("utf-8")}, "any")


def write_wheel(wheel_directory, files, system):
    """Writes a wheel with these files, for a system or "any". Returns its name."""
    name, version = field("name"), field("version")
    tag, info = f"py3-none-{system}", f"{name}-{version}.dist-info"
    files[f"{info}/METADATA"] = metadata().encode("utf-8")
    files[f"{info}/entry_points.txt"] = scripts().encode("ascii")
    wheel = f"Wheel-Version: 1.0\nGenerator: crackd\nRoot-Is-Purelib: {str(system == 'any').lower()}\nTag: {tag}\n"
    files[f"{info}/WHEEL"] = wheel.encode("ascii")
    record = "".join(f"{path},sha256={digest(it)},{len(it)}\n" for path, it in files.items()) + f"{info}/RECORD,,\n"
    files[f"{info}/RECORD"] = record.encode("utf-8")
    archive = f"{name}-{version}-{tag}.whl"
    with zipfile.ZipFile(pathlib.Path(wheel_directory) / archive, "w", zipfile.ZIP_DEFLATED) as written:
        for path, it in files.items():
            written.writestr(path, it)
    return archive
