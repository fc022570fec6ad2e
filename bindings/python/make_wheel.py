"""Writes a wheel, the same bytes at every run: make_wheel.py TARGET OUT. pip calls build_wheel below, as pyproject.toml says.

The wheel is the folder that bindings/python/build writes for the target, and the names and texts that a wheel needs. By the standard
library of Python 3.11 or later, and readelf of binutils.
"""

import base64
import hashlib
import pathlib
import platform
import re
import subprocess
import sys
import tomllib
import zipfile

HERE = pathlib.Path(__file__).resolve().parent
ROOT = HERE.parent.parent
LEAST_GLIBC = 17  # of manylinux2014, which every pip of today knows
LICENCES = ("LICENSE", "NOTICE")


def platform_tag(library, machine):
    """The oldest systems that have all that the library asks for, in pip's name: by the versions of its symbols of glibc."""
    said = subprocess.run(["readelf", "-dVW", library], check=True, capture_output=True, text=True).stdout
    needed = set(re.findall(r"\(NEEDED\).*\[(.*)\]", said))
    if not needed <= {"libc.so.6"}:
        raise SystemExit(f"{library} needs {needed}, which not every Linux has")
    glibc = max([LEAST_GLIBC, *map(int, re.findall(r"GLIBC_2\.(\d+)", said))])
    older_name = f".manylinux2014_{machine}" if glibc == LEAST_GLIBC else ""
    return f"manylinux_2_{glibc}_{machine}{older_name}"


def project_table():
    """What pyproject.toml says of the project, and the version, which the file VERSION says for all bindings."""
    project = tomllib.loads((HERE / "pyproject.toml").read_text())["project"]
    return {**project, "version": (ROOT / "VERSION").read_text().strip()}


def metadata(project):
    """The file METADATA, with README.md as its description."""
    lines = [
        "Metadata-Version: 2.4",
        f"Name: {project['name']}",
        f"Version: {project['version']}",
        f"Summary: {project['description']}",
        f"License-Expression: {project['license']}",
        *(f"License-File: {name}" for name in LICENCES),
        *(f"Classifier: {name}" for name in project["classifiers"]),
        f"Requires-Python: {project['requires-python']}",
        "Description-Content-Type: text/markdown",
        "",
        (HERE / project["readme"]).read_text(),
    ]
    return "\n".join(lines)


def tags(tag):
    """The file WHEEL: the tag stands there once for each name of the platform."""
    python, abi, platforms = tag.split("-")
    lines = ["Wheel-Version: 1.0", "Generator: fuzzydate", "Root-Is-Purelib: false"]
    return "\n".join([*lines, *(f"Tag: {python}-{abi}-{name}" for name in platforms.split(".")), ""])


def record(files, name):
    """The file RECORD: every file with its digest and size, and itself without."""
    lines = []
    for path, content in files.items():
        digest = base64.urlsafe_b64encode(hashlib.sha256(content).digest()).rstrip(b"=").decode()
        lines.append(f"{path},sha256={digest},{len(content)}")
    return "\n".join([*lines, f"{name},,", ""])


def write_zip(path, files):
    """A zip file without compression and with one fixed time, so that no version of zlib and no clock changes its bytes."""
    with zipfile.ZipFile(path, "w", zipfile.ZIP_STORED) as wheel:
        for name, content in files.items():
            entry = zipfile.ZipInfo(name, (1980, 1, 1, 0, 0, 0))
            entry.create_system = 3  # Unix, whose permissions follow
            entry.external_attr = (0o100755 if name.endswith(".so") else 0o100644) << 16
            wheel.writestr(entry, content)


def write_wheel(target, out):
    """Writes a target's wheel from its folder; gives the wheel's name."""
    folder = ROOT / "target" / "bindings" / target / "python"
    project = project_table()
    tag = "py3-none-" + platform_tag(folder / "fuzzydate" / "libfuzzydate.so", target.split("-")[0])
    named = f"{project['name']}-{project['version']}"
    about = f"{named}.dist-info"
    files = {path.relative_to(folder).as_posix(): path.read_bytes() for path in sorted(folder.glob("fuzzydate/*"))}
    files |= {f"{about}/licenses/{name}": (ROOT / name).read_bytes() for name in LICENCES}
    files |= {f"{about}/METADATA": metadata(project).encode(), f"{about}/WHEEL": tags(tag).encode()}
    files[f"{about}/RECORD"] = record(files, f"{about}/RECORD").encode()
    pathlib.Path(out).mkdir(parents=True, exist_ok=True)
    write_zip(pathlib.Path(out, f"{named}-{tag}.whl"), files)
    return f"{named}-{tag}.whl"


def build_wheel(wheel_directory, config_settings=None, metadata_directory=None):
    """What pip calls for this folder: the wheel of this machine's Linux, from the archive of bindings/archive."""
    target = f"{platform.machine()}-unknown-linux-gnu"
    subprocess.run([HERE / "build", target], check=True)
    return write_wheel(target, wheel_directory)


if __name__ == "__main__":
    print(pathlib.Path(sys.argv[2], write_wheel(sys.argv[1], sys.argv[2])))
