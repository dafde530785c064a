"""Builds the wheel of this folder by what Python has itself, as PEP 517 asks of a backend.

Where VOXDAG_LIB names libvoxdag.so, or the repository's .build/library has it, the wheel has a copy, and is for this
kind of machine alone.
"""
import base64
import hashlib
import os
import pathlib
import sysconfig
import tarfile
import zipfile

HERE = pathlib.Path(__file__).resolve().parent
NAME, VERSION = "voxdag", "1.0.0"
METADATA = f"""Metadata-Version: 2.1
Name: {NAME}
Version: {VERSION}
Summary: A proved voxel world with versions: voxdag's library through ctypes
License: MIT OR Apache-2.0
Requires-Python: >=3.9
Provides-Extra: arrays
Requires-Dist: numpy; extra == "arrays"
"""


def library():
    """The shared library that the wheel takes along, where there is one."""
    names = [os.environ.get("VOXDAG_LIB"), HERE.parent.parent / ".build/library/libvoxdag.so"]
    return next((path for path in map(pathlib.Path, filter(None, names)) if path.is_file()), None)


def contents(tag):
    """The files of the wheel: names and bytes."""
    files = {f"voxdag/{path.name}": path.read_bytes() for path in sorted((HERE / "voxdag").iterdir()) if path.suffix in (".py", ".typed")}
    if found := library():
        files["voxdag/libvoxdag.so"] = found.read_bytes()
    info = f"{NAME}-{VERSION}.dist-info"
    pure = str(library() is None).lower()
    files[f"{info}/METADATA"] = METADATA.encode()
    files[f"{info}/WHEEL"] = f"Wheel-Version: 1.0\nGenerator: voxdag\nRoot-Is-Purelib: {pure}\nTag: {tag}\n".encode()
    sums = {name: base64.urlsafe_b64encode(hashlib.sha256(data).digest()).decode().rstrip("=") for name, data in files.items()}
    rows = [f"{name},sha256={sums[name]},{len(data)}" for name, data in files.items()] + [f"{info}/RECORD,,"]
    files[f"{info}/RECORD"] = "".join(row + "\n" for row in rows).encode()
    return files


def build_wheel(wheel_directory, config_settings=None, metadata_directory=None):
    platform = sysconfig.get_platform().replace("-", "_").replace(".", "_")
    tag = f"py3-none-{platform if library() else 'any'}"
    name = f"{NAME}-{VERSION}-{tag}.whl"
    with zipfile.ZipFile(pathlib.Path(wheel_directory) / name, "w", zipfile.ZIP_DEFLATED) as wheel:
        for path, data in contents(tag).items():
            wheel.writestr(path, data)
    return name


def build_sdist(sdist_directory, config_settings=None):
    name = f"{NAME}-{VERSION}"
    with tarfile.open(pathlib.Path(sdist_directory) / f"{name}.tar.gz", "w:gz") as packed:
        for part in ("pyproject.toml", "wheels.py", "voxdag"):
            packed.add(HERE / part, f"{name}/{part}", filter=lambda entry: None if "__pycache__" in entry.name else entry)
    return f"{name}.tar.gz"
