"""Builds the package for pip with nothing but Python: the modules, and the library that VAHONDRISA_LIBRARY names or that `make` has built."""
import base64
import gzip
import hashlib
import io
import os
import re
import sysconfig
import tarfile
import time
import zipfile

HERE = os.path.dirname(os.path.abspath(__file__))
RELEASE = "0.1.0"
SOURCES = ("pyproject.toml", "build_backend.py", "README.md")
METADATA = """Metadata-Version: 2.1
Name: vahondrisa
Version: {version}
Summary: A persistent ordered index with transactions whose crash safety is machine-checked
Keywords: database,index,transactions,b-tree,key-value
Classifier: Development Status :: 4 - Beta
Classifier: Operating System :: POSIX :: Linux
Classifier: Programming Language :: Python :: 3
Classifier: Topic :: Database :: Database Engines/Servers
Classifier: Typing :: Typed
Requires-Python: >=3.9
Description-Content-Type: text/markdown

{description}"""
# So that two builds give the same bytes: no file has the time at which it was built.
TIME = int(os.environ.get("SOURCE_DATE_EPOCH", "946684800"))


def read(path):
    with open(path, "rb") as file:
        return file.read()


def library():
    """Returns the shared library's bytes. A package without it could not be imported, and none is built."""
    named = os.environ.get("VAHONDRISA_LIBRARY")
    path = named or f"{HERE}/../build/libvahondrisa.so.0"
    if not os.path.isfile(path):
        raise SystemExit(f"vahondrisa: there is no library at {path}: build it by make -C callers, or name one by VAHONDRISA_LIBRARY")
    return read(path)


def modules():
    names = sorted(it for it in os.listdir(f"{HERE}/vahondrisa") if it.endswith((".py", ".typed")))
    return {f"vahondrisa/{it}": read(f"{HERE}/vahondrisa/{it}") for it in names}


def metadata(version):
    return METADATA.format(version=version, description=read(f"{HERE}/README.md").decode()).encode()


def version_of(built):
    """Returns the version of a package with this library, which says itself whether it is proved (vah_build)."""
    return f"{RELEASE}+unproved" if f"{RELEASE} unproved".encode() in built else RELEASE


def platform_of(built, settings):
    """Returns the platform that pip is told. pip takes linux_x86_64 on the machine where it was built, whatever pip's age. For other machines the
    tag says the least C library, by the symbols that the library asks for; pip knows that tag from 20.3 on."""
    if "manylinux" not in (settings or {}):
        return sysconfig.get_platform().replace("-", "_").replace(".", "_")
    least = max((int(it[1]), int(it[2])) for it in re.finditer(rb"GLIBC_(\d+)\.(\d+)", built))
    return "manylinux_{}_{}_x86_64".format(*least)


def build_wheel(wheel_directory, config_settings=None, metadata_directory=None):
    built = library()
    version = version_of(built)
    tag = f"py3-none-{platform_of(built, config_settings)}"
    info = f"vahondrisa-{version}.dist-info"
    contents = modules()
    contents["vahondrisa/libvahondrisa.so.0"] = built
    contents[f"{info}/METADATA"] = metadata(version)
    contents[f"{info}/WHEEL"] = f"Wheel-Version: 1.0\nGenerator: vahondrisa\nRoot-Is-Purelib: false\nTag: {tag}\n".encode()
    record = ""
    for path, value in contents.items():
        digest = base64.urlsafe_b64encode(hashlib.sha256(value).digest()).rstrip(b"=").decode()
        record += f"{path},sha256={digest},{len(value)}\n"
    contents[f"{info}/RECORD"] = f"{record}{info}/RECORD,,\n".encode()
    name = f"vahondrisa-{version}-{tag}.whl"
    with zipfile.ZipFile(os.path.join(wheel_directory, name), "w") as archive:
        for path, value in contents.items():
            entry = zipfile.ZipInfo(path, time.gmtime(TIME)[:6])
            entry.external_attr = 0o100644 << 16
            archive.writestr(entry, value, zipfile.ZIP_DEFLATED, 9)
    return name


def build_sdist(sdist_directory, config_settings=None):
    """The modules alone: to build a wheel of it VAHONDRISA_LIBRARY names an installed library."""
    top = f"vahondrisa-{RELEASE}"
    contents = {it: read(f"{HERE}/{it}") for it in SOURCES}
    contents.update(modules())
    contents["PKG-INFO"] = metadata(RELEASE)
    made = io.BytesIO()
    with tarfile.open(fileobj=made, mode="w", format=tarfile.PAX_FORMAT) as archive:
        for path, value in contents.items():
            entry = tarfile.TarInfo(f"{top}/{path}")
            entry.size, entry.mtime = len(value), TIME
            archive.addfile(entry, io.BytesIO(value))
    with open(os.path.join(sdist_directory, f"{top}.tar.gz"), "wb") as file:
        with gzip.GzipFile(fileobj=file, mode="wb", filename="", mtime=0) as packed:
            packed.write(made.getvalue())
    return f"{top}.tar.gz"
