"""Builds the wheel, the source archive and what `pip install -e` installs: the modules, and the shared object
libcmwq.so. It needs neither a network nor a C compiler.

The shared object is the first of these that exists: the one in the folder that the variable CMWQ_LIB names, the one in
this package, and those in ../dist/x86_64-linux-gnu and ../build/c of the repository that this folder is a part of.
"""
import base64
import hashlib
import io
import os
import platform
import re
import struct
import sys
import tarfile
import zipfile

HERE = os.path.dirname(os.path.abspath(__file__))

MODULES = ("__init__.py", "_aio.py", "_aio_shell.py", "_arguments.py", "_book.py", "_durable.py", "_errors.py",
           "_fork.py", "_handles.py", "_hub.py", "_library.py", "_options.py", "_report.py", "_run.py", "_shell.py",
           "_threads.py", "py.typed")

# The tag of a shared object that needs no other library than glibc's, and no later one than this.
LATEST, MANYLINUX, OTHERWISE = (2, 34), "manylinux_2_34_x86_64", "linux_x86_64"

# What is in each archive has this time, so that the same files give the same archive. In seconds since 1970.
TIME = 1577836800


def field(name):
    """What pyproject.toml says."""
    with open(f"{HERE}/pyproject.toml", encoding="utf-8") as it:
        return re.search(f'^{name} = "([^"]*)"$', it.read(), re.M)[1]


def library():
    """The path of the shared object."""
    given = os.environ.get("CMWQ_LIB")
    repository = os.path.dirname(HERE)
    folders = [given] if given else [f"{HERE}/cmwq", f"{repository}/dist/x86_64-linux-gnu", f"{repository}/build/c"]
    for folder in folders:
        if os.path.isfile(f"{folder}/libcmwq.so"):
            return f"{folder}/libcmwq.so"
    sys.exit(f"cmwq: there is no libcmwq.so in {' or '.join(folders)}; tools/c makes one in build/c")


def versions_needed(path):
    """The versions of symbols that a shared object needs of other libraries, as pairs such as ("libc.so.6",
    "GLIBC_2.14"), and the libraries that it needs."""
    with open(path, "rb") as it:
        data = it.read()
    if data[:6] != b"\x7fELF\x02\x01":
        sys.exit(f"cmwq: {path} is not a shared object for x86-64")
    begin, = struct.unpack_from("<Q", data, 32)
    size, count = struct.unpack_from("<HH", data, 54)
    headers = [struct.unpack_from("<IIQQQQQQ", data, begin + size * at) for at in range(count)]
    loaded = [(address, length, offset) for kind, _, offset, address, _, length, _, _ in headers if kind == 1]

    def offset_of(address):
        return next(offset + address - first for first, length, offset in loaded if first <= address < first + length)

    entries = []
    for kind, _, offset, _, _, length, _, _ in headers:
        if kind == 2:  # PT_DYNAMIC
            entries += struct.iter_unpack("<QQ", data[offset:offset + length])
    dynamic = dict(entries)
    strings = offset_of(dynamic[5])  # DT_STRTAB

    def text(at):
        return data[strings + at:data.index(b"\0", strings + at)].decode()

    pairs, at = set(), offset_of(dynamic[0x6FFFFFFE]) if 0x6FFFFFFE in dynamic else 0  # DT_VERNEED
    for _ in range(dynamic.get(0x6FFFFFFF, 0)):  # DT_VERNEEDNUM
        _, names, file, first, following = struct.unpack_from("<HHIII", data, at)
        name_at = at + first
        for _ in range(names):
            _, _, _, name, next_name = struct.unpack_from("<IHHII", data, name_at)
            pairs.add((text(file), text(name)))
            name_at += next_name
        at += following
    return pairs, {text(value) for kind, value in entries if kind == 1}  # DT_NEEDED


def platform_of(path):
    """The tag of the platforms on which a shared object runs."""
    pairs, libraries = versions_needed(path)
    glibc = [re.fullmatch(r"GLIBC_(\d+)\.(\d+)(?:\.\d+)?", version) for _, version in pairs]
    is_early = all(it and (int(it[1]), int(it[2])) <= LATEST for it in glibc)
    return MANYLINUX if is_early and libraries <= {"libc.so.6", "libpthread.so.0"} else OTHERWISE


def metadata():
    return f"""Metadata-Version: 2.1
Name: {field("name")}
Version: {field("version")}
Summary: {field("description")}
Requires-Python: {field("requires-python")}
"""


def need_linux():
    if sys.platform != "linux" or platform.machine() != "x86_64":
        sys.exit("cmwq: the proved library is built for Linux on x86-64 only")


def contents(path):
    with open(path, "rb") as it:
        return it.read()


def write_wheel(folder, tag, files):
    """Writes a wheel of these files, whose names lead to what they have. Returns its name."""
    name = f"cmwq-{field('version')}"
    info = f"{name}.dist-info"
    wheel = f"Wheel-Version: 1.0\nGenerator: cmwq\nRoot-Is-Purelib: false\nTag: {tag}\n"
    files = {**files, f"{info}/METADATA": metadata().encode(), f"{info}/WHEEL": wheel.encode()}
    lines = []
    for path, content in files.items():
        digest = base64.urlsafe_b64encode(hashlib.sha256(content).digest()).rstrip(b"=").decode()
        lines.append(f"{path},sha256={digest},{len(content)}\n")
    files[f"{info}/RECORD"] = "".join([*lines, f"{info}/RECORD,,\n"]).encode()
    with zipfile.ZipFile(f"{folder}/{name}-{tag}.whl", "w", zipfile.ZIP_DEFLATED) as archive:
        for path, content in files.items():
            archive.writestr(zipfile.ZipInfo(path, (2020, 1, 1, 0, 0, 0)), content, zipfile.ZIP_DEFLATED)
    return f"{name}-{tag}.whl"


def build_wheel(wheel_directory, config_settings=None, metadata_directory=None):
    need_linux()
    files = {f"cmwq/{module}": contents(f"{HERE}/cmwq/{module}") for module in MODULES}
    files["cmwq/libcmwq.so"] = contents(library())
    return write_wheel(wheel_directory, f"py3-none-{platform_of(library())}", files)


def build_editable(wheel_directory, config_settings=None, metadata_directory=None):
    """A wheel that leads to this folder, for `pip install -e`."""
    need_linux()
    library()
    return write_wheel(wheel_directory, f"py3-none-{OTHERWISE}", {"cmwq.pth": f"{HERE}\n".encode()})


def build_sdist(sdist_directory, config_settings=None):
    """A source archive with the shared object, so that a wheel can be built of it."""
    name = f"cmwq-{field('version')}"
    files = {"PKG-INFO": metadata().encode(), "cmwq/libcmwq.so": contents(library())}
    for file in ("pyproject.toml", "backend.py", *(f"cmwq/{module}" for module in MODULES)):
        files[file] = contents(f"{HERE}/{file}")
    with tarfile.open(f"{sdist_directory}/{name}.tar.gz", "w:gz", format=tarfile.PAX_FORMAT) as archive:
        for file, content in files.items():
            member = tarfile.TarInfo(f"{name}/{file}")
            member.size, member.mtime = len(content), TIME
            archive.addfile(member, io.BytesIO(content))
    return f"{name}.tar.gz"
