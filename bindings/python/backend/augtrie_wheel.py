"""Builds the wheel of the module: compiles native/ over the built library, which then lies inside, and packs it. pip calls it by pyproject.toml, and
`python3 backend/augtrie_wheel.py FOLDER` does the same without pip. AUGTRIE_LIB names the folder of libaugtrie.a, which has augtrie.h in ../include;
else pkg-config is asked. It needs a C compiler ($CC or cc) and Python's headers."""

import base64
import hashlib
import os
import re
import subprocess
import sys
import sysconfig
import tempfile
import zipfile

TOP = os.path.dirname(os.path.dirname(os.path.abspath(__file__)))
MODULE = "_augtrie.abi3.so"
FLAGS = ["-std=c11", "-O2", "-fPIC", "-shared", "-fvisibility=hidden", "-Wall", "-Wextra", "-Wl,--exclude-libs,ALL"]
SUMMARY = "A set of whole numbers with weights that threads share, with snapshots, over a core that is proved correct"


def installed():
    """The folders of the library and of its header."""
    library = os.environ.get("AUGTRIE_LIB")
    if library:
        return library, os.path.join(library, os.pardir, "include")
    asked = [os.environ.get("PKG_CONFIG", "pkg-config"), "augtrie"]
    return tuple(subprocess.check_output([*asked, f"--variable={name}"], text=True).strip() for name in ("libdir", "includedir"))


def version(include):
    with open(os.path.join(include, "augtrie.h"), encoding="utf-8") as file:
        return ".".join(re.findall(r"^#define AUG_VERSION_(?:MAJOR|MINOR|PATCH) (\d+)$", file.read(), re.M))


def compiled(folder, library, include):
    """The extension, compiled into a folder."""
    sources = [os.path.join(TOP, "native", name) for name in sorted(os.listdir(os.path.join(TOP, "native"))) if name.endswith(".c")]
    to, headers = os.path.join(folder, MODULE), ["-isystem", sysconfig.get_path("include"), f"-I{include}"]
    words = [*sources, os.path.join(library, "libaugtrie.a"), "-lpthread", "-o", to]
    subprocess.check_call([os.environ.get("CC", "cc"), *FLAGS, *headers, *words])
    return to


def read(path):
    with open(path, "rb") as file:
        return file.read()


def contents(folder, library, include, tag):
    """The files of the wheel but for its record, by their names."""
    held = {f"augtrie/{name}": read(os.path.join(TOP, "src", "augtrie", name)) for name in ("__init__.py", "__init__.pyi", "py.typed")}
    held[f"augtrie/{MODULE}"] = read(compiled(folder, library, include))
    about = f"augtrie-{version(include)}.dist-info"
    head = ["Metadata-Version: 2.1", "Name: augtrie", f"Version: {version(include)}", f"Summary: {SUMMARY}", "Requires-Python: >=3.8",
            "Description-Content-Type: text/markdown"]
    held[f"{about}/METADATA"] = "\n".join(head).encode() + b"\n\n" + read(os.path.join(TOP, "README.md"))
    held[f"{about}/WHEEL"] = f"Wheel-Version: 1.0\nGenerator: augtrie_wheel\nRoot-Is-Purelib: false\nTag: {tag}\n".encode()
    return held


def build_wheel(wheel_directory, config_settings=None, metadata_directory=None):
    """Writes the wheel into a folder. Its file name."""
    library, include = installed()
    tag = "cp38-abi3-" + re.sub(r"[-.]", "_", sysconfig.get_platform())
    with tempfile.TemporaryDirectory() as folder:
        held = contents(folder, library, include, tag)
    digest = lambda content: base64.urlsafe_b64encode(hashlib.sha256(content).digest()).rstrip(b"=").decode()
    record = f"augtrie-{version(include)}.dist-info/RECORD"
    rows = [f"{name},sha256={digest(content)},{len(content)}\n" for name, content in held.items()]
    held[record] = "".join([*rows, f"{record},,\n"]).encode()
    wheel = f"augtrie-{version(include)}-{tag}.whl"
    with zipfile.ZipFile(os.path.join(wheel_directory, wheel), "w", zipfile.ZIP_DEFLATED) as packed:
        for name, content in held.items():
            entry = zipfile.ZipInfo(name)
            entry.external_attr = (0o755 if name.endswith(".so") else 0o644) << 16
            entry.compress_type = zipfile.ZIP_DEFLATED
            packed.writestr(entry, content)
    return wheel


if __name__ == "__main__":
    print(build_wheel(sys.argv[1]))
