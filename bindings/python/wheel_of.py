"""Builds the wheel with Python's own library alone: `make wheel`, or pip through pyproject.toml. The wheel carries the shared library."""
import base64
import hashlib
import os
import subprocess
import sys
import tempfile
import zipfile

HERE = os.path.dirname(os.path.abspath(__file__))
TAG = "py3-none-manylinux_2_17_x86_64"
METADATA = """Metadata-Version: 2.1
Name: jabulghi
Version: {version}
Summary: Proved Gaussian noise for simulated survey instruments, and a judge of cave surveys
Requires-Python: >=3.8
"""


def read(path):
    with open(path, "rb") as file:
        return file.read()


def shared_library():
    with tempfile.TemporaryDirectory() as folder:
        file = os.path.join(folder, "libjabulghi.so")
        subprocess.run([os.path.join(HERE, "../../tools/shared_judge"), file], check=True)
        return read(file)


def digest(content):
    return base64.urlsafe_b64encode(hashlib.sha256(content).digest()).rstrip(b"=").decode()


def build_wheel(wheel_directory, config_settings=None, metadata_directory=None):
    names = ["__init__.py", "_library.py", "judging.py", "py.typed", "refusals.py"]
    files = {f"jabulghi/{name}": read(os.path.join(HERE, "jabulghi", name)) for name in names}
    files["jabulghi/libjabulghi.so"] = shared_library()
    made: dict[str, str] = {}
    exec(files["jabulghi/refusals.py"], made)
    version = made["VERSION"]
    info = f"jabulghi-{version}.dist-info"
    files[f"{info}/METADATA"] = METADATA.format(version=version).encode()
    files[f"{info}/WHEEL"] = f"Wheel-Version: 1.0\nGenerator: jabulghi\nRoot-Is-Purelib: false\nTag: {TAG}\n".encode()
    rows = [f"{name},sha256={digest(content)},{len(content)}" for name, content in files.items()] + [f"{info}/RECORD,,"]
    files[f"{info}/RECORD"] = ("\n".join(rows) + "\n").encode()
    wheel = f"jabulghi-{version}-{TAG}.whl"
    os.makedirs(wheel_directory, exist_ok=True)
    with zipfile.ZipFile(os.path.join(wheel_directory, wheel), "w", zipfile.ZIP_DEFLATED) as archive:
        for name, content in files.items():
            entry = zipfile.ZipInfo(name)  # dated 1980, so that the same files give the same wheel
            entry.compress_type, entry.external_attr = zipfile.ZIP_DEFLATED, 0o644 << 16
            archive.writestr(entry, content)
    return wheel


if __name__ == "__main__":
    print(os.path.join(sys.argv[1], build_wheel(sys.argv[1])))
