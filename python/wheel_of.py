"""Makes the package's wheel, for pip: of Python alone, so that an environment needs nothing else to install it.

pip calls `build_wheel` (PEP 517) in this folder.
"""
import base64
import hashlib
import os
import re
import zipfile

PACKAGE = "sillarnica"
METADATA = """Metadata-Version: 2.1
Name: sillarnica
Version: {version}
Summary: Verified classes in BPF: their methods run on objects that the caller keeps
License: Apache-2.0
Requires-Python: >=3.9
"""
WHEEL = """Wheel-Version: 1.0
Generator: sillarnica
Root-Is-Purelib: true
Tag: py3-none-any
"""


def read(path):
    with open(path, "rb") as file:
        return file.read()


def row(name, content):
    """A file's line of the wheel's record."""
    sum = base64.urlsafe_b64encode(hashlib.sha256(content).digest()).rstrip(b"=").decode()
    return f"{name},sha256={sum},{len(content)}\n"


def build_wheel(folder, config_settings=None, metadata_directory=None):
    """Writes the wheel into a folder, and gives its file's name."""
    version = re.search(rb'(?m)^__version__ = "(.*)"$', read(f"{PACKAGE}/__init__.py"))[1].decode()
    info = f"{PACKAGE}-{version}.dist-info"
    files = {f"{PACKAGE}/{name}": read(f"{PACKAGE}/{name}") for name in sorted(os.listdir(PACKAGE)) if not name.startswith("__py")}
    files[f"{info}/METADATA"] = METADATA.format(version=version).encode()
    files[f"{info}/WHEEL"] = WHEEL.encode()
    record = "".join(row(*it) for it in files.items()) + f"{info}/RECORD,,\n"
    name = f"{PACKAGE}-{version}-py3-none-any.whl"
    with zipfile.ZipFile(os.path.join(folder, name), "w", zipfile.ZIP_DEFLATED) as wheel:
        for path, content in {**files, f"{info}/RECORD": record.encode()}.items():
            wheel.writestr(path, content)
    return name
