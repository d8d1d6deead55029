"""Builds the package as a wheel (PEP 517, PEP 427) by Python's own library alone, so that
`pip install` needs no network.
"""
from __future__ import annotations

import base64
import hashlib
import pathlib
import re
import zipfile
from typing import Optional

HERE = pathlib.Path(__file__).resolve().parent
WHEEL = """Wheel-Version: 1.0
Generator: flutejoin
Root-Is-Purelib: true
Tag: py3-none-any
"""


def field(name: str) -> str:
    """A text of pyproject.toml."""
    found = re.search(rf'^{name} = "(.*)"$', (HERE / "pyproject.toml").read_text(), re.M)
    assert found, name
    return found[1]


def metadata() -> str:
    return f"""Metadata-Version: 2.1
Name: {field("name")}
Version: {field("version")}
Summary: {field("description")}
Requires-Python: {field("requires-python")}
"""


def record(name: str, data: bytes) -> str:
    digest = base64.urlsafe_b64encode(hashlib.sha256(data).digest()).rstrip(b"=").decode()
    return f"{name},sha256={digest},{len(data)}\n"


def build_wheel(
    folder: str,
    config_settings: Optional[dict[str, object]] = None,
    metadata_directory: Optional[str] = None,
) -> str:
    """Leaves the wheel in the folder, and returns its name."""
    named = f"{field('name')}-{field('version')}"
    information = f"{named}.dist-info"
    package = HERE / field("name")
    paths = sorted([*package.glob("*.py"), package / "py.typed"])
    files = {f"{package.name}/{path.name}": path.read_bytes() for path in paths}
    files[f"{information}/METADATA"] = metadata().encode()
    files[f"{information}/WHEEL"] = WHEEL.encode()
    records = "".join(record(name, data) for name, data in files.items())
    files[f"{information}/RECORD"] = f"{records}{information}/RECORD,,\n".encode()
    wheel = f"{named}-py3-none-any.whl"
    with zipfile.ZipFile(pathlib.Path(folder, wheel), "w", zipfile.ZIP_DEFLATED) as archive:
        for name, data in files.items():
            archive.writestr(name, data)
    return wheel
