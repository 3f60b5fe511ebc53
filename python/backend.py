"""Builds the wheel for pip: the package, with the C library beside it. It wants no other package, so it works offline."""

import base64
import hashlib
import os
import sysconfig
import tomllib
import zipfile
from pathlib import Path

HERE = Path(__file__).parent
PROJECT = tomllib.loads((HERE / "pyproject.toml").read_text())["project"]
# The same bytes from the same files.
MOMENT = (1980, 1, 1, 0, 0, 0)


def library() -> Path:
    """The library that BISTORTPOST_LIBRARY names, or that ./mqtt5 lib built."""
    built = Path(os.environ.get("BISTORTPOST_LIBRARY") or HERE.parent / "out/lib/libmqtt5_c.so")
    if not built.is_file():
        raise SystemExit(f"no {built}: ./mqtt5 lib builds it, or name another one by BISTORTPOST_LIBRARY")
    return built


def contents(info: str, tag: str) -> dict[str, bytes]:
    sources = sorted([*HERE.glob("bistortpost/*.py"), HERE / "bistortpost/py.typed"])
    files = {f"bistortpost/{path.name}": path.read_bytes() for path in sources}
    files["bistortpost/libmqtt5_c.so"] = library().read_bytes()
    files[f"{info}/METADATA"] = (
        f"Metadata-Version: 2.1\nName: {PROJECT['name']}\nVersion: {PROJECT['version']}\n"
        f"Summary: {PROJECT['description']}\nRequires-Python: {PROJECT['requires-python']}\n"
    ).encode()
    files[f"{info}/WHEEL"] = f"Wheel-Version: 1.0\nGenerator: backend\nRoot-Is-Purelib: false\nTag: {tag}\n".encode()
    rows = [f"{name},sha256={digest(data)},{len(data)}" for name, data in files.items()]
    files[f"{info}/RECORD"] = "\n".join([*rows, f"{info}/RECORD,,", ""]).encode()
    return files


def digest(data: bytes) -> str:
    return base64.urlsafe_b64encode(hashlib.sha256(data).digest()).rstrip(b"=").decode()


def build_wheel(wheel_directory, config_settings=None, metadata_directory=None):
    base = f"{PROJECT['name']}-{PROJECT['version']}"
    tag = "py3-none-" + sysconfig.get_platform().replace("-", "_").replace(".", "_")
    wheel = f"{base}-{tag}.whl"
    with zipfile.ZipFile(Path(wheel_directory, wheel), "w", zipfile.ZIP_DEFLATED) as archive:
        for name, data in contents(f"{base}.dist-info", tag).items():
            archive.writestr(zipfile.ZipInfo(name, MOMENT), data)
    return wheel
