"""Makes the packages of pifnjarl.py and the modules beside it that `pip` asks for (PEP 517), with the standard library alone: neither a
network nor setuptools is needed. pyproject.toml has what they say.

    >>> with tempfile.TemporaryDirectory() as folder:
    ...     name = build_wheel(folder)
    ...     name, zipfile.ZipFile(Path(folder) / name).namelist()[:3]
    ('pifnjarl-0.1.0-py3-none-any.whl', ['pifnjarl.py', 'pifnjarl_query.py', 'pifnjarl_linux.py'])
"""

import base64
import hashlib
import io
import re
import tarfile
import tempfile
import zipfile
from pathlib import Path
from typing import Dict, Optional

HERE = Path(__file__).resolve().parent
MODULES = ["pifnjarl.py", "pifnjarl_query.py", "pifnjarl_linux.py"]
SOURCES = ["pyproject.toml", "package.py", *MODULES]
Settings = Optional[Dict[str, object]]


def project() -> Dict[str, str]:
    """The texts of the project's table.

    >>> project()["name"]
    'pifnjarl'
    """
    table = (HERE / "pyproject.toml").read_text().split("[project]\n")[1]
    return dict(re.findall(r'^([\w-]+) = (?:\{ text = )?"(.*?)"', table, re.M))


def metadata() -> str:
    """The core metadata."""
    of = project()
    fields = {
        "Metadata-Version": "2.1",
        "Name": of["name"],
        "Version": of["version"],
        "Summary": of["description"],
        "License": of["license"],
        "Requires-Python": of["requires-python"],
    }
    return "".join(f"{name}: {value}\n" for name, value in fields.items())


def recorded(name: str, content: bytes) -> str:
    """A file's line in RECORD."""
    digest = base64.urlsafe_b64encode(hashlib.sha256(content).digest()).rstrip(b"=").decode()
    return f"{name},sha256={digest},{len(content)}\n"


def build_wheel(wheel_directory: str, config_settings: Settings = None, metadata_directory: Optional[str] = None) -> str:
    """Makes a wheel in a folder, and gives its name. The same sources make the same bytes."""
    stem = f"{project()['name']}-{project()['version']}"
    info = f"{stem}.dist-info"
    files = {
        **{name: (HERE / name).read_bytes() for name in MODULES},
        f"{info}/METADATA": metadata().encode(),
        f"{info}/WHEEL": b"Wheel-Version: 1.0\nGenerator: package.py\nRoot-Is-Purelib: true\nTag: py3-none-any\n",
    }
    record = "".join(recorded(name, content) for name, content in files.items()) + f"{info}/RECORD,,\n"
    name = f"{stem}-py3-none-any.whl"
    with zipfile.ZipFile(Path(wheel_directory) / name, "w", zipfile.ZIP_DEFLATED) as wheel:
        for path, content in {**files, f"{info}/RECORD": record.encode()}.items():
            entry = zipfile.ZipInfo(path)
            entry.compress_type = zipfile.ZIP_DEFLATED
            entry.external_attr = 0o100644 << 16
            wheel.writestr(entry, content)
    return name


def build_sdist(sdist_directory: str, config_settings: Settings = None) -> str:
    """Makes an archive of the sources in a folder, and gives its name."""
    stem = f"{project()['name']}-{project()['version']}"
    files = {name: (HERE / name).read_bytes() for name in SOURCES}
    with tarfile.open(Path(sdist_directory) / f"{stem}.tar.gz", "w:gz", format=tarfile.PAX_FORMAT) as archive:
        for name, content in {**files, "PKG-INFO": metadata().encode()}.items():
            entry = tarfile.TarInfo(f"{stem}/{name}")
            entry.size = len(content)
            archive.addfile(entry, io.BytesIO(content))
    return f"{stem}.tar.gz"
