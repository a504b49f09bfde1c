"""Builds the package for pip (PEP 517 and 660), with the standard library alone: manual page and shell completion are made
from the command's parser and packed with it."""
import base64
import hashlib
import io
import re
import sys
import tarfile
import zipfile
from pathlib import Path

HERE = Path(__file__).resolve().parent.parent
PACKAGE = HERE / 'akubolinfe'
VERSION = re.search(r"^__version__ = '(.+)'$", (PACKAGE / '__init__.py').read_text(), re.M)[1]
NAME = f'akubolinfe-{VERSION}'
METADATA = f"""Metadata-Version: 2.1
Name: akubolinfe
Version: {VERSION}
Summary: A permission gate and an attestation desk for keys in nShield modules
Requires-Python: >=3.9
"""
WHEEL = 'Wheel-Version: 1.0\nGenerator: akubolinfe_build\nRoot-Is-Purelib: true\nTag: py3-none-any\n'
SCRIPTS = '[console_scripts]\nakubolinfe = akubolinfe.command:run\n'


def _metadata():
    return {f'{NAME}.dist-info/METADATA': METADATA, f'{NAME}.dist-info/WHEEL': WHEEL, f'{NAME}.dist-info/entry_points.txt': SCRIPTS}


def _documents():
    """Manual page and completion, at their places below the prefix."""
    sys.path.insert(0, str(HERE))
    try:
        import documents
        return {f'{NAME}.data/data/{path}': content for path, content in documents.made().items()}
    finally:
        sys.path.remove(str(HERE))


def _sources():
    found = sorted(p for p in PACKAGE.rglob('*') if p.is_file() and '__pycache__' not in p.parts)
    return {str(path.relative_to(HERE)): path.read_bytes() for path in found}


def _wheel(folder, files):
    """Writes a wheel; the same files give the same bytes."""
    name, record = f'{NAME}-py3-none-any.whl', ''
    with zipfile.ZipFile(Path(folder) / name, 'w', zipfile.ZIP_DEFLATED) as archive:
        for path, content in files.items():
            content = content.encode() if isinstance(content, str) else content
            digest = base64.urlsafe_b64encode(hashlib.sha256(content).digest()).rstrip(b'=').decode()
            record += f'{path},sha256={digest},{len(content)}\n'
            _add(archive, path, content)
        path = f'{NAME}.dist-info/RECORD'
        _add(archive, path, f'{record}{path},,\n'.encode())
    return name


def _add(archive, path, content):
    entry = zipfile.ZipInfo(path, (1980, 1, 1, 0, 0, 0))
    entry.external_attr, entry.compress_type = 0o644 << 16, zipfile.ZIP_DEFLATED
    archive.writestr(entry, content)


def build_wheel(wheel_directory, config_settings=None, metadata_directory=None):
    return _wheel(wheel_directory, {**_sources(), **_documents(), **_metadata()})


def build_editable(wheel_directory, config_settings=None, metadata_directory=None):
    return _wheel(wheel_directory, {'akubolinfe.pth': f'{HERE}\n', **_documents(), **_metadata()})


def build_sdist(sdist_directory, config_settings=None):
    name = f'{NAME}.tar.gz'
    with tarfile.open(Path(sdist_directory) / name, 'w:gz', format=tarfile.PAX_FORMAT) as archive:
        for path in ('pyproject.toml', 'akubolinfe', 'tests', 'tools'):
            archive.add(HERE / path, f'{NAME}/{path}', filter=lambda entry: None if '__pycache__' in entry.name else entry)
        content = METADATA.encode()
        entry = tarfile.TarInfo(f'{NAME}/PKG-INFO')
        entry.size = len(content)
        archive.addfile(entry, io.BytesIO(content))
    return name
