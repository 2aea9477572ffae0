"""Builds the wheel of `bolt`: the package with the libbolt.so that scripts/build_libbolt puts into it.

It needs only the standard library.
"""
import base64
import hashlib
import pathlib
import re
import sysconfig
import zipfile

HERE = pathlib.Path(__file__).resolve().parent
PACKAGE = HERE / "bolt"


def version():
    return re.search(r'__version__ = "(.*)"', (PACKAGE / "__init__.py").read_text())[1]


def names():
    """Returns the name of the wheel's folder of metadata, and its tag for this machine."""
    platform = re.sub(r"\W", "_", sysconfig.get_platform())
    return f"bolt-{version()}.dist-info", f"py3-none-{platform}"


def metadata():
    info, tag = names()
    about = (f"Metadata-Version: 2.1\nName: bolt\nVersion: {version()}\n"
             "Summary: A driver of Bolt whose outcomes are proved\nRequires-Python: >=3.9\n")
    return {f"{info}/METADATA": about,
            f"{info}/WHEEL": f"Wheel-Version: 1.0\nGenerator: backend.py\nRoot-Is-Purelib: false\nTag: {tag}\n"}


def build_wheel(wheel_directory, config_settings=None, metadata_directory=None):
    if not (PACKAGE / "libbolt.so").exists():
        raise FileNotFoundError("python/bolt/libbolt.so isn't there: run scripts/build_libbolt first")
    info, tag = names()
    packed = [it for it in sorted(PACKAGE.rglob("*")) if it.suffix in (".py", ".so", ".typed") or it.name == "py.typed"]
    files = {f"bolt/{it.relative_to(PACKAGE).as_posix()}": it.read_bytes() for it in packed}
    files.update({name: text.encode() for name, text in metadata().items()})
    summed = lambda data: base64.urlsafe_b64encode(hashlib.sha256(data).digest()).rstrip(b"=").decode()
    record = "".join(f"{name},sha256={summed(data)},{len(data)}\n" for name, data in files.items())
    files[f"{info}/RECORD"] = f"{record}{info}/RECORD,,\n".encode()
    wheel = f"bolt-{version()}-{tag}.whl"
    with zipfile.ZipFile(pathlib.Path(wheel_directory) / wheel, "w", zipfile.ZIP_DEFLATED) as made:
        for name, data in files.items():
            made.writestr(name, data)
    return wheel


def build_sdist(sdist_directory, config_settings=None):
    raise NotImplementedError("the wheel alone is built")
