"""Builds the wheel by the standard library alone: the package, with libhoxalgurre.so of the folder HOXALGURRE_LIB, or of
that which `pkg-config` knows."""
import base64
import glob
import hashlib
import os
import subprocess
import sysconfig
import zipfile

NAME, VERSION = "hoxalgurre", "1.0.0"
ABOUT = f"Metadata-Version: 2.1\nName: {NAME}\nVersion: {VERSION}\nRequires-Python: >=3.9\nLicense: MIT\n"
TOP = os.path.dirname(os.path.abspath(__file__))


def library():
    """The shared library."""
    folder = os.environ.get("HOXALGURRE_LIB")
    if not folder:
        said = subprocess.run(["pkg-config", "--variable=libdir", NAME], capture_output=True, text=True)
        folder = said.stdout.strip()
    path = os.path.join(folder, "libhoxalgurre.so")
    if not folder or not os.path.exists(path):
        raise SystemExit("no libhoxalgurre.so: run scripts/install.sh PREFIX, and set HOXALGURRE_LIB=PREFIX/lib")
    return path


def build_wheel(wheel_directory, config_settings=None, metadata_directory=None):
    """Writes the wheel, and returns its name."""
    tag = "py3-none-" + sysconfig.get_platform().replace("-", "_").replace(".", "_")
    files = {f"{NAME}/{os.path.basename(path)}": open(path, "rb").read()
             for path in [*glob.glob(f"{TOP}/src/{NAME}/*.py"), f"{TOP}/src/{NAME}/py.typed", library()]}
    about = f"{NAME}-{VERSION}.dist-info"
    files[f"{about}/METADATA"] = ABOUT.encode()
    files[f"{about}/WHEEL"] = f"Wheel-Version: 1.0\nGenerator: {NAME}\nRoot-Is-Purelib: false\nTag: {tag}\n".encode()
    sums = {path: base64.urlsafe_b64encode(hashlib.sha256(data).digest()).decode() for path, data in files.items()}
    record = "".join(f"{path},sha256={sums[path].rstrip('=')},{len(data)}\n" for path, data in files.items())
    files[f"{about}/RECORD"] = (record + f"{about}/RECORD,,\n").encode()
    wheel = f"{NAME}-{VERSION}-{tag}.whl"
    with zipfile.ZipFile(os.path.join(wheel_directory, wheel), "w", zipfile.ZIP_DEFLATED) as archive:
        for path, data in files.items():
            archive.writestr(path, data)
    return wheel


def build_sdist(sdist_directory, config_settings=None):
    raise SystemExit("no source distribution: the wheel needs libhoxalgurre.so")
