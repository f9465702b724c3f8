"""Builds the package with nothing but Python and a C compiler: PEP 517's build_wheel and build_sdist, PEP 660's
build_editable.

A wheel has wkt/, the shared library, the command `wkt`, and `wkt/_fast.abi3.so` where the Python that builds is 3.11 or
later and has its headers: it then serves 3.11 and each later Python. Free-threaded Python has no such interface, and
gets a wheel of its version. Where that module can't be compiled, a line on stderr says why, and the wheel is for Python
3.8 on and calls the library by ctypes alone. WKT_FAST=0 makes that wheel too, and WKT_FAST=1 fails where the module
can't be compiled. WKT_LIB_DIR names the folder with libwkt.so, and with the command `wkt` if it has one; without it
capi/build.sh and dist/Makefile make both of the proved objects, in a second and without the prover. Where dist/ has no
such objects, the library is compiled of portable C, in a minute or more, and the wheel has no command. CC names the C
compiler; CFLAGS and LDFLAGS are those of the fast module and of the command.

A source package has the proved objects, portable C and the C files in native/, so it needs neither a clone nor the
prover.
The bytes of a package depend on its files alone; its times are SOURCE_DATE_EPOCH, or 1980.
"""
import base64
import glob
import gzip
import hashlib
import io
import json
import os
import re
import shlex
import shutil
import subprocess
import sys
import sysconfig
import tarfile
import tempfile
import time
import zipfile

here = os.path.dirname(os.path.abspath(__file__))
# Where capi/, dist/ and include/ are: in a source package, or in a clone. pip before 21.3 builds in a copy of this
# folder.
top = os.path.join(here, "native")
if not os.path.exists(top):
    top = os.path.join(here, os.pardir)
NAME = "wkt_proved"
SUMMARY = "Well-known text by a proved library: canonical texts, comparison, columns, arrays"


def _bytes(path):
    """A file; where it says the version, between releases, with the commit that this is, if that is known."""
    script = os.path.join(top, "dist", "version.sh")
    if os.path.basename(path) in ("_version.py", "wkt.h") and os.path.exists(script):
        return subprocess.run([script, "in", path], check=True, stdout=subprocess.PIPE).stdout
    with open(path, "rb") as file:
        return file.read()


VERSION = re.search('"(.*)"', _bytes(os.path.join(here, "wkt", "_version.py")).decode()).group(1)
INFO = "%s-%s.dist-info/" % (NAME, VERSION)
# What a source package has of the rest of a clone.
NATIVE = ("include/wkt.h", "capi/build.sh", "capi/*.c", "capi/*.h", "dist/Makefile", "dist/NOTICE", "dist/*.cmake",
          "dist/objects.sh", "dist/version.sh", "dist/system.c", "dist/*/*.xz", "dist/*/PROVENANCE", "dist/c/*.[ch]",
          "dist/c/make.sh", "dist/wasm/*.wasm", "LICENSE-*")  # fmt: skip
OWN = ("pyproject.toml", "backend.py", "README.md", "DASK.md", "wkt/*.py", "wkt/*.pyi", "wkt/py.typed",
       "src/*.[ch]", "examples/*.py", "tests/*.py", "tests/*.[ch]", "tests/*.sh")  # fmt: skip


def _library(folder):
    """The folder with libwkt.so: WKT_LIB_DIR, or the one that is given, in which capi/build.sh makes it."""
    named = os.environ.get("WKT_LIB_DIR")
    build = os.path.join(top, "capi", "build.sh")
    if named:
        if os.path.exists(os.path.join(named, "libwkt.so")):
            return named
        raise SystemExit("WKT_LIB_DIR: there is no libwkt.so in %s: capi/build.sh in a clone of wkt makes it" % named)
    if not os.path.exists(build):
        raise SystemExit(
            "this package needs libwkt.so: run capi/build.sh in a clone of wkt, and name its folder, capi/out, by "
            "WKT_LIB_DIR (pip before 21.3 builds in a copy of this folder)"
        )
    # Its own words say what is lacking.
    if subprocess.run([build, folder], check=False).returncode:
        raise SystemExit("capi/build.sh fails, which makes the library of this package")
    return folder


def _command(folder, library):
    """The proved command: that beside the library, or linked of its proved object; None beside portable C."""
    made = os.path.join(library, "wkt")
    if os.path.exists(made):
        return made
    if ": portable C, " in _made_of(library):
        print("wkt: the package is of portable C, and without the command wkt", file=sys.stderr)
        return None
    if not os.path.exists(os.path.join(top, "dist", "Makefile")):
        raise SystemExit(
            "this package needs the command wkt: make -C dist in a clone of wkt makes it, "
            "in the folder that WKT_LIB_DIR names"
        )
    out = os.path.join(folder, "command")
    made = os.path.join(out, "wkt")
    if subprocess.run(["make", "-s", "-C", os.path.join(top, "dist"), "O=" + out, made], check=False).returncode:
        raise SystemExit("make -C dist fails, which makes the command wkt of this package")
    return made


def _made_of(library):
    """What the library in a folder was made of, in a line."""
    said = os.path.join(library, "FROM")
    return _bytes(said).decode().strip() if os.path.exists(said) else "?"


def _flags(name):
    return shlex.split(os.environ.get(name, ""))


def _lacking(compiler, headers):
    """What the fast module needs and isn't there, or None."""
    if sys.version_info < (3, 11):
        return "Python 3.11"
    if not os.path.exists(os.path.join(headers, "Python.h")):
        return "Python.h"
    return None if shutil.which(compiler[0]) else "a C compiler"


def _module():
    """The file name of the fast module: free-threaded Python has no limited API, so there it is of one version."""
    free = sysconfig.get_config_var("Py_GIL_DISABLED")
    return "_fast" + (sysconfig.get_config_var("EXT_SUFFIX") if free else ".abi3.so")


def _compiled(folder):
    """The fast module, compiled, or None."""
    wanted = os.environ.get("WKT_FAST", "")
    headers = sysconfig.get_paths()["include"]
    compiler = shlex.split(os.environ.get("CC", "cc"))
    if wanted == "0":
        return None
    words = ["-O2", "-fPIC", "-fvisibility=hidden", "-fstack-protector-strong", *_flags("CFLAGS"), "-I", headers]
    words += ["-I", os.path.join(top, "include")]
    words += [*sorted(glob.glob(os.path.join(here, "src", "*.c"))), "-shared", "-Wl,-z,relro,-z,now"]
    lacks = _lacking(compiler, headers)
    if not lacks:
        made = os.path.join(folder, _module())
        if not subprocess.run([*compiler, *words, *_flags("LDFLAGS"), "-o", made], check=False).returncode:
            return made
    why = "the fast module needs " + lacks if lacks else "the fast module doesn't compile"
    if wanted:
        raise SystemExit(why)
    print("wkt: %s; the package goes without it, and calls the library by ctypes" % why, file=sys.stderr)
    return None


def _built(folder):
    """What is compiled for the package, by its name in it, and the folder of the library."""
    library = _library(folder)
    built = {"libwkt.so": os.path.join(library, "libwkt.so")}
    command = _command(folder, library)
    if command:
        built["_command"] = command
    fast = _compiled(folder)
    if fast:
        built[os.path.basename(fast)] = fast
    return built, library


def _platform(built, library):
    """The wheel's platform: manylinux of the newest glibc whose names these files ask for, from 2.17 on, and the
    library's processor, for which CC may compile here.

    So a wheel that was built here runs wherever such a glibc is. WKT_PLATFORM names another.
    """
    platform = sysconfig.get_platform().replace("-", "_").replace(".", "_")
    processor = _made_of(library).split("-")[0]
    if platform.startswith("linux_") and processor in ("x86_64", "aarch64"):
        platform = "linux_" + processor
    asked = set()
    for path in built.values():
        asked.update(int(it) for it in re.findall(rb"\0GLIBC_2\.(\d+)(?:\.\d+)?(?=\0)", _bytes(path)))
    named = os.environ.get("WKT_PLATFORM")
    if named or not asked or not platform.startswith("linux_"):
        return named or platform
    return "manylinux_2_%d_%s" % (max(17, *asked), platform[len("linux_") :])


def _parts(built, library):
    """What is compiled and what it was made of, for whoever lists what they install (CycloneDX, PEP 770)."""
    licence = [{"expression": "MIT OR Apache-2.0"}]
    parts = []
    for name, path in sorted(built.items()):
        part = {
            "type": "application" if name == "_command" else "library",
            "name": name,
            "version": VERSION,
            "licenses": licence,
            "hashes": [{"alg": "SHA-256", "content": hashlib.sha256(_bytes(path)).hexdigest()}],
        }
        if name == "libwkt.so":
            part["properties"] = [{"name": "wkt:from", "value": _made_of(library)}]
        parts.append(part)
    whole = {"type": "library", "name": "wkt-proved", "version": VERSION, "licenses": licence}
    return json.dumps(
        {"bomFormat": "CycloneDX", "specVersion": "1.5", "metadata": {"component": whole}, "components": parts},
        indent=1,
    )


def _licences():
    """The licences, and whose code is in the proved objects."""
    return sorted(glob.glob(os.path.join(top, "LICENSE-*"))) + sorted(glob.glob(os.path.join(top, "dist", "NOTICE")))


def _about():
    head = (
        "Metadata-Version: 2.4\nName: wkt-proved\nVersion: %s\nSummary: %s\nLicense-Expression: MIT OR Apache-2.0\n"
        % (VERSION, SUMMARY)
    )
    head += "".join("License-File: %s\n" % os.path.basename(it) for it in _licences())
    head += "Requires-Python: >=3.8\nClassifier: Typing :: Typed\nClassifier: Operating System :: POSIX :: Linux\n"
    head += "Provides-Extra: columns\nRequires-Dist: numpy; extra == 'columns'\n"
    head += "Description-Content-Type: text/markdown\n\n"
    return head.encode() + _bytes(os.path.join(here, "README.md"))


def _when():
    return max(int(os.environ.get("SOURCE_DATE_EPOCH", "0")), 315532800)


def _wheel(folder, held, built, library):
    """Writes a wheel of files, by their names and bytes; those of its dist-info come behind them. Its name."""
    python = "cp%d%d-cp%d%dt-" % (2 * sys.version_info[:2])
    modules = [name for name in built if os.path.basename(name).startswith("_fast.")]
    if not modules:
        python = "py3-none-"
    elif "abi3" in modules[0]:
        python = "cp311-abi3-"
    tag = python + _platform(built, library)
    # The command is no script of Python: pip would write a first line that no folder with a space in its name can have.
    command = [_bytes(path) for name, path in built.items() if name == "_command"]
    held = held + [
        *(("%s-%s.data/scripts/wkt" % (NAME, VERSION), data) for data in command),
        (INFO + "METADATA", _about()),
        (INFO + "WHEEL", ("Wheel-Version: 1.0\nGenerator: wkt\nRoot-Is-Purelib: false\nTag: %s\n" % tag).encode()),
        (INFO + "sboms/wkt.cdx.json", _parts(built, library).encode()),
        *((INFO + "licenses/" + os.path.basename(path), _bytes(path)) for path in _licences()),
    ]
    record = ""
    for name, data in held:
        digest = base64.urlsafe_b64encode(hashlib.sha256(data).digest()).rstrip(b"=").decode()
        record += "%s,sha256=%s,%d\n" % (name, digest, len(data))
    held.append((INFO + "RECORD", (record + INFO + "RECORD,,\n").encode()))
    name = "%s-%s-%s.whl" % (NAME, VERSION, tag)
    # In their order, with one time, and without who made it.
    with zipfile.ZipFile(os.path.join(folder, name), "w", zipfile.ZIP_DEFLATED) as archive:
        for path, data in held:
            entry = zipfile.ZipInfo(path, time.gmtime(_when())[:6])
            mode = 0o100755 if path.endswith(("/_command", "/scripts/wkt")) else 0o100644
            entry.compress_type, entry.create_system, entry.external_attr = zipfile.ZIP_DEFLATED, 3, mode << 16
            archive.writestr(entry, data, compresslevel=9)
    return name


def prepare_metadata_for_build_wheel(metadata_directory, config_settings=None):
    """Without it pip builds the wheel twice, the first time for its metadata."""
    os.makedirs(os.path.join(metadata_directory, INFO))
    with open(os.path.join(metadata_directory, INFO, "METADATA"), "wb") as file:
        file.write(_about())
    return INFO.rstrip("/")


prepare_metadata_for_build_editable = prepare_metadata_for_build_wheel


def build_wheel(wheel_directory, config_settings=None, metadata_directory=None):
    with tempfile.TemporaryDirectory() as folder:
        built, library = _built(folder)
        held = [(os.path.relpath(path, here), _bytes(path)) for path in _own("wkt/")]
        held += [("wkt/" + name, _bytes(path)) for name, path in built.items()]
        return _wheel(wheel_directory, held, built, library)


def build_editable(wheel_directory, config_settings=None, metadata_directory=None):
    """A wheel that names this folder, with what is compiled beside the sources: after an edit of C, install again."""
    with tempfile.TemporaryDirectory() as folder:
        built, library = _built(folder)
        for name, path in built.items():
            there = os.path.join(here, "wkt", name)
            shutil.copyfile(path, there + ".new")
            os.chmod(there + ".new", 0o755)
            os.replace(there + ".new", there)  # whoever runs the old one goes on
        return _wheel(wheel_directory, [("__editable__.%s.pth" % NAME, (here + "\n").encode())], built, library)


def _own(front=""):
    """The files of this folder that a source package has."""
    return [
        path for pattern in OWN if pattern.startswith(front) for path in sorted(glob.glob(os.path.join(here, pattern)))
    ]


def build_sdist(sdist_directory, config_settings=None):
    root = "%s-%s" % (NAME, VERSION)
    files = [("%s/%s" % (root, os.path.relpath(path, here)), path) for path in _own()]
    for pattern in NATIVE:
        for path in sorted(glob.glob(os.path.join(top, pattern))):
            files.append(("%s/native/%s" % (root, os.path.relpath(path, top)), path))
    written = io.BytesIO()
    with tarfile.open(fileobj=written, mode="w", format=tarfile.PAX_FORMAT) as archive:

        def add(name, data, executable):
            entry = tarfile.TarInfo(name)
            entry.size, entry.mtime, entry.mode = len(data), _when(), 0o755 if executable else 0o644
            archive.addfile(entry, io.BytesIO(data))

        add(root + "/PKG-INFO", _about(), False)
        for name, path in files:
            add(name, _bytes(path), os.access(path, os.X_OK))
    with open(os.path.join(sdist_directory, root + ".tar.gz"), "wb") as file:
        with gzip.GzipFile("", "wb", fileobj=file, mtime=_when()) as packed:
            packed.write(written.getvalue())
    return root + ".tar.gz"
