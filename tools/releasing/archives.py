"""The two archives of a release. Their bytes depend on what is put into them and on the date that they are given, and on nothing else:
names are sorted, everything is root's, and has that date."""
import gzip
import hashlib
import io
import os
import pathlib
import subprocess
import tarfile
import tempfile

from installing.place import New, make_folder
from litmus.ends import Fault

# Where Debian wants what stands elsewhere in an archive for every system.
BY_DEBIAN = {"share/zsh/site-functions": "share/zsh/vendor-completions"}


def zipped(data):
    """As by gzip -n: neither a name nor a date stands in it."""
    packed = io.BytesIO()
    with gzip.GzipFile(filename="", mode="wb", compresslevel=9, fileobj=packed, mtime=0) as file:
        file.write(data)
    return packed.getvalue()


def entry(name, file, date):
    info = tarfile.TarInfo(name)
    info.mtime = date
    if file is None:
        info.type, info.mode = tarfile.DIRTYPE, 0o755
    elif file.link:
        info.type, info.linkname, info.mode = tarfile.SYMTYPE, file.link, 0o777
    else:
        info.size, info.mode = len(file.data), 0o755 if file.runs else 0o644
    return info


def tar_gz(top, files, date):
    """An archive with all files in one folder."""
    whole = {f"{top}/{name}": file for name, file in files.items()}
    folders = {str(folder): None for name in whole for folder in pathlib.PurePath(name).parents if str(folder) != "."}
    packed = io.BytesIO()
    with tarfile.open(fileobj=packed, mode="w", format=tarfile.USTAR_FORMAT) as archive:
        for name, file in sorted({**folders, **whole}.items()):
            archive.addfile(entry(name, file, date), io.BytesIO(file.data) if file and file.data is not None else None)
    return zipped(packed.getvalue())


def place_by_debian(name, file):
    """A file's name and contents in the package: man pages are packed there."""
    for own, other in BY_DEBIAN.items():
        name = name.replace(f"{own}/", f"{other}/", 1) if name.startswith(f"{own}/") else name
    if name.startswith("share/man/"):
        name, file = f"{name}.gz", New(zipped(file.data))
    return f"usr/{name}", file


def deb(path, files, fields, date):
    """A package of these files, with these fields."""
    placed = dict(sorted(place_by_debian(*each) for each in files.items()))
    kilobytes = sum((len(file.data or "") + 1023) // 1024 for file in placed.values())
    sums = "".join(f"{hashlib.md5(file.data).hexdigest()}  {name}\n" for name, file in placed.items() if file.data is not None)
    control = "".join(f"{name}: {value}\n" for name, value in {**fields, "Installed-Size": kilobytes}.items())
    placed |= {"DEBIAN/control": New(control.encode()), "DEBIAN/md5sums": New(sums.encode())}
    with tempfile.TemporaryDirectory() as folder:
        root = pathlib.Path(folder) / "root"
        for name, file in placed.items():
            make_folder((root / name).parent)
            file.write(root / name)
        for each in [*root.rglob("*"), root]:
            os.utime(each, (date, date), follow_symlinks=False)
        run = subprocess.run(["dpkg-deb", "--root-owner-group", "--threads-max=1", "-Zxz", "--build", root, path],
                             env={**os.environ, "SOURCE_DATE_EPOCH": str(date)}, capture_output=True, text=True)
        if run.returncode:
            raise Fault(f"dpkg-deb failed: {run.stderr.strip()}")
