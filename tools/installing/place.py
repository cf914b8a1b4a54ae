"""A folder to install below, and the list of what was put there.

The list stands in lib/jslit/installed.json, with names as seen from the folder, so that it stays true where the folder is moved.
It has the contents, by digest, of each file that was put there or is about to be: what has others is somebody's own and is left. A file
is written aside and renamed, the list before all others; so whatever ends an installation, the next one or a removal goes on from
there."""
import contextlib
import hashlib
import json
import os
import pathlib
import shutil
import stat

from litmus.ends import Fault, shown

TREE = pathlib.PurePath("lib/jslit")
LIST = TREE / "installed.json"
ABOVE_LIST = [*map(str, LIST.parents)]
ASIDE = ".jslit-new"
FORM = 2


def digest_of(path):
    """The contents of a file, or where a link leads; None of what is neither."""
    try:
        kind = os.lstat(path).st_mode
        if stat.S_ISLNK(kind):
            return f"link {os.readlink(path)}"
        return hashlib.sha256(path.read_bytes()).hexdigest() if stat.S_ISREG(kind) else None
    except FileNotFoundError:
        return None


class New:
    """A file to be put: its bytes, or where it leads as a link."""

    def __init__(self, data=None, runs=False, link=None):
        self.data, self.runs, self.link = data, runs, link
        self.digest = f"link {link}" if link else hashlib.sha256(data).hexdigest()

    def write(self, path):
        """Whatever the caller's umask: everybody may read what is put, and run what runs."""
        if self.link:
            path.symlink_to(self.link)
        else:
            path.write_bytes(self.data)
            path.chmod(0o755 if self.runs else 0o644)


class Place:
    """`files` has the digests that each file may have, by its name; `folders` the folders that were made, `above` those above
    the prefix; `kept` what is somebody's own and was left. `was_cut` says that only the end of something that was cut off was found."""

    def __init__(self, prefix):
        self.prefix, self.kept = prefix, []
        self.was_cut = self.sweep()
        self.is_there = os.path.lexists(prefix / LIST)
        told = self.read_list() if self.is_there else {}
        self.files, self.folders = told.get("files", {}), told.get("folders", [])
        self.above = told.get("above", []) if told.get("prefix") == str(prefix) else []

    def read_list(self):
        try:
            told = json.loads((self.prefix / LIST).read_text())
            if "form" not in told:
                return self.earlier_list(told)
            if told["form"] != FORM or not all(map(is_below, [*told["files"], *told["folders"]])):
                raise ValueError
            return {**told, "files": {name: list(map(str, digests)) for name, digests in told["files"].items()}}
        except (ValueError, KeyError, TypeError, AttributeError):
            # Written by none of this: what has the contents of this version is known, and the rest is left.
            return {}

    def earlier_list(self, told):
        """A list of before it had digests: all that it names, and the whole tree, is as it was put."""
        files, folders = ([str(path.relative_to(self.prefix)) for path in map(pathlib.Path, told[kind]) if path.is_relative_to(self.prefix)]
                          for kind in ("files", "folders"))
        digests = {name: digest_of(self.prefix / name) for name in [*files, *self.in_tree()]}
        return {"files": {name: [digest] for name, digest in digests.items() if digest}, "folders": folders}

    def in_tree(self):
        """The files in lib/jslit but for the list."""
        found = [path.relative_to(self.prefix) for path in (self.prefix / TREE).rglob("*") if path.is_symlink() or not path.is_dir()]
        return sorted(str(name) for name in found if name != LIST)

    # ---- what is in the way

    def is_own(self, name):
        """Whether what has this name was put there by this, or isn't there."""
        path = self.prefix / name
        return not os.path.lexists(path) or digest_of(path) in self.files.get(name, [])

    def find_foreign(self, new):
        """What is somebody's own among the names of the new files, and what stands in a folder's way."""
        foreign = [name for name, file in new.items() if not self.is_own(name) and digest_of(self.prefix / name) != file.digest]
        for folder in {folder for name in new for folder in (self.prefix / name).parents}:
            if os.path.lexists(folder) and not folder.is_dir():
                raise Fault(f"{shown(folder)} is there, and is no folder")
        return foreign

    # ---- installing

    def install(self, new, version):
        """Puts the files. Nothing is put where something of another's is in the way of a first installation."""
        foreign = self.find_foreign(new)
        if foreign and not self.is_there:
            raise Fault(f"{shown(self.prefix / foreign[0])} is there, and was not put there by this")
        old = [name for name in self.files if name not in new]
        for name, file in new.items():
            if name not in foreign:
                self.files[name] = sorted({*self.files.get(name, []), file.digest})
        self.plan_folders(new)
        self.write_list(version)
        for name in old:
            self.take(name)
        for name, file in new.items():
            if name not in foreign:
                self.put(name, file)
        self.files = {name: [file.digest] for name, file in new.items() if name not in foreign}
        self.write_list(version)
        self.kept += [*foreign, *(name for name in self.in_tree() if name not in new and name not in self.kept)]

    def plan_folders(self, new):
        """Takes note of the folders that will be made, before any is."""
        missing = {folder for name in [*new, str(LIST)] for folder in pathlib.PurePath(name).parents if not (self.prefix / folder).is_dir()}
        self.folders = sorted({*self.folders, *map(str, missing)}, key=lambda name: (name.count("/"), name != ".", name))
        self.above += [str(folder) for folder in reversed(self.prefix.parents) if not folder.is_dir()]

    def write_list(self, version):
        """The list, and for a first installation all folders above it, appear at once."""
        told = {"form": FORM, "version": version, "prefix": str(self.prefix), "above": self.above, "folders": self.folders,
                "files": self.files}
        data, path = json.dumps(told, indent=1).encode() + b"\n", self.prefix / LIST
        first = next((folder for folder in [*reversed(path.parents)] if not folder.is_dir()), None)
        if first is None:
            replace(path, New(data))
            return
        aside = first.with_name(first.name + ASIDE)
        inside = aside / path.relative_to(first)
        make_folder(inside.parent)
        New(data).write(inside)
        aside.rename(first)

    def put(self, name, file):
        path = self.prefix / name
        make_folder(path.parent)
        if digest_of(path) != file.digest or file.data is not None and os.lstat(path).st_mode & 0o777 != (0o755 if file.runs else 0o644):
            replace(path, file)

    # ---- removing

    def take(self, name):
        """Deletes a file, if it is as it was put."""
        path = self.prefix / name
        path.with_name(path.name + ASIDE).unlink(missing_ok=True)
        if os.path.lexists(path):
            if self.is_own(name):
                path.unlink()
            else:
                self.kept.append(name)

    def remove(self):
        for name in self.files:
            self.take(name)
        for name in reversed(self.folders):
            if name not in ABOVE_LIST:
                with contextlib.suppress(OSError):  # something else is in it, or it is gone
                    (self.prefix / name).rmdir()
        self.kept += [name for name in self.in_tree() if name not in self.kept]
        self.remove_list()

    def remove_list(self):
        """The list goes last, with the folders above it that were made for it and have nothing else, all at once."""
        made = [*map(pathlib.Path, self.above), *(self.prefix / name for name in self.folders if name in ABOVE_LIST)]
        going = self.prefix / LIST
        while going.parent in made and [*going.parent.iterdir()] == [going]:
            going = going.parent
        if going == self.prefix / LIST:
            going.unlink()
            return
        aside = going.with_name(going.name + ASIDE)
        going.rename(aside)
        shutil.rmtree(aside)

    def sweep(self):
        """Deletes what an installation that was cut off at its beginning, or a removal at its end, has left aside, if there is such."""
        found = False
        for path in [self.prefix / LIST, *(self.prefix / LIST).parents]:
            aside = path.with_name(path.name + ASIDE) if path.name else path
            if path.name and aside.is_dir() and all(each.is_dir() or each.name.startswith(LIST.name) for each in aside.rglob("*")):
                shutil.rmtree(aside)
                found = True
            elif path.name == LIST.name:
                aside.unlink(missing_ok=True)
        return found


def is_below(name):
    return isinstance(name, str) and not name.startswith("/") and ".." not in name.split("/")


def make_folder(folder):
    """Makes a folder and those above it, so that everybody may look into them."""
    for each in reversed([folder, *folder.parents]):
        if not each.is_dir():
            each.mkdir()
            each.chmod(0o755)


def replace(path, file):
    aside = path.with_name(path.name + ASIDE)
    aside.unlink(missing_ok=True)
    file.write(aside)
    os.replace(aside, path)


def put_all(folder, files):
    """Puts files below a folder, which is no installation: there is no list of them."""
    for name, file in files.items():
        make_folder((folder / name).parent)
        replace(folder / name, file)
