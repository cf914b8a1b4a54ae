"""The library for C, of which a part is proved: libjslit.a, libjslit.so, and what compilers need to find them."""
import pathlib
import tempfile

from building.kit import kit, proved, ran
from installing.place import New
from litmus.program import PUBLISHED, TOP, version

NEEDS = ("cc=gcc", "objcopy=binutils")
CRATE = "jslit_embed"
MADE = TOP / f"crates/{CRATE}/out/lib{CRATE}.a"
MODULE = TOP / f"crates/{CRATE}/out/{CRATE}.bc"
PACKAGE = """prefix=${{pcfiledir}}/../..
Name: jslit
Description: what a litmus text may do under the memory model of ECMAScript
URL: {repository}
Version: {version}
Cflags: -I${{prefix}}/include
Libs: -L${{prefix}}/lib -ljslit
"""


def made():
    """The static library as the toolchain makes it of the proved crate."""
    return proved(MADE, "libjslit")


def whole_object(folder):
    """One object of the proved crate and of the toolchain's C code that it calls, in which only jslit_* can be seen."""
    path = folder / "jslit.o"
    ran("ld", "-r", "-o", path, "--whole-archive", made(), "--no-whole-archive", kit() / "c/libos_c.a", kit() / "c/liblibc_c.a")
    ran("objcopy", "--wildcard", "--keep-global-symbol=jslit_*", path)
    return path


def files():
    """What is put where, by its name below a prefix."""
    number = version()[0]
    soname = f"libjslit.so.{number.split('.')[0]}"
    with tempfile.TemporaryDirectory() as name:
        folder = pathlib.Path(name)
        path = whole_object(folder)
        ran("ar", "rcsD", "libjslit.a", path.name, cwd=folder)
        ran("cc", "-shared", "-s", "-o", "libjslit.so", path.name, f"-Wl,-soname,{soname},--version-script,{TOP / 'embed' / 'jslit.map'}",
            "-Wl,--gc-sections,-z,relro,-z,now,-z,defs", cwd=folder)
        archive, shared = ((folder / each).read_bytes() for each in ("libjslit.a", "libjslit.so"))
    return {
        "include/jslit.h": New((TOP / "embed" / "jslit.h").read_bytes()),
        "lib/libjslit.a": New(archive), f"lib/libjslit.so.{number}": New(shared),
        f"lib/{soname}": New(link=f"libjslit.so.{number}"), "lib/libjslit.so": New(link=soname),
        "lib/pkgconfig/jslit.pc": New(PACKAGE.format(version=number, **PUBLISHED).encode()),
        "lib/python3/dist-packages/jslit.py": New((TOP / "embed" / "python" / "jslit.py").read_bytes()),
    }
