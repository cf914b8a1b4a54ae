"""What the tools of the library for C and of the WebAssembly module share: their words, and where they put what they make."""
import pathlib

from building.kit import need
from installing.place import put_all
from litmus.ends import Words, shown
from litmus.program import TOP


def put(tool, help_text, part, given):
    """Puts the files of a part, embedding.library or embedding.module, below the folder that the words name."""
    parser = Words(tool, help_text)
    parser.add_argument("folder", type=pathlib.Path, nargs="?", default=TOP / "out" / "embed")
    folder = parser.parse_args(given).folder.absolute()
    need(*part.NEEDS)
    files = part.files()
    put_all(folder, files)
    print(*(shown(folder / name) for name in files), sep="\n")
    return 0
