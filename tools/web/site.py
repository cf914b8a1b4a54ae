"""The page as files, as tools/web/site.js makes them."""
import pathlib
import subprocess
import tempfile

from litmus.ends import Fault

# Commands and files of Debian's packages that it is made by.
NEEDS = ("node=nodejs", "/usr/share/nodejs/marked=node-marked", "/usr/share/nodejs/acorn/dist/acorn.js=node-acorn")


def files(module):
    """The bytes of each file, by its name in the site."""
    with tempfile.TemporaryDirectory() as folder:
        run = subprocess.run(["node", pathlib.Path(__file__).with_name("site.js"), folder], input=module, capture_output=True)
        if run.returncode:
            raise Fault(f"the page can't be made: {run.stderr.decode(errors='replace').strip()[-300:]}")
        return {str(path.relative_to(folder)): path.read_bytes() for path in sorted(pathlib.Path(folder).rglob("*")) if path.is_file()}
