"""A home that is new, and what is run there: with one folder of programs first on the path, and nothing else of the caller's."""
import pathlib
import subprocess


def found_below(prefix):
    """The environment in which compilers, programs and Python find the library that stands below a prefix."""
    return {"PKG_CONFIG_PATH": f"{prefix}/lib/pkgconfig", "LD_LIBRARY_PATH": f"{prefix}/lib",
            "PYTHONPATH": f"{prefix}/lib/python3/dist-packages"}


class Home:
    def __init__(self, folder, prefix, others="/usr/local/bin:/usr/bin:/bin"):
        self.folder, self.prefix = pathlib.Path(folder), pathlib.Path(prefix)
        self.path = f"{self.prefix}/bin:{others}"
        self.environment = {"HOME": str(folder), "PATH": self.path, "TERM": "dumb", "LANG": "C.UTF-8"}

    def run(self, *words, status=0, given=None, **more):
        """What a command says, on either output."""
        run = subprocess.run(words, cwd=self.folder, env=self.environment, capture_output=True, text=True, timeout=120, input=given, **more)
        assert run.returncode == status, f"{words}: status {run.returncode}, {run.stdout[-200:]}{run.stderr[-300:]}"
        return run.stdout + run.stderr
