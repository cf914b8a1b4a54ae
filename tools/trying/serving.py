"""The page's site served for a check, by Python's own server of files and by jslit-page; and texts for it."""
import contextlib
import functools
import http.client
import http.server
import json
import shutil
import subprocess
import threading
import urllib.parse

from litmus.program import TOP

# What stands before the worker's script in a site that is feigned: it does what a text's name says, and else leaves the text to the engine.
FEIGNED = """addEventListener('message', (event) => {
  const [, name] = event.data.asked.text.split(/\\s+/);
  if (name === 'dies') throw new Error('the end');
  if (name === 'long') while (true);
  if (name === 'traps') WebAssembly.Instance = class { constructor() { throw new WebAssembly.RuntimeError('unreachable'); } };
});
"""


def named(name):
    return f"test {name}\nbytes 1\nagent A\nr0 = U8[0]\ncheck A.r0 == 0\n"


def reads(count, writers):
    """A test of plain reads of one byte, each of which may see the first zero or the store of any writer."""
    return ("test many\nbytes 1\nagent R\n" + "".join(f"r{number} = U8[0]\n" for number in range(count)) +
            "".join(f"agent {'ABCDEFG'[number]}\nU8[0] = {number + 1}\n" for number in range(writers)) + "check R.r0 == 0\n")


class Quiet(http.server.SimpleHTTPRequestHandler):
    def log_message(self, *_):
        """Nothing."""


@contextlib.contextmanager
def answering(handler):
    """The address of a server by this handler, which is ended."""
    with http.server.ThreadingHTTPServer(("127.0.0.1", 0), handler) as server:
        thread = threading.Thread(target=server.serve_forever)
        thread.start()
        try:
            yield f"http://127.0.0.1:{server.server_port}/"
        finally:
            server.shutdown()
            thread.join()


@contextlib.contextmanager
def plainly(folder):
    """The address of the site in a folder, by a server that has files alone and this one among others."""
    with answering(functools.partial(Quiet, directory=folder.parent)) as address:
        yield f"{address}{urllib.parse.quote(folder.name)}/"


@contextlib.contextmanager
def by_command(folder):
    """The same by jslit-page, which is ended by a signal."""
    process = subprocess.Popen([TOP / "bin" / "jslit-page", "--port", "0", "--site", folder], stdout=subprocess.PIPE, text=True)
    try:
        yield process.stdout.readline().strip()
    finally:
        process.terminate()
        status = process.wait(10)
        process.stdout.close()
    same(status, 0)


@contextlib.contextmanager
def by_nobody(folder):
    """The same as a file."""
    yield f"file://{urllib.parse.quote(str(folder))}/index.html"


def feigned(folder):
    """A copy of the site beside it whose worker does what a text's name says."""
    copy = folder.with_name("feigned")
    if not copy.exists():
        shutil.copytree(folder, copy)
        before, _, told = (folder / "engine.js").read_text().partition("const engine = ")
        engine = json.loads(told.rstrip(";\n"))
        (copy / "engine.js").write_text(f"{before}const engine = {json.dumps({**engine, 'worker': FEIGNED + engine['worker']})};\n")
    return copy


def asked(address, method, path):
    """The status and the bytes of what comes back for a path as it stands."""
    connection = http.client.HTTPConnection(urllib.parse.urlsplit(address).netloc, timeout=30)
    with contextlib.closing(connection):
        connection.request(method, path)
        answer = connection.getresponse()
        return answer.status, answer.read()


def litmus(name):
    return (TOP / "litmus" / f"{name}.lit").read_text()


def same(seen, wanted):
    assert seen == wanted, f"{str(seen)[:300]} is not {str(wanted)[:300]}"
