"""What tools/check-page asks of the site's files, and of jslit-page, which serves them."""
import html
import pathlib
import re
import socket
import subprocess
import tempfile
import urllib.parse

from litmus.program import TOP
from trying.serving import asked, by_command, same

ABSENT = ["/none", "/../page", "/../../../../etc/passwd", "/%2e%2e/%2e%2e/etc/passwd", "/page.js/../../etc/passwd", "//etc/passwd", "/doc/",
          "/doc/README.md", "/library", "/nothing?x"]


def files_of(folder):
    return {str(path.relative_to(folder)): path.read_bytes() for path in sorted(folder.rglob("*")) if path.is_file()}


def served(site):
    """Each file as it stands, to this machine alone, and nothing else."""
    files = files_of(site.folder)
    with by_command(site.folder) as address:
        for name, data in [*files.items(), ("", files["index.html"]), ("?x=1", files["index.html"])]:
            same((name, asked(address, "GET", f"/{name}")), (name, (200, data)))
        same(asked(address, "HEAD", "/"), (200, b""))
        for path in ABSENT:
            same((path, asked(address, "GET", path)[0]), (path, 404))
        same(asked(address, "POST", "/report?skip=0")[0], 501)
        port = urllib.parse.urlsplit(address).port
        listening = pathlib.Path("/proc/net/tcp").read_text()
        assert f" 0100007F:{port:04X} 00000000:0000 0A " in listening and f" 00000000:{port:04X} " not in listening


def not_served(site):
    """A port that is taken, and a folder without a page."""
    with socket.create_server(("127.0.0.1", 0)) as other, tempfile.TemporaryDirectory() as empty:
        for words in (["--port", str(other.getsockname()[1]), "--site", site.folder], ["--port", "0", "--site", empty]):
            run = subprocess.run([TOP / "bin" / "jslit-page", *words], capture_output=True, text=True, timeout=60)
            same((words, run.returncode, run.stdout, run.stderr.count("\n")), (words, 4, "", 1))


def made_again(site):
    """The same bytes in another folder, which may have other files."""
    with tempfile.TemporaryDirectory() as folder:
        (pathlib.Path(folder) / "other").write_text("")
        site.make(folder)
        same({**files_of(site.folder), "other": b""}.keys(), files_of(pathlib.Path(folder)).keys())
        same([name for name, data in files_of(site.folder).items() if data != (pathlib.Path(folder) / name).read_bytes()], [])


def links(site):
    """Each link of the page and of a document leads to a file that is there, and to a heading of it."""
    pages = {path: path.read_text() for path in site.folder.rglob("*.html") if path.name != "sandbox.html"}
    assert len(pages) > 12, sorted(pages)
    for path, body in pages.items():
        for link in map(html.unescape, re.findall(r' (?:href|src)="([^"]*)"', body)):
            target, _, part = link.partition("#")
            if re.match("https?:", target):
                continue
            to = (path.parent / target).resolve() if target else path
            assert to.is_file() and site.folder in to.parents, (path.name, link)
            assert not part or to.name == "index.html" or f'id="{part}"' in pages[to], (path.name, link)
        if path.name != "index.html":
            assert "](" not in re.sub(r"<pre>.*?</pre>|<code>.*?</code>", "", body, flags=re.S), path


CASES = (served, not_served, made_again, links)
