"""What tools/check-page asks of what the page saves, and of the documents beside it."""
import math
import pathlib
import re
import struct
import subprocess
import tempfile
import xml.dom.minidom

from litmus.program import TOP
from trying.processes import wait_for
from trying.serving import litmus, same


def saved(page):
    """A report and its outcomes as texts, and a picture as SVG and PNG, in light colours in the dark too."""
    page.dark(True)
    page.take(litmus("mpplain"))
    page.run()
    page.click("tbody tr:nth-child(3)")
    page.drawn()
    same(page.value("document.querySelector('#picture').scrollLeft"), 0)
    with tempfile.TemporaryDirectory() as folder:
        page.ask("Browser.setDownloadBehavior", behavior="allow", downloadPath=folder)
        files = {}
        for button, name in (("save-all", "mpplain.txt"), ("save-outcomes", "mpplain-outcomes.txt"), ("save-svg", "mpplain-3.svg"),
                             ("save-png", "mpplain-3.png")):
            page.click(f"#{button}")
            path = pathlib.Path(folder) / name
            assert wait_for(lambda: path.exists() and path.stat().st_size), f"{name} isn't saved"
            files[button] = path.read_bytes()
    same(files["save-outcomes"].decode(), "test mpplain\n"
         "outcome B.r0=0 B.r1=0\noutcome B.r0=0 B.r1=1\noutcome B.r0=1 B.r1=0\noutcome B.r0=1 B.r1=1\n"
         "outcomes 4\nverdict sometimes\ndata race yes\n")
    same(files["save-all"], subprocess.run([page.program, TOP / "litmus" / "mpplain.lit"], capture_output=True, check=True).stdout)
    drawn = xml.dom.minidom.parseString(files["save-svg"])
    assert "r1 = U8[0]" in [text.firstChild.data for text in drawn.getElementsByTagName("text")]
    same(drawn.getElementsByTagName("rect")[0].getAttribute("fill"), "#fff")
    assert "rgb(27, 31, 36)" in files["save-svg"].decode(), "the words aren't dark"
    box = [float(number) for number in drawn.documentElement.getAttribute("viewBox").split()]
    same(files["save-png"][:8], b"\x89PNG\r\n\x1a\n")
    same(list(struct.unpack(">II", files["save-png"][16:24])), [math.ceil(2 * box[2]), math.ceil(2 * box[3])])


def documents(page):
    """The documents, reached from the page, with their pictures, and a test of the library by a link in them."""
    page.open_link("nav a[href$='doc/docs/MODEL.html']")
    same(page.said("h1"), "The model")
    page.until("[...document.images].length && [...document.images].every((image) => image.complete && image.naturalWidth)")
    page.open_link("nav a[href$='doc/litmus/README.html']")
    page.open_link("main a[href*='index.html#t=']")
    page.until("document.documentElement.dataset.ready === 'yes'")
    page.run()


# What the tutorial says of what stands in it, one after the other.
OPENED = ("ready: verdict sometimes", "mended: verdict never", "check sometimes, fails in 2 of 4", "check sometimes, fails in 1 of 3",
          "check always")


def opened(page):
    """Each whole text of the tutorial, opened in the editor by the link below it, and run there."""
    blocks = re.findall(r"^```(\w*)\n(.*?)^```$", (TOP / "docs" / "TUTORIAL.md").read_text(), re.M | re.S)
    texts = [text for kind, text in blocks if kind != "console" and re.search(r"^test \w+\nbytes|^agents\(", text, re.M)]
    same(len(texts), len(OPENED))
    for place, (text, told) in enumerate(zip(texts, OPENED)):
        page.open_link("nav a[href$='doc/docs/TUTORIAL.html']")
        links = page.value("[...document.querySelectorAll('.open a')].map((each) => each.getAttribute('href'))")
        same(len(links), len(texts))
        page.open_link(f".open a[href='{links[place]}']")
        page.until("document.documentElement.dataset.ready === 'yes'")
        same(page.text(), text)
        page.click("#run")
        page.until(f"document.querySelector('#verdict strong')?.innerText === {told!r}")
