"""A browser with the page in it, for a check."""
import base64
import contextlib
import json
import zlib

from trying.browser import Browser
from trying.processes import wait_for
from trying.serving import same

WIDE = "document.documentElement.scrollWidth > document.documentElement.clientWidth"


def unpacked(words):
    return zlib.decompress(base64.urlsafe_b64decode(words + "=" * (-len(words) % 4)), -zlib.MAX_WBITS).decode()


class Page(Browser):
    """A browser with the site at an address."""

    def __init__(self, site, address):
        super().__init__()
        self.site, self.address, self.program = site, address, site.program

    def take(self, text):
        """Writes the text as a user does, in place of the one that stands there."""
        self.value("document.querySelector('#text').focus(); document.querySelector('#text').select()")
        self.type(text)
        same(self.value("document.querySelector('#text').value"), text)

    def choose(self, selector, value):
        self.value(f"(() => {{ const e = document.querySelector({json.dumps(selector)}); e.value = {json.dumps(value)};"
                   "e.dispatchEvent(new Event('change', {bubbles: true})); })()")

    def run(self):
        self.click("#run")
        self.told()

    def drawn(self):
        self.until("document.querySelector('#picture svg') && document.querySelector('#picture').getAttribute('aria-busy') === 'false'")

    def focused(self):
        return self.value("document.activeElement.id || document.activeElement.dataset.agent || document.activeElement.innerText")

    def tab_to(self, name):
        """Presses Tab until the element of this name has the focus."""
        for _ in range(40):
            self.key("Tab")
            if self.focused() == name:
                return
        raise AssertionError(f"{name} is never reached")

    def told(self):
        self.until("document.querySelector('#verdict.is-told')")

    def text(self):
        return self.value("document.querySelector('#text').value")

    def link(self):
        """The address, which takes a text a moment after it was written, once it holds the one that stands there, packed."""
        assert wait_for(lambda: unpacked(self.value("location.hash").removeprefix("#t=~")) == self.text())
        return self.value("location.href")

    def open_link(self, selector):
        self.value("document.documentElement.dataset.left = 'yes'")
        self.click(selector)
        self.until("!document.documentElement.dataset.left && document.readyState === 'complete'")

    def said(self, selector):
        return self.value(f"document.querySelector({json.dumps(selector)}).innerText")

    def rows(self):
        return self.value("[...document.querySelectorAll('tbody tr')].map((row) => [...row.cells].map((cell) => cell.innerText).join(' '))")

    def faults(self):
        """What went wrong in the page, and requests to anywhere else."""
        self.value("1")
        wrong = [event["params"] for event in self.events if event["method"] in ("Runtime.exceptionThrown", "Runtime.consoleAPICalled")
                 or event["method"] == "Log.entryAdded" and event["params"]["entry"]["level"] in ("error", "warning")]
        asked = [event["params"]["request"]["url"] for event in self.events if event["method"] == "Network.requestWillBeSent"]
        return wrong + [url for url in asked if not url.startswith((self.address.rpartition("/")[0], "blob:"))]


def with_page(case, site, serving, folder):
    with serving(folder) as address, contextlib.closing(Page(site, address)) as page:
        page.open(address)
        case(page)
        same(page.faults(), [])
