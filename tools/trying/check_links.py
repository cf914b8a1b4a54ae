"""What tools/check-page asks of the text in the page's address."""
import base64
import json
import urllib.parse

from trying.serving import litmus, same


def linked(page):
    text = litmus("lb") + "// caf\u00e9 <b>&amp;\n"
    page.take(text)
    address = page.link()
    assert len(page.value("location.hash")) < len(text), "it isn't packed"
    page.open(address)
    same(page.value("document.querySelector('#text').value"), text)
    asked = [event["params"]["request"] for event in page.events if event["method"] == "Network.requestWillBeSent"]
    assert not any("t=" in urllib.parse.urlsplit(each["url"]).query or "postData" in each for each in asked), "the text was sent"
    page.choose("#library", "sb")
    page.until(f"location.href !== {json.dumps(address)}")
    page.value("history.back()")
    page.until(f"document.querySelector('#text').value === {json.dumps(text)}")
    for broken in ("%%%", "~AAAA", "~" + "A" * 50):
        page.value(f"location.hash = '#t={broken}'")
        page.until("document.querySelector('#verdict').innerText.includes('no text that can be read')")
        page.value("location.hash = '#t='")
        page.until("document.querySelector('#verdict').innerText.includes('Nothing has been run')")


def linked_plainly(page):
    """What a browser that packs nothing writes, and each browser reads."""
    page.value("window.CompressionStream = undefined")
    page.take(litmus("lb"))
    packed = base64.urlsafe_b64encode(litmus("lb").encode()).decode().rstrip("=")
    page.until(f"location.hash === '#t={packed}'")
    page.open(f"{page.address}#t={packed}")
    same(page.text(), litmus("lb"))
