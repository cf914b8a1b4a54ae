"""What tools/check-page asks of the page where it meets a limit."""
from trying.serving import litmus, named, reads, same


def ended(page):
    """A worker that runs on is ended, at the limit of time or where it is asked for; one that fails is told."""
    page.take(named("long"))
    page.click("#run")
    page.until("!document.querySelector('#stop').disabled")
    page.click("#stop")
    page.until("document.querySelector('#verdict').innerText.includes('as you asked')")
    page.click("#run")
    page.until("document.querySelector('#verdict.is-stopped #offered')")
    assert "Stopped at the limit of 10 seconds" in page.said("#verdict")
    page.take(named("dies"))
    page.click("#run")
    page.until("document.querySelector('#verdict').innerText.includes('the worker ended: Uncaught Error: the end')")
    page.take(named("traps"))
    page.click("#run")
    page.until("document.querySelector('#verdict').innerText.includes('a trap in the engine: RuntimeError: unreachable')")
    page.take(named("short"))
    page.run()
    same(page.said("#race"), "data race no")
    page.events.clear()


def large(page):
    """Five values in each of six registers are 15,625 outcomes, of which number 1,001 has 1000 = 013000 to the base of 5."""
    page.take(reads(6, 4))
    page.run()
    same(page.said("#shown"), "shown: the first 1,000 of 15,625")
    same(len(page.rows()), 1000)
    page.click("#after")
    page.until("document.querySelector('#shown').innerText.includes('1,001 to 2,000 of 15,625')")
    same(page.rows()[0], "1,001 \u2713 meets 0 1 3 0 0 0")
    page.click("#before")
    page.until("document.querySelector('#shown').innerText.includes('the first 1,000')")
    page.value("(() => { const e = document.querySelector('#text'); e.value = 'x'.repeat(65537); e.dispatchEvent(new Event('input')); })()")
    page.click("#run")
    page.until("document.querySelector('#verdict').innerText.includes('65,537 bytes, and 65,536 at most')")


def beyond_memory(page):
    """Seven values in each of eight registers: a report of a gigabyte."""
    page.take(reads(8, 6))
    page.click("#run")
    page.until("document.querySelector('#verdict').innerText.includes('Stopped at the limit of 512 MB of memory')")
    page.take(litmus("sb"))
    page.run()


def without_workers(page):
    page.value("window.Worker = undefined")
    page.click("#run")
    page.until("document.querySelector('#verdict').innerText.includes('this browser has no workers for the page')")
