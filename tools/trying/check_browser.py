"""What tools/check-page asks of the page in a browser."""
import json

from trying import check_answers, check_javascript
from trying.attempts import PASTED
from trying.check_limits import beyond_memory, ended, large, without_workers
from trying.check_links import linked, linked_plainly
from trying.check_reasons import asked_why, raced, reasons
from trying.check_saved import documents, opened, saved
from trying.page import WIDE, with_page
from trying.serving import by_command, by_nobody, feigned, litmus, plainly, same


def cases(site):
    """Names and functions; each has a browser and a server of its own."""
    def on(case, serving, folder):
        return lambda: with_page(case, site, serving, folder)

    real = [(case, plainly) for case in SERVED] + [(everyday, by_command), (everyday, by_nobody), (a_program, by_nobody)]
    return ([(f"page, {case.__name__} {serving.__name__}", on(case, serving, site.folder)) for case, serving in real] +
            [(f"page, {case.__name__}", on(case, plainly, feigned(site.folder))) for case in FEIGNED])


def store_buffering(page):
    page.choose("#library", "sb")
    same(page.said("#shows"), "Store buffering, atomic.")
    page.run()
    same(page.said("#verdict strong"), "sb: verdict never")
    same(page.said("#count"), "3 outcomes")
    same(page.said("#shown"), "shown: 3")
    same(page.rows(), ["1 doesn\u2019t meet 0 1", "2 doesn\u2019t meet 1 0", "3 doesn\u2019t meet 1 1"])
    page.click("tbody tr:nth-child(2)")
    page.drawn()
    same(page.said("#example-title"), "Outcome 2: A.r0=1 B.r0=0")
    same(page.said("#lines"), "outcome A.r0=1 B.r0=0\n  from A.1 B.0\n  from B.1 init[0]\n  order init[0..1] B.0 B.1 A.0 A.1")
    same(page.value("document.querySelector('#picture [data-name=\"A.1\"]').textContent"), "r0 = Atomics.load(U8, 1)A.1 #5 = 1")
    same(page.value("document.querySelector('#picture [data-name=\"A.0\"]').textContent"), "Atomics.store(U8, 0, 1)A.0 #4")
    same(page.value("document.querySelectorAll('#picture g.synchronizes rect').length"), 1)
    same(page.value("document.querySelector('#colours').textContent === document.querySelector('#text').value + '\\n'"), True)
    same(page.value("[...document.querySelectorAll('#colours .keyword')].map((each) => each.textContent).join(' ')"),
         "test bytes agent = agent = check == && ==")


def tearing(page):
    page.choose("#library", "tear")
    page.run()
    page.click("tbody tr:nth-child(2)")
    page.drawn()
    labels = page.value("[...document.querySelectorAll('#picture g.reads text')].map((text) => text.textContent)")
    same(sorted(labels), ["byte 0", "byte 1"])
    same(page.value("document.querySelector('.key .race').hidden"), False)


def sorted_and_filtered(page):
    page.take(litmus("teardv"))
    page.run()
    same(page.value("document.querySelectorAll('tr.meets').length"), 2)
    page.click("#sort-1")
    page.click("#sort-1")
    same(page.value("document.querySelector('th[aria-sort=descending]').innerText"), "C.r0 \u2193")
    same([row.split()[0] for row in page.rows()], ["9", "8", "7", "6", "5", "4", "3", "2", "1"])
    page.click("#met")
    same([row.split()[-1] for row in page.rows()], ["513", "258"])
    same(page.said("#shown"), "shown: 2, out of 9")
    page.choose("#filter-1", "258")
    same(len(page.rows()), 1)


def refused(page):
    page.take(litmus("sb").replace("r0 = Atomics.load(U8, 0)", "r0 = I8[0];"))
    page.click("#run")
    page.until("document.querySelector('#refusal p')")
    same(page.said("#verdict"), "The text is refused at line 12.")
    same(page.said("#numbers").split("\n")[10:13], ["11", "\u25b6 12", "13"])
    assert "Line 12: refused 3 syntax line 12" in page.said("#refusal") and "write: r0 = U8[0]" in page.said("#refusal")
    same(page.value("document.querySelector('#text').getAttribute('aria-invalid')"), "true")
    page.click("#take")
    same(page.value("document.querySelector('#text').value.split('\\n')[11]"), "r0 = U8[0]")
    page.run()
    same(page.said("#refusal"), "")
    page.take("none")
    page.click("#run")
    page.until("document.querySelector('#refusal p')")
    same(page.said("#numbers").strip(), "\u25b6 1")


def quick(page):
    page.take(litmus("sbplain"))
    page.click("#quick")
    page.told()
    same(page.said("#verdict strong"), "sbplain: verdict sometimes")
    same([row.split()[1:3] for row in page.rows()], [["\u2713", "meets"], ["doesn\u2019t", "meet"]])
    page.click("tbody tr")
    page.drawn()
    assert page.said("#lines").startswith("met outcome A.r0=0 B.r0=0\n")
    page.take(litmus("sb"))
    same(page.said("#stale"), "of the text before it was changed")


def turns(page):
    page.take(litmus("sb"))
    page.click("[data-agent=A]")
    page.until("document.querySelector('#interleaving')")
    page.click("#turns button")
    assert "run the test" in page.said("#turns")
    page.click("#clear")
    page.until("document.querySelector('#turns').innerText.includes('No turns')")
    page.run()
    for agent, schedule, values in (("A", "A", "A.r0=0 B.r0=1"), ("B", "A,B", "A.r0=1 B.r0=1")):
        page.click(f"[data-agent={agent}]")
        page.until(f"document.querySelector('#turns').innerText.includes('Turns: {schedule}, and then')")
        same(page.said("#interleaving"), f"interleaving {values}")
    page.choose("#filter-1", "0")
    page.click("#turns button")
    page.drawn()
    same(page.said("#example-title"), "Outcome 3: A.r0=1 B.r0=1")
    same(len(page.rows()), 3)
    page.click("#undo")
    page.until("document.querySelector('#turns').innerText.includes('Turns: A, and then')")
    page.click("#clear")
    page.until("document.querySelector('#turns').innerText.includes('No turns')")
    same(page.value("document.querySelector('#undo').disabled && document.querySelector('#clear').disabled"), True)


def by_keyboard(page):
    page.take(litmus("tear"))
    page.key("Enter", control=True)
    page.told()
    seen = []
    while "sort-1" not in seen:
        page.key("Tab")
        seen.append(page.focused())
        assert len(seen) < 40, seen
    for name in ("run", "quick", "A", "C", "met", "sort-0"):
        assert name in seen, (name, seen)
    page.key("Tab")
    same(page.focused(), "filter-1")
    page.key("Tab")
    same(page.focused(), "1")
    for key, number in (("ArrowDown", "2"), ("End", "7"), ("ArrowDown", "7"), ("ArrowUp", "6"), ("Home", "1"), ("ArrowDown", "2")):
        page.key(key)
        same((key, page.focused()), (key, number))
    outline = page.value("getComputedStyle(document.activeElement).outlineStyle + getComputedStyle(document.activeElement).outlineWidth")
    same(outline, "solid3px")
    page.key("Enter")
    page.drawn()
    same(page.said("#example-title"), "Outcome 2: C.r0=1")
    same(page.focused(), "2")
    for name in ("save-all", "save-outcomes", "fit", "save-svg", "save-png", "picture", "lines"):
        page.key("Tab")
        same(page.focused(), name)


def narrow_and_dark(page):
    page.window(360, 740)
    page.choose("#library", "sb8")
    page.run()
    page.click("tbody tr:nth-child(3) button")
    page.drawn()
    same(page.value(WIDE), False)
    same(page.value("document.querySelector('#picture').scrollWidth > document.querySelector('#picture').clientWidth"), False)
    page.click("#fit")
    same(page.value("document.querySelector('#picture').scrollWidth > document.querySelector('#picture').clientWidth"), True)
    page.click("#fit")
    page.window(1280, 900)
    light = page.value("getComputedStyle(document.body).backgroundColor")
    page.dark(True)
    page.until(f"getComputedStyle(document.body).backgroundColor !== {json.dumps(light)}")
    same(page.value("getComputedStyle(document.body).backgroundColor"), "rgb(13, 17, 23)")
    same(page.value("getComputedStyle(document.querySelector('#picture rect')).fill"), "rgb(13, 17, 23)")


def named_for_all(page):
    """Each thing that is worked with has a name, and the page's marks for those who hear it are there."""
    page.run()
    tree = page.ask("Accessibility.getFullAXTree")["nodes"]
    for node in tree:
        if node.get("role", {}).get("value") in ("button", "combobox", "textbox", "checkbox", "table", "image") and not node.get("ignored"):
            assert node.get("name", {}).get("value"), node
    same(page.value("document.querySelector('#verdict').getAttribute('aria-live')"), "polite")
    same(page.value("document.querySelectorAll('h1').length + document.documentElement.lang"), "1en")


def faults(page):
    """All faults of a text are shown, each with its line, and are taken at once."""
    page.take("Test t\nbytes 8\nagent A {\nta[0] = 1;\n}\nagent B\nflag = Atomics.load(ta, 0)\n"
              "if (flag == 1)\n{\ndatum = ta[1]\n}\ncheck datum == 1\n")
    page.click("#run")
    page.until("document.querySelector('#take-all')")
    same(page.value("[...document.querySelectorAll('.fault strong')].map((each) => each.innerText)"),
         [f"Line {n}: " for n in (1, 3, 4, 5, 7, 8, 10, 12)])
    same([line for line in page.said("#numbers").split("\n") if "\u25b6" in line], [f"\u25b6 {n}" for n in (1, 3, 4, 5, 7, 8, 10, 12)])
    same(page.said("#take-all"), "Take these 8 lines")
    page.click("#take-all")
    same(page.value("document.querySelector('#text').value"), "test t\nbytes 8\nagent A\nU32[0] = 1 // ta[0]: U32[0]\n\nagent B\n"
         "r0 = Atomics.load(U32, 0) // ta[0]: U32[0]\nif r0 == 1 {\n\nr1 = U32[1] // ta[1]: U32[1]\n}\ncheck B.r1 == 1\n")
    page.run()
    same(page.said("#verdict strong"), "t: verdict never")
    page.take("test t\nbytes 1\nagent A\nr0 = U8[0]\nif r0 == 1 {\nagent B\n}\ncheck A.r0 == 0;\n")
    page.click("#run")
    page.until("document.querySelector('#take-all')")
    page.click("#take-all")
    same(page.text(), "test t\nbytes 1\nagent A\nr0 = U8[0]\nif r0 == 1 {\n}\nagent B\n\ncheck A.r0 == 0\n")


def pasted(page):
    """Two arrays of JavaScript get cells of their own, and what stood there can be put back."""
    page.take(PASTED)
    page.click("#run")
    page.until("document.querySelector('#take-all')")
    page.click("#take-all")
    same(page.text(), "test mp\nbytes 8\nagent A\nU32[0] = 42 // data: U32[0]\nAtomics.store(U32, 1, 1) // flag: U32[1]\nagent B\n"
         "r0 = Atomics.load(U32, 1) // flag: U32[1]\nif r0 == 1 {\nr1 = U32[0] // data: U32[0]\n}\ncheck B.r0 == 1 && B.r1 != 42\n")
    page.run()
    same(page.said("#verdict strong"), "mp: verdict never")
    page.click("#put-back")
    same(page.text(), PASTED)
    assert page.value("document.querySelector('#put-back').hidden"), "it is offered again"


def noted(page):
    page.choose("#library", "corw")
    page.run()
    same(page.said("#notes li"), "Line 7 A can't read 1 into r0: A.r0 == 1 never holds")
    page.click("#notes button")
    same(page.value("document.activeElement.id"), "text")
    page.choose("#library", "sb")
    page.run()
    same(page.value("document.querySelector('#notes').hidden"), True)
    page.choose("#library", "seqlock-words")
    page.run()
    page.until("document.querySelector('#notes').innerText.includes('so it is in those of outcomes 5, 6, 7, 8, 9, 10 and others')")


def folded(page):
    """A test of the library has its comment folded to the first sentence, and the whole of it beside the editor."""
    page.choose("#library", "mp-words")
    same(page.text().split("\n")[:2],
         ["// Flag and data as an Int32Array has them, with the data read only where the flag is up.", "test mp_words"])
    same(page.value("document.querySelector('#why').open"), False)
    page.click("#why summary")
    assert page.said("#comment").endswith("all four bytes of the datum come from its store by coherent reads."), page.said("#comment")
    page.run()
    same(page.said("#verdict strong"), "mp_words: verdict never")
    page.click("#syntax summary")
    assert "r0 = Atomics.load(U32, 1)" in page.said("#syntax")


def everyday(page):
    """A test is written, run, and shown, with why, a race, a refusal with advice, and a link."""
    store_buffering(page)
    page.click("#show-why")
    page.until("document.querySelector('#lines').innerText.endsWith('so A.0 before itself')")
    page.take(litmus("mpplain").replace("U8[0] = 1", "U8[0] = 1;"))
    page.click("#run")
    page.until("document.querySelector('#take')")
    page.click("#take")
    page.run()
    page.click("#show-race")
    page.drawn()
    same(page.said("#lines").split("\n")[0], "mpplain: the first data race")
    page.open(page.link())
    same(page.text(), litmus("mpplain"))


def a_program(page):
    """JavaScript is run too."""
    check_javascript.run(page, check_javascript.HEAD + check_javascript.AGENTS)
    assert check_javascript.ANSWER in check_javascript.printed(page), check_javascript.printed(page)


SERVED = (everyday, store_buffering, tearing, sorted_and_filtered, refused, quick, turns, linked, linked_plainly, by_keyboard,
          narrow_and_dark, named_for_all, faults, pasted, noted, raced, asked_why, reasons, folded, saved, documents, opened, large,
          beyond_memory, without_workers, *check_answers.CASES, *check_javascript.CASES)
FEIGNED = (ended,)
