"""What tools/check-page asks of why a text has no outcome of a kind, and of its first data race: of the page's worker, and of the page."""
from trying.check_answers import answer
from trying.serving import litmus, same


def reasons(page):
    """Why there is no outcome, and the first data race: in a picture and in words; and what has neither."""
    drawn = answer(page, "why", litmus("sb"), unmet=False)
    same(drawn["lines"][:5], ["sb: never, 1 attempt", "refused by memory-order (29.7.4 sequentially consistent atomics)",
                              "from A.1 init[1]", "from B.1 init[0]", "1. A.0 before A.1: agent-order"])
    same(sorted(edge["kind"] for edge in drawn["edges"] if edge["arrow"]), ["reads"] * 2 + ["step"] * 4)
    same(answer(page, "why", litmus("own"), unmet=True)["lines"][0], "own: always, 1 attempt")
    same(answer(page, "why", litmus("mask"), unmet=True),
         {"kind": "failed", "said": "always: there is no attempt, since no path can make B.r0 != 0 true"})
    same(answer(page, "why", "test t\n", unmet=False)["refused"], "refused 12 missing_part line 1")
    drawn = answer(page, "race", litmus("mpplain"))
    same(drawn["lines"], ["mpplain: the first data race", "data race of A.0 and B.1", "from B.0 init[1]", "from B.1 A.0",
                          "order init[0] init[1] A.0 A.1 B.0 B.1", "data race A.0 and B.1", "A.0 writes byte 0", "B.1 reads byte 0",
                          "neither happens before the other", "neither is sequentially consistent"])
    same([edge["arrow"] for edge in drawn["edges"] if edge["kind"] == "least"], [False] * 2)
    same(answer(page, "race", litmus("sb")), {"kind": "failed", "said": "no execution has a data race"})
    told = answer(page, "racing", litmus("mpplain"))["pairs"]
    same(told, [[{"name": "A.0", "line": 7, "code": "U8[0] = 1"}, {"name": "B.1", "line": 11, "code": "r1 = U8[0]"}]])


def raced(page):
    """The verdict's box says whether there is a data race, and which accesses are in one."""
    page.take(litmus("mpplain"))
    page.run()
    same(page.said("#race"), "data race yes")
    page.until("document.querySelector('#racing').innerText.startsWith('as in')")
    same(page.said("#racing"), "as in the first execution with one: U8[0] = 1 (A.0, line 7) and r1 = U8[0] (B.1, line 11)")
    same(page.value("document.querySelector('#show-why')"), None)
    page.value("document.querySelector('#run').focus()")
    page.tab_to("show-race")
    page.key("Enter")
    page.drawn()
    same((page.focused(), page.said("#example-title")), ("example-title", "The first execution with a data race"))
    same(page.value("[...document.querySelectorAll('#picture g.least text')].map((each) => each.textContent)"), ["least racing pair"])
    same(page.said("#lines").split("\n")[-2:], ["neither happens before the other", "neither is sequentially consistent"])
    page.take(litmus("sb"))
    page.run()
    same(page.said("#racing"), "no execution has one")
    same(page.value("document.querySelector('#show-race')"), None)
    page.click("#quick")
    page.until("document.querySelector('#verdict').innerText.includes('doesn\u2019t say whether there is a data race')")


def asked_why(page):
    """Why no outcome meets the condition, or fails it, by the keyboard alone; and a picture with another's lines no more."""
    page.take(litmus("sb"))
    page.key("Enter", control=True)
    page.told()
    page.tab_to("show-why")
    same(page.said("#show-why"), "Why not?")
    page.key("Enter")
    page.drawn()
    same(page.focused(), "example-title")
    same(page.said("#example-title"), "Why not: an attempt to meet the condition")
    same(page.said("#lines-title"), "In words")
    same(page.said("#lines").split("\n")[-1], "so A.0 before itself")
    same(page.value("document.querySelectorAll('#picture g.step rect').length"), 4)
    same(page.value("[...document.querySelectorAll('#legend [data-kind]:not([hidden])')].map((each) => each.dataset.kind)"), ["step"])
    same(page.value("document.querySelector('#picture svg').getAttribute('aria-label')"),
         "Why not: an attempt to meet the condition. The lines below say the same.")
    page.tab_to("save-svg")
    page.click("tbody tr button")
    page.drawn()
    same((page.said("#lines-title"), page.said("#lines").split(" ")[0]), ("In the report", "outcome"))
    page.take(litmus("own"))
    page.run()
    same(page.said("#show-why"), "Why always?")
    page.click("#show-why")
    page.drawn()
    same(page.said("#lines").split("\n")[:2], ["own: always, 1 attempt", "refused by coherent-reads (29.7.2 coherent reads)"])
    same(page.value("document.querySelectorAll('#picture g.refused rect').length"), 1)
    page.take(litmus("mask"))
    page.run()
    page.click("#show-why")
    page.until("document.querySelector('#picture').innerText.includes('there is no attempt')")
