"""What tools/check-page asks of the page's worker in a browser, as the page does, and of the package itself there."""
import hashlib
import json
import subprocess

from litmus.program import TOP, own
from trying.serving import litmus, reads, same

PART = 1000  # outcomes of a report that an answer has
REFUSED = ["", "\0" * 100, "// " + "x" * 65600, "test t\nbytes 1\nagent A\nr0 = I8[0];\n"]
# The package of npm with the site's module, within a bound of megabytes.
LOAD = """(async () => {
  const { load } = await import(URL.createObjectURL(new Blob([%s], { type: 'text/javascript' })));
  window.jslit = await load({ bytes: Uint8Array.from(atob(engine.module), (sign) => sign.charCodeAt(0)), most: %d << 20 });
})()"""
# Each call as an expression, with the status and a digest of its bytes; and as a command of one of the programs.
CALLS = {"check(text)": (0,), "quick(text)": (0, "--quick"), "schedule(text, 'A,B')": (0, "--schedule", "A,B"), "text(text)": (1,),
         "why(text)": (2,), "why(text, { question: 'unmet' })": (2, "--unmet"), "why(text, { question: 'race' })": (2, "--race"),
         "why(text, { json: true })": (2, "--json")}
TOLD = """(async (text) => {
  const hex = (bytes) => Array.from(new Uint8Array(bytes), (byte) => byte.toString(16).padStart(2, '0')).join('');
  const told = [];
  for (const { status, bytes } of [%s]) told.push([status, hex(await crypto.subtle.digest('SHA-256', bytes))]);
  return told;
})(%s)"""
# What the page has for `engine`, asked as it asks.
ASK = """new Promise((done, failed) => {
  window.bytes ??= Uint8Array.from(atob(engine.module), (sign) => sign.charCodeAt(0));
  window.tried ??= new Worker(URL.createObjectURL(new Blob([engine.worker])));
  tried.onmessage = ({ data }) => done(data);
  tried.onerror = ({ message }) => failed(new Error(message));
  tried.postMessage({ module: bytes, asked: %s });
})"""


def answer(page, kind, text, **given):
    return page.value(ASK % json.dumps({"kind": kind, "given": given, "text": text.encode().decode("latin1")}))


def printed(page, path):
    return subprocess.run([page.program, path], capture_output=True, text=True, check=True).stdout


def every_call(page):
    """Each text of litmus/ and some that are refused by each call of the package: the program's status and bytes."""
    programs = (page.program, own("jslit-text"), own("jslit-why"))
    page.value(LOAD % (json.dumps((TOP / "embed" / "npm" / "index.mjs").read_text()), 512))
    calls = ", ".join(f"jslit.{call}" for call in CALLS)
    for text in [*(path.read_text() for path in sorted((TOP / "litmus").rglob("*.lit"))), *REFUSED]:
        runs = [subprocess.run([programs[number], *words], input=text.encode(), capture_output=True) for number, *words in CALLS.values()]
        wanted = [[run.returncode, hashlib.sha256(run.stdout).hexdigest()] for run in runs]
        same((text, page.value(TOLD % (calls, json.dumps(text)))), (text, wanted))


def within_a_bound(page):
    """Seven values in each of eight registers don't fit into 64 MB; the next text is answered."""
    page.value(LOAD % (json.dumps((TOP / "embed" / "npm" / "index.mjs").read_text()), 64))
    same(page.value(f"jslit.check({json.dumps(reads(8, 6))}).status"), 3)
    same(page.value(f"jslit.check({json.dumps(litmus('sb'))}).status"), 0)


def every_test(page):
    """The bytes that the program prints, and what the page makes of them."""
    for path in sorted((TOP / "litmus").glob("*.lit")):
        text = printed(page, path)
        same((path.name, answer(page, "text", path.read_text(), examples=True)), (path.name, {"kind": "text", "text": text}))
        lines = text.split("\n")
        told = answer(page, "report", path.read_text(), skip=0)
        seen = [f"outcomes {told['count']}", f"verdict {told['verdict']}"] + ([f"data race {told['race']}"] if "race" in told else [])
        same((path.name, seen), (path.name, [line for line in lines if line.startswith(("outcomes ", "verdict ", "data race "))]))
        shown = ["outcome " + " ".join(f"{name}={value}" for name, value in each["values"]) for each in told["outcomes"]]
        same(shown, [line for line in lines if line.startswith("outcome ")][:PART])
        met = {each["meets"] for each in told["outcomes"]}
        same((path.name, met), (path.name, {"always": {True}, "never": {False}, "sometimes": {True, False}}[told["verdict"]]))


def quick_and_turns(page):
    told = answer(page, "quick", litmus("sbplain"))
    same((told["verdict"], [(each["group"], each["meets"]) for each in told["outcomes"]]), ("sometimes", [("met", True), ("unmet", False)]))
    told = answer(page, "schedule", litmus("sb"), turns="A,B")
    same((told["interleaving"], told["meets"]), ([["A.r0", 1], ["B.r0", 1]], "no"))
    same(answer(page, "schedule", litmus("sb"), turns="")["kind"], "schedule")
    same(answer(page, "schedule", litmus("sb"), turns="A,C")["said"], ["`C` is no agent of the test; its agents are A, B"])


def refusals(page):
    told = answer(page, "report", litmus("sb").replace("r0 = Atomics.load(U8, 0)", "r0 = I8[0];"), skip=0)
    same((told["refused"], told["line"], told["column"], told["write"]), ("refused 3 syntax line 12", 12, 5, "r0 = U8[0]"))
    told = answer(page, "quick", "test t\nbytes 4\nagent A\n" + "r0 = U8[0]\n" * 25 + "check A.r0 == 0\n")
    same((told["refused"], told["line"]), ("refused 14 too_many_events", None))
    assert "25 together" in told["said"][0]
    for line in ("U8[0] = 0x" + "f" * 60_000, "U8[" * 20_000, "check " + "(" * 60_000, "/*" * 30_000):
        told = answer(page, "quick", f"test t\nbytes 4\nagent A\n{line}\n")
        same((line[:10], told.get("refused")), (line[:10], "refused 3 syntax line 4"))
    told = answer(page, "quick", "test t\nbytes 4\nagent A\nflag = U8[0];\nif flag == 1 {\nU8[1] = 300\n}\ncheck flag == 1\n")
    same([(each["line"], each["number"], each["write"]) for each in [told, *told["more"]]],
         [(4, 3, "r0 = U8[0]"), (5, 3, "if r0 == 1 {"), (6, 8, None), (8, 3, "check A.r0 == 1")])
    same(answer(page, "quick", "test t\nbytes 4\nagent A\n" + "r0 = U8[0]\n" * 25 + "check A.r0 == 0\n")["more"], [])
    same(answer(page, "quick", " " * 65536)["refused"], "refused 12 missing_part line 1")
    same(answer(page, "text", "\0\xff" * 1000, examples=True)["text"], "refused 2 not_ascii line 1\n")


def texts(page):
    """A report's outcomes alone."""
    text = printed(page, TOP / "litmus" / "sb8.lit")
    short = "".join(line + "\n" for line in text.split("\n")[:-1] if not line.startswith("  "))
    same(answer(page, "text", litmus("sb8"), examples=False), {"kind": "text", "text": short})
    same(answer(page, "text", "test", examples=True)["text"], "refused 3 syntax line 1\n")


def pictures(page):
    outcome = answer(page, "report", litmus("tear"), skip=0)["outcomes"][1]
    drawn = answer(page, "picture", litmus("tear"), **outcome)
    same(drawn["kind"], "picture")
    texts = ["\n".join(box["lines"]) for box in drawn["boxes"]]
    for text in ("agent A", "agent B", "agent C", "r0 = U16[0]\nC.0 #4 = 1", "byte 0", "byte 1"):
        assert text in texts, (text, texts)
    same(sorted((edge["kind"], edge["arrow"]) for edge in drawn["edges"] if edge["arrow"] or edge["kind"] == "race"),
         [("race", False)] * 4 + [("reads", True)] * 2)


def asked_for_javascript(page):
    """What is asked for code: values of outcomes, and executions."""
    same(answer(page, "values", litmus("sb")),
         {"kind": "values", "registers": ["A.r0", "B.r0"], "outcomes": [[0, 1], [1, 0], [1, 1]], "race": False})
    same(answer(page, "values", "test t\n"), {"kind": "values", "refused": 12})
    same([each["clause"] for each in answer(page, "execution", litmus("sb"), sources="")["why"]["clauses"]], ["memory-order"])
    same(answer(page, "execution", litmus("sb"), sources="A.1=B.0 B.1=init[0]")["why"]["execution"]["order"],
         ["init[0]", "init[1]", "B.0", "B.1", "A.0", "A.1"])
    assert answer(page, "execution", "test t\n", sources="")["why"]["refused"].startswith("the text: refused 12"), "it isn't refused"
    same(answer(page, "execution", litmus("sb"), sources="--race")["kind"], "failed")


CASES = (every_call, within_a_bound, every_test, quick_and_turns, refusals, texts, pictures, asked_for_javascript)
