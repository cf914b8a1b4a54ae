"""What tools/check-page asks of JavaScript on the page: that it is answered as jslit-js answers it, and that hostile code is stopped."""
import base64
import contextlib
import hashlib
import pathlib
import re
import subprocess
import tempfile

from litmus.program import TOP
from trying.serving import Quiet, answering, same

SAMPLES = TOP / "shared" / "javascript" / "js" / "samples"
ENDED = "document.querySelector('#verdict.is-told, #verdict.is-failed, #verdict.is-stopped')"
HEAD = "const m = new Int32Array(new SharedArrayBuffer(8));\n"
AGENTS = "agents({ A() { Atomics.store(m, 0, 1); }, B() { return Atomics.load(m, 0); } });\n"
ANSWER = "outcome  B: 0\noutcome  B: 1\noutcomes 2\ndata race no\n"
# What is left of the browser in the worker: constants alone. Then what the host of agents gives.
GIVEN = """$262 PERSISTENT TEMPORARY URL Worker agents assert close console crypto exports importScripts EventSource WebSocket fetch module
  performance queueMicrotask requestAnimationFrame require self setImmediate setInterval setTimeout structuredClone XMLHttpRequest
  """.split()


def tutorial():
    """The programs of the tutorial that `jslit-js` is shown on: their names and texts."""
    text = (TOP / "docs" / "TUTORIAL.md").read_text()
    return [(name, code) for name, code in re.findall(r"Put this into `(\w+)\.js`:\n\n```js\n(.*?)```", text, re.S) if "agents({" in code]


def by_command(page, code, *words, use=None):
    """What jslit-js prints of this code, by the names that the page has for files."""
    with tempfile.TemporaryDirectory() as folder:
        given = [pathlib.Path(folder) / name for name in ("program.js", "harness.js")]
        given[0].write_text(code)
        given[1].write_text(use or "")
        harness = ["--use", given[1]] if use else []
        return subprocess.run([TOP / "bin" / "jslit-js", "--program", page.program, *words, *harness, given[0]],
                              capture_output=True, text=True).stdout


def ended(page):
    """Waits for an answer as long as the page does."""
    for tries in range(4):
        try:
            return page.until(ENDED)
        except TimeoutError:
            if tries == 3:
                raise


def run(page, code):
    page.take(code)
    page.until("document.documentElement.dataset.language === 'javascript'")
    page.click("#run")
    ended(page)


def printed(page):
    assert page.value("document.querySelector('#verdict').className") == "is-told", page.said("#verdict") + page.said("#refusal")
    return page.value("document.querySelector('#printed').textContent") + "\n"


def steps(page):
    page.until("document.querySelector('#steps').textContent && document.querySelector('#steps').textContent !== 'Asking for it.'")
    return page.value("document.querySelector('#steps').textContent")


def programs(page):
    """A seqlock, a ring buffer and a lock, each with its example or reason."""
    told = {}
    for name, code in tutorial():
        run(page, code)
        same(page.said("#taken"), "taken for JavaScript")
        told[name] = by_command(page, code)
        same((name, printed(page)), (name, told[name]))
        if name == "ring":
            same(page.said("#verdict strong"), "check sometimes, fails in 1 of 3")
            page.click("#program-table tbody tr:nth-child(1) button")
            assert steps(page).split("\n")[:8] == told[name].split("\n")[1:9], steps(page)
            page.value("document.querySelector('#words').value = 'audio: true, main: 7'")
            page.click("#ask-outcome button")
            page.until("document.querySelector('#steps').textContent.startsWith('no such outcome')")
            same(steps(page) + "\n", by_command(page, code, "--outcome", "audio: true, main: 7"))
        if name == "lock":
            page.click("#show-hang-0")
            assert "\n".join(steps(page).split("\n")) in told[name]
            page.click("#show-why")
            page.until("document.querySelector('#steps').textContent.startsWith('why: ')")
            assert steps(page) in by_command(page, code, "--why")
    same(sorted(told), ["lock", "ring", "seqlock"])


def linked_program(page):
    """A link holds the code, its language and its harness."""
    code, use = ((SAMPLES / name).read_text() for name in ("peterson.js", "peterson.use.js"))
    packed = [base64.urlsafe_b64encode(text.encode()).decode().rstrip("=") for text in (code, use)]
    page.open(f"{page.address}#js={packed[0]}&use={packed[1]}")
    same(page.text(), code)
    same(page.value("document.querySelector('#use').value"), use)
    same(page.value("document.documentElement.dataset.language + document.querySelector('#verdict').className"), "javascriptis-nothing")
    page.click("#run")
    ended(page)
    same(printed(page), by_command(page, code, use=use))
    page.take("agents")
    page.choose("#language", "javascript")
    page.until("location.hash.startsWith('#js=YWdlbnRz')")
    page.open(page.value("location.href"))
    same(page.value("document.querySelector('#language').value"), "javascript")
    page.choose("#language", "")
    page.until("location.hash.startsWith('#t=')")


@contextlib.contextmanager
def listening():
    """An address that notes who comes."""
    seen = []

    class Handler(Quiet):
        def do_GET(self):
            seen.append(self.path)
            self.send_response(204)
            self.end_headers()

    with answering(Handler) as address:
        yield address, seen


def hostile(page):
    """Each is stopped with a word, and the page goes on."""
    made = "const made = (text) => (() => 0).constructor(text)();\n"
    with listening() as (address, seen):
        for code, words in (
                (f"while (true);\n{AGENTS}", "Stopped: main runs for five seconds without an end."),
                ("agents({ A() { while (true); } });\n", "this loop never ends: nothing that it looks at changes"),
                ("agents({ A() { for (let k = 0; ; k += 1); } });\n", "Stopped: the agent A runs for five seconds without an end."),
                (f"const all = [];\nfor (let k = 0; k < 128; k += 1) all.push(new Array(1 << 20).fill(k + 0.5));\nwhile (true);\n{AGENTS}",
                 "Stopped: main runs for five seconds without an end."),
                (f"fetch({address!r});\n{AGENTS}", "`fetch` isn't followed"),
                (f"{made}made({f'return fetch({address!r})'!r});\n{AGENTS}", "`fetch` isn't followed"),
                (f"new WebSocket({address!r});\n{AGENTS}", "`WebSocket` isn't followed"),
                (f"importScripts({address!r});\n{AGENTS}", "`importScripts` isn't followed"),
                (f"parent.postMessage('told', '*');\n{AGENTS}", "`parent` is declared nowhere"),
                (f"postMessage({{ told: 1 }});\n{AGENTS}", "postMessage is not defined here"),
                (f"{made}made('return globalThis').postMessage('told');\n{AGENTS}", "postMessage is not a function")):
            run(page, HEAD + code)
            shown = page.said("#verdict") + page.said("#refusal")
            assert words in shown, (code, shown)
            same((code, page.value("document.querySelectorAll('iframe').length") > 0), (code, not words.startswith("Stopped")))
        # What no word stops, since it has no place in the code, the frame's policy stops.
        run(page, f"{HEAD}{made}made({f'import({address!r}).catch(() => 0)'!r});\n{AGENTS}")
        assert ANSWER in printed(page), printed(page)
        same(seen, [])


def nothing_of_the_browser(page):
    """The worker has what ECMAScript has, and what agents are given."""
    run(page, f"""{HEAD}const names = new Set();
for (let at = globalThis; at !== null && at !== Object.prototype; at = Object.getPrototypeOf(at)) {{
  for (const name of Object.getOwnPropertyNames(at)) names.add(name);
}}
throw new Error([...names].filter((name) => !/^__/.test(name)).join(' '));
{AGENTS}""")
    names = re.search("before any agent is started: Error: (.*)", page.said("#refusal"))[1].split()
    node = "console.log(new (require('vm').Script)('Object.getOwnPropertyNames(globalThis).join(` `)').runInNewContext())"
    known = subprocess.run(["node", "-e", node], capture_output=True, text=True, check=True).stdout.split()
    same(sorted(set(names) - set(known) - set(GIVEN) - {"Iterator", "names", "Float16Array"}), [])
    same(page.value("document.querySelector('iframe').getAttribute('sandbox')"), "allow-scripts")


def frame_that_is_gone(page):
    """An answer is kept, and what is asked about it is told that the code is gone."""
    run(page, HEAD + AGENTS)
    page.value("document.querySelector('iframe').src = 'about:blank'")
    page.until("document.querySelector('#steps').textContent.includes('the frame with the code is gone')")
    page.click("#program-table tbody tr:nth-child(1) button")
    same(steps(page), "The code is no longer there: run it again.")
    page.click("#run")
    page.until("document.querySelector('iframe') && document.querySelector('#verdict.is-told')")
    assert ANSWER in printed(page)


def framed(page):
    """The frame's policy allows its own script, and no network; a frame that has an origin starts no worker."""
    body = (page.site.folder / "sandbox.html").read_text()
    policy = re.search('<meta http-equiv="Content-Security-Policy" content="([^"]*)">', body)[1]
    digest = base64.b64encode(hashlib.sha256(re.search("<script>(.*)</script>", body, re.S)[1].encode()).digest()).decode()
    same(policy.split("; "), ["default-src 'none'", f"script-src 'sha256-{digest}' 'unsafe-eval'", "worker-src blob:"])
    page.value("""(() => { const frame = document.createElement('iframe'); frame.src = 'sandbox.html'; frame.onload = () => {
      const [work, life] = [new MessageChannel(), new MessageChannel()];
      life.port1.onmessage = () => { window.lives = true; };
      frame.contentWindow.postMessage(null, '*', [work.port2, life.port2]);
      life.port1.postMessage(null);
      setTimeout(() => { window.waited = true; }, 500);
    }; document.body.append(frame); })()""")
    page.until("window.waited")
    same(page.value("window.lives === undefined"), True)


CASES = (framed, programs, linked_program, hostile, nothing_of_the_browser, frame_that_is_gone)
