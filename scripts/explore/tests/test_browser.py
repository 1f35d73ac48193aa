"""Search, links and folding in a real browser: Chromium without a window, over pages of a text that needs no program. A page
beside them does what a reader does, and writes down what it sees."""
import functools
import http.server
import os
import shutil
import subprocess
import sys
import tempfile
import threading
import unittest

sys.dont_write_bytecode = True
TOP = os.path.dirname(os.path.dirname(os.path.dirname(os.path.dirname(os.path.abspath(__file__)))))
sys.path.insert(0, os.path.join(TOP, "scripts"))

from explore.development import Development  # noqa: E402
from explore.site import Site  # noqa: E402

BROWSER = shutil.which("chromium") or shutil.which("chromium-browser")
SPEC = """delimiter $ ( $ $ ) $;
provable sort wff;
term im (a b: wff): wff; infixr im: $->$ prec 25;
--| Says less.
axiom ax_1 (a b: wff): $ a -> b -> a $;
axiom ax_mp (a b: wff): $ a -> b $ > $ a $ > $ b $;
theorem a1i (a b: wff): $ a $ > $ b -> a $;
theorem twice (a b c: wff): $ a $ > $ c -> b -> a $;
"""
TEXT = """(sort wff provable)
(term im ((a wff ()) (b wff ())) (wff ()))
(axiom ax_1 ((a wff ()) (b wff ())) () (im a (im b a)))
(axiom ax_mp ((a wff ()) (b wff ())) ((im a b) a) b)
(theorem a1i ((a wff ()) (b wff ())) ((h a)) (im b a) () (ax_mp (a (im b a)) (ax_1 (a b)) h))
(theorem twice ((a wff ()) (b wff ()) (c wff ())) ((h a)) (im c (im b a)) () (a1i ((im b a) c) (a1i (a b) h)))
"""
# Each step waits for what the one before it brought, and writes a line of what it sees.
READER = """<!doctype html><meta charset=utf-8><iframe id=view></iframe><pre id=said></pre><script>
const view = document.getElementById("view"), said = document.getElementById("said");
const say = text => (said.textContent += text + "\\n");
const inside = () => view.contentDocument;
const until = async ready => { while (!ready()) await new Promise(next => setTimeout(next, 20)); };
const whole = what => until(() => inside() && inside().readyState === "complete" && inside().querySelector(what));
const names = () => [...inside().querySelectorAll("#found a")].map(it => it.textContent).join(" ");
async function typed(words) {
  const box = inside().getElementById("find");
  box.value = words;
  box.dispatchEvent(new Event("input"));
  say(`${words}: ${names()}`);
}
async function read() {
  view.src = "index.html";
  await whole("#find");
  await typed("twice");
  await typed("c -> b->a");
  await typed("c -> (b -> a)");
  await typed("(");
  await typed("nothing like it");
  await typed("a1i");
  inside().querySelector("#found a").click();
  await whole("h1 small");
  say(`clicked: ${inside().querySelector("h1").lastChild.textContent}`);
  view.contentWindow.history.back();
  await whole("#find");
  say(`back: ${view.contentWindow.location.pathname}`);
  view.src = "index.html#find=twice";
  await until(() => names() === "twice");
  say("by address: twice");
  view.src = "theorems/twice.html";
  await whole(".fold");
  const hidden = () => [...inside().querySelectorAll("#steps tr[hidden]")].length;
  const cited = inside().querySelector("#steps tr:last-child td.n a");
  say(`over ${cited.textContent}: ${cited.title}`);
  const buttons = inside().querySelectorAll(".fold");
  buttons[buttons.length - 1].click();
  say(`folded: ${hidden()}`);
  buttons[buttons.length - 1].click();
  say(`unfolded: ${hidden()}`);
  view.src = "theorems/ax_1.html";
  await whole(".about");
  say(`about: ${inside().querySelector(".about").textContent}`);
  say("done");
}
read().catch(fault => say(`fault: ${fault}`));
</script>"""
SEEN = ["twice: twice", "c -> b->a: twice", "c -> (b -> a): twice", "(: ", "nothing like it: ", "a1i: a1i", "clicked: a1i", "back: /index.html", "by address: twice",
        "over a1i: a := b -> a; b := c", "folded: 1", "unfolded: 0", "about: Says less.", "done"]


class Quiet(http.server.SimpleHTTPRequestHandler):
    def log_message(self, *_):
        pass


@unittest.skipUnless(BROWSER, "there is no chromium")
class Browser(unittest.TestCase):
    def test_a_reader(self):
        with tempfile.TemporaryDirectory() as room:
            pages = os.path.join(room, "pages")
            axioms = {"a1i": ["ax_1", "ax_mp"], "twice": ["ax_1", "ax_mp"]}
            Site(Development("small", SPEC, TEXT, False, "accepted", axioms=axioms), pages).write()
            with open(os.path.join(pages, "reader.html"), "w", encoding="utf-8") as file:
                file.write(READER)
            server = http.server.ThreadingHTTPServer(("127.0.0.1", 0), functools.partial(Quiet, directory=pages))
            threading.Thread(target=server.serve_forever, daemon=True).start()
            try:
                words = [BROWSER, "--headless", "--no-sandbox", "--disable-gpu", f"--user-data-dir={room}/profile", "--virtual-time-budget=60000",
                         "--dump-dom", f"http://127.0.0.1:{server.server_port}/reader.html"]
                ran = subprocess.run(words, capture_output=True, text=True, timeout=240)
            finally:
                server.shutdown()
                server.server_close()
        said = ran.stdout.partition("<pre id=\"said\">")[2].partition("</pre>")[0].replace("&gt;", ">")
        self.assertEqual(said.split("\n")[:-1], SEEN, ran.stderr[-500:])


if __name__ == "__main__":
    unittest.main()
