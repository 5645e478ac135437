"""Compares the page's replies with those of the program, byte for byte, and the statuses."""
import base64
import json
import pathlib
import subprocess
import tempfile
import time

import cases
import doors

AT_ONCE = 100  # requests that the page is given at once
TOGETHER = 2000  # requests whose replies are compared together

# In the page: requests, each of words and of files with their bytes in base64. Its answers are their replies, with texts in base64.
ASK = """(async () => {
  const from = text => Uint8Array.from(atob(text), c => c.charCodeAt(0));
  const to = bytes => { let text = ''; for (const b of bytes) text += String.fromCharCode(b); return btoa(text); };
  const replies = [];
  for (const [words, files] of %s) {
    const { status, out, err, made, took } = await window.page.ask(words, Object.entries(files).map(([name, text]) => ({ name, bytes: from(text) })));
    replies.push([status, ...[out, err, made].map(to), took]);
  }
  return replies;
})()"""


def asked(browser, all_cases):
    """What the page answers: pairs of a reply and of the milliseconds that it took."""
    encoded = [[words, {name: base64.b64encode(data).decode() for name, data in files.items()}] for words, files in all_cases]
    for status, *texts, took in browser.run(ASK % json.dumps(encoded)):
        yield doors.Reply(status, *map(base64.b64decode, texts)), took


def by_page(browser, all_cases):
    """The replies of the page."""
    batches = (all_cases[first:first + AT_ONCE] for first in range(0, len(all_cases), AT_ONCE))
    return [reply for batch in batches for reply, _ in asked(browser, batch)]


def compared(browser, program, what, all_cases):
    """How many replies of the page differ from those of the program."""
    all_cases = list(all_cases)
    parts = [all_cases[first:first + TOGETHER] for first in range(0, len(all_cases), TOGETHER)]
    return sum(doors.compared(browser.name, what, part, by_page(browser, part), doors.by_program(program, part)) for part in parts)


def largest(browser, program):
    """Large returns under each statute: the same replies, and the best of five times that both take."""
    wrong = 0
    for what, returns in (("the largest returns", cases.largest()), ("wide returns", cases.wide())):
        all_cases = [cases.request("count --quiet book returns", "@" + law, returns) for law in cases.LAWS]
        wrong += compared(browser, program, what, all_cases)
        for case in all_cases:
            times = min(took for _ in range(5) for _, took in asked(browser, [case])), min(program_times(program, case))
            print("%s, %s by %s: %.0f ms, the program %.0f ms" % (browser.name, what, case.words[2], *times), flush=True)
    return wrong


def program_times(program, case):
    """Five times of the program, in milliseconds."""
    with tempfile.TemporaryDirectory() as folder:
        for name, data in case.files.items():
            (pathlib.Path(folder) / name).write_bytes(data)
        for _ in range(5):
            began = time.perf_counter()
            subprocess.run([program, *case.words], cwd=folder, stdout=subprocess.DEVNULL)
            yield (time.perf_counter() - began) * 1000
