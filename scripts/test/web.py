#!/usr/bin/env python3
"""Builds examples/web, calls its functions in node, and opens its page in Chromium. The build needs the library of Rust for
wasm32-unknown-unknown, or Debian's packages, as scripts/test/machines.py says; the page needs Debian's package `chromium`.
"""
import functools
import http.server
import json
import os
import random
import re
import shutil
import sys
import threading

sys.path.insert(1, f"{sys.path[0]}/..")
from common import ROOT, ended, leave_out, left_out_without, missing, report, run
import machines

FOLDER, OUT = f"{ROOT}/examples/web", f"{ROOT}/out/web"
MACHINE = machines.Machine("wasm32-unknown-unknown", ("-Ctarget-feature=+simd128",), "wasm-ld")
Server = type("Server", (http.server.SimpleHTTPRequestHandler,), {"log_message": lambda *_: None})
# Reads pairs of lists of ids. Prints for each the bytes of both sets, their common ids, and what `open` returns without the last byte.
CALLER = """
import { readFileSync } from "node:fs";
const wasm = (await WebAssembly.instantiate(readFileSync(process.argv[1]))).instance.exports;
const write = (View, room, items) => new View(wasm.memory.buffer, room, items.length).set(items);
const bytesOf = (set) => Array.from(new Uint8Array(wasm.memory.buffer, wasm.encoding(set), wasm.byte_len(set)));
const opened = (bytes) => (write(Uint8Array, wasm.bytes(bytes.length), bytes), wasm.open());
function answer(lists) {
  const sets = lists.map((ids) => (write(Uint32Array, wasm.ids(ids.length), ids), wasm.pack()));
  if (sets.some((set) => set < 0)) return "refused";
  const bytes = sets.map(bytesOf);
  const both = wasm.intersect(...bytes.map(opened)), address = wasm.unpack(both);
  const ids = Array.from(new Uint32Array(wasm.memory.buffer, address, wasm.len(both)));
  return { bytes, ids, cut: opened(bytes[0].slice(0, -1)) };
}
console.log(JSON.stringify(JSON.parse(readFileSync(0, "utf8")).map(answer)));
"""
# A set, and its bytes in docs/FORMAT.md.
IDS, BYTES = [7, 9, 10, 300], [0x84, 7, 9, 1, 0, 0x84, 4]
# Below 10,000,000 there are 3,333,334 multiples of 3, 2,000,000 of 5 and 666,667 of 15.
COUNTS = {"Pack the first set": "3,333,334", "Open the second set": "2,000,000", "Intersect": "666,667"}


def in_node(wasm):
    """Checks answers of the functions against sets of Python."""
    made, cases = random.Random(7), [[IDS, [9, 11, 300]], [[], [4]], [[3, 3], [3]], [[0, 2**32 - 1], [5, 2**32 - 1]]]
    cases += [[sorted(made.sample(range(most), most // 2)) for _ in range(2)] for most in (100, 70_000)]
    cases.append([sorted(made.sample(range(0, 2**32, 1024), 50_000)) for _ in range(2)])
    done = run("node", "--input-type=module", "-e", CALLER, wasm, input=json.dumps(cases))
    if done.returncode:
        return [("node", done.stdout[-3000:])]
    answers = json.loads(done.stdout)
    checks = [("bytes", None if answers[0]["bytes"][0] == BYTES else f"{answers[0]['bytes'][0]}")]
    for number, (case, answer) in enumerate(zip(cases, answers, strict=True)):
        one, other = map(set, case)
        wanted = {"ids": sorted(one & other), "cut": -1}
        found = answer if answer == "refused" else {it: answer[it] for it in wanted}
        checks.append((f"case {number}", None if found == ("refused" if number == 2 else wanted) else str(found)[:300]))
    return checks


def opened(address):
    """The text of the page's status, and its rows, after its script ran in Chromium."""
    flags = ["--headless", "--no-sandbox", "--disable-gpu", f"--user-data-dir={OUT}/profile", "--virtual-time-budget=60000"]
    dom = run("chromium", *flags, "--dump-dom", address, timeout=300).stdout
    status = re.search(r'<p id="status"[^>]*>([^<]*)</p>', dom)
    rows = [re.findall(r"<td>([^<]*)", row) for row in re.findall(r"<tr>(<td>.*?)</tr>", dom)]
    return status[1] if status else dom[-1000:], {row[0]: row[1] for row in rows}


def in_browser(wasm):
    """Opens the page with its module, with an id that is none, and without the module."""
    folder = f"{OUT}/page"
    shutil.rmtree(folder, ignore_errors=True)
    os.makedirs(folder)
    shutil.copy(f"{FOLDER}/index.html", folder)
    with http.server.ThreadingHTTPServer(("127.0.0.1", 0), functools.partial(Server, directory=folder)) as server:
        threading.Thread(target=server.serve_forever, daemon=True).start()
        address = f"http://127.0.0.1:{server.server_port}/index.html"
        status, _ = opened(address)
        yield "page without web.wasm", None if status.startswith("web.wasm is missing") else status
        shutil.copy(wasm, folder)
        status, rows = opened(address)
        yield "page", None if status == "Both answers are equal." and COUNTS.items() <= rows.items() else f"{status} {rows}"
        status, _ = opened(f"{address}?first=1+4+6+9&second=4+x")
        yield "page with a wrong id", None if status == "'x' in the second set is not an id." else status
        server.shutdown()


def checks():
    try:
        wasm = f"{machines.built(MACHINE, FOLDER, f'{OUT}/target', '-j1')}/web.wasm"
    except machines.by_cargo.Failed as why:
        yield "build", str(why)
        return
    yield from in_node(wasm)
    if missing("chromium"):
        leave_out("the page", "since there is no chromium")
    else:
        yield from in_browser(wasm)


def main():
    if left_out_without("examples/web", "cargo", "rustc", "node", "wasm-ld"):
        return 0
    why = machines.lack(MACHINE)
    if why:
        leave_out("examples/web", why)
        return ended(0, 0)
    return report(checks())


if __name__ == "__main__":
    sys.exit(main())
