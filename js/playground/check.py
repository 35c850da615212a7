"""Plays the stories of the playground in headless Chromium (Debian's package), and compares what the page shows at their ends.

`--screenshot FILE` keeps a picture of the story `restart`, of the size `--size`: 1280,900 or for instance that of a phone, 390,844.
"""

import argparse
import functools
import html
import http.server
import pathlib
import re
import shutil
import subprocess
import sys
import tempfile
import threading

TOP = pathlib.Path(__file__).resolve().parent.parent.parent
# The locks of each tab at the end, and the generation of the broker.
ENDS = {
    "handover": (["", "holds db"], 1),
    "crash": (["dead", "dead", "holds db"], 1),
    "restart": (["", "holds db", "holds db"], 2),
    "late": (["holds db", ""], 1),
    "twice": (["", "holds db"], 1),
}
TRIES = 3


class Quiet(http.server.SimpleHTTPRequestHandler):
    def log_message(self, *_):
        pass


def chromium(url, *words):
    """Returns what Chromium prints. It has an hour of its own time for the page, which passes at once if nothing happens."""
    with tempfile.TemporaryDirectory() as profile:
        flags = ["--headless=new", "--no-sandbox", "--disable-gpu", f"--user-data-dir={profile}", "--virtual-time-budget=3600000"]
        ran = subprocess.run(["chromium", *flags, *words, url], capture_output=True, text=True, timeout=120, check=False)
    if ran.returncode:
        sys.exit(f"playground: chromium has failed with status {ran.returncode}: {ran.stderr.strip()[-300:]}")
    return ran.stdout


def shown(page):
    """Returns the locks of each tab, and the generation, in the text of a page."""
    tabs = []
    for attributes, card in re.findall(r'<article class="(tab[ \w]*)">(.*?)</article>', page, re.DOTALL):
        locks = re.findall(r'<li class="(?:held|waits)">(.*?) <button', card)
        tabs.append("dead" if "dead" in attributes else ", ".join(map(html.unescape, locks)))
    generation = re.search(r"broker of generation (\d+)", page)
    return tabs, int(generation[1]) if generation else None


def main():
    parser = argparse.ArgumentParser(description=__doc__, formatter_class=argparse.RawDescriptionHelpFormatter)
    parser.add_argument("--screenshot", metavar="FILE", type=pathlib.Path, help="where to keep a picture")
    parser.add_argument("--size", metavar="WIDTH,HEIGHT", default="1280,900", help="the size of the picture")
    given = parser.parse_args()
    if not shutil.which("chromium"):
        sys.exit("playground: there is no command `chromium`: install Debian's package chromium")
    server = http.server.ThreadingHTTPServer(("127.0.0.1", 0), functools.partial(Quiet, directory=TOP))
    threading.Thread(target=server.serve_forever, daemon=True).start()
    url = f"http://127.0.0.1:{server.server_port}/js/playground/?story="
    wrong = 0
    for story, end in ENDS.items():
        for _ in range(TRIES):
            page = chromium(url + story, "--dump-dom")
            # The title says that the story is over.
            if "<title>wlb playground: " in page:
                break
        found = shown(page)
        if found != (list(end[0]), end[1]):
            print(f"{story}: the page shows {found}, not {end}")
            wrong = 1
    if given.screenshot:
        chromium(url + "restart", f"--window-size={given.size}", f"--screenshot={given.screenshot.absolute()}")
    print("playground: " + ("a story has ended otherwise" if wrong else f"{len(ENDS)} stories have ended as they should"))
    sys.exit(wrong)


if __name__ == "__main__":
    main()
