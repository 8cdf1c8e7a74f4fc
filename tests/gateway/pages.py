"""Cases of the page and /metrics. They are skipped, with a line that says so, where aiohttp is missing."""

import os
import re
import shutil
import subprocess
import time
import urllib.error
import urllib.request

from gateway.clients import NETWORK_TEST, Client, request, reversal
from gateway.fronts import served
from gateway.served import Wrong, awaited, python, wanted

SAMPLE = re.compile(r'[a-z_]+(\{[a-z_]+="[^"]*"(,[a-z_]+="[^"]*")*\})? -?[0-9.e+-]+')
COMMENT = re.compile(r"# (HELP [a-z_]+ .+|TYPE [a-z_]+ (gauge|counter|summary))")
WEB = ("--web", "127.0.0.1:0")


def is_skipped():
    asked = subprocess.run([python(), "-c", "import aiohttp"], capture_output=True, check=False)
    if asked.returncode:
        print("skipped: no aiohttp, so there is no page", flush=True)
    return asked.returncode != 0


def read(url, path="", host=None):
    headers = {"Host": host} if host else {}
    with urllib.request.urlopen(urllib.request.Request(url + path, headers=headers), timeout=10) as answer:
        return answer.read().decode()


def samples(text):
    """The samples of /metrics, by their names and labels."""
    for line in text.splitlines():
        if not SAMPLE.fullmatch(line) and not COMMENT.fullmatch(line):
            raise Wrong(f"/metrics: a line of no known form: {line!r}")
    pairs = (line.rpartition(" ") for line in text.splitlines() if not line.startswith("#"))
    return {name.removeprefix("cardswitch_gateway_"): float(value) for name, _, value in pairs}


def asked(gateway):
    """Some requests of all kinds; the client stays."""
    client = Client(gateway.port)
    for card in range(6):
        wanted("approved", client.ask(request(card, 2))[1][39], b"00")
    client.ask(reversal(1, 2))
    wanted("an amount of zero", client.ask(request(9, 3, amount=0))[1][39], b"00" if is_fake(gateway) else b"13")
    client.ask(NETWORK_TEST)
    return client


def is_fake(gateway):
    return any("fake" in word for word in gateway.words)


def metrics(bench):
    """/metrics has the form that Prometheus reads, and counts what was asked."""
    if is_skipped():
        return
    with served(bench, *WEB) as (gateway, _):
        url, client = gateway.events("page")[0]["url"], Client(gateway.port)
        before = samples(read(url, "metrics"))
        other = asked(gateway)
        after = samples(read(url, "metrics"))
        wanted("requests", after["requests_total"] - before["requests_total"], 9)
        wanted("answers", after["response_seconds_count"] - before["response_seconds_count"], 9)
        wanted("clients", after["clients"] - before["clients"], 1)
        wanted("in flight", [after[f'engine_in_flight{{engine="{it}"}}'] for it in "01"], [0, 0])
        wanted("the issuer", after['issuer_up{issuer="alpha"}'], 1)
        if not 0 < after['response_seconds{quantile="0.99"}'] < 15:
            raise Wrong(f"the percentile: {after}")
        for its in client, other:
            its.close()


def page(bench):
    """The page shows engines, the issuer and the last transactions, and no card number; it answers to the loopback
    alone."""
    if is_skipped():
        return
    with served(bench, *WEB) as (gateway, _):
        url, client = gateway.events("page")[0]["url"], asked(gateway)
        text = read(url)
        for part in (
            "<td>400000******0005</td>",
            "<td>000002</td>",
            "<td>0400</td>",
            ">ready</span>",
            ">connected</span>",
        ):
            if part not in text:
                raise Wrong(f"the page has no {part}")
        wanted("card numbers", re.findall(r"\d{12,19}", re.sub(r"<style>.*</style>", "", text)), [])
        for path, host, want in ("nothing", None, 404), ("path/0/99999", None, 404), ("", "example.com", 403):
            try:
                read(url, path, host)
                raise Wrong(f"{path!r} as {host}: an answer, wanted {want}")
            except urllib.error.HTTPError as fault:
                wanted(f"{path!r} as {host}", fault.code, want)
        client.close()


def path_of_a_transaction(bench):
    """Each transaction has a picture of its path through the flow; the pages are looked at in Chromium where there is
    one."""
    if is_skipped():
        return
    with served(bench, *WEB, "--paths") as (gateway, _):
        if is_fake(gateway):
            return print("skipped: the engine of the tests writes no trace", flush=True)
        url, client = gateway.events("page")[0]["url"], asked(gateway)
        rows = awaited("a path for each", lambda: rows_of(read(url), 9))
        picture = read(url, next(path for row, path in rows if ">0100<" in row and ">00<" in row).lstrip("/"))
        for entry in "check", "limits", "route", "reverse", "query_alpha", "forward", "respond":
            if not re.search(rf'class="taken"[^>]*/><text[^>]*>{entry}', picture):
                raise Wrong(f"the picture of an approval does not show that {entry} was called")
        if not re.search(r'class="passed"[^>]*/><text[^>]*>query_beta', picture):
            raise Wrong("the picture does not show that query_beta was not called")
        refused = next(path for row, path in rows if ">13<" in row)
        looked_at(bench, {"page": url, "path": url + rows[-1][1].lstrip("/"), "refused": url + refused.lstrip("/")})
        client.close()


def rows_of(text, number):
    """The rows of the transactions with their paths, once so many have one."""
    rows = re.findall(r'(<tr>(?:(?!</tr>).)*)<a href="(/path/[^"]+)"', text)
    return rows if len(rows) >= number and any(">13<" in row for row, _ in rows) else None


def looked_at(bench, pages):
    """Takes a picture of each page by Chromium. A page that failed to load is no picture of the size of a page."""
    chromium = shutil.which("chromium")
    if chromium is None:
        return print("skipped: no chromium looks at the page", flush=True)
    os.makedirs(bench.shots, exist_ok=True)
    for name, url in pages.items():
        shot = os.path.join(bench.shots, f"gateway-{name}.png")
        command = [chromium, "--headless", "--no-sandbox", "--disable-gpu", f"--user-data-dir={bench.room}/chromium"]
        command += ["--window-size=1200,900", "--virtual-time-budget=2500", f"--screenshot={shot}", url]
        began = time.time()
        ran = subprocess.run(command, capture_output=True, timeout=60, check=False)
        if (
            ran.returncode
            or not os.path.exists(shot)
            or os.path.getmtime(shot) < began - 1
            or os.path.getsize(shot) < 10_000
        ):
            raise Wrong(f"chromium took no picture of the {name}: {ran.stderr[-300:]!r}")


CASES = [metrics, page, path_of_a_transaction]
