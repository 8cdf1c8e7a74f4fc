"""Cases of the examples: the units of systemd, TLS before the gateway, and the commands of
docs/operate/SCALING.md."""

import configparser
import contextlib
import os
import re
import shutil
import socket
import ssl
import subprocess

from cardgate.process import ends_with
from model import messages

from gateway import rabbit
from gateway.clients import NETWORK_TEST
from gateway.fronts import served
from gateway.served import GATEWAY, SECONDS, TOP, Wrong, awaited, python, wanted

PAGE = os.path.join(TOP, "docs", "operate", "SCALING.md")


def units_of_systemd(bench):
    """Each unit is a file of systemd, and starts the gateway with options that it has."""
    from cardgate.command import FORMS
    from cardgate.options import Form, parser_of

    folder = os.path.join(GATEWAY, "systemd")
    for name in sorted(os.listdir(folder)):
        unit = configparser.ConfigParser(interpolation=None, strict=False)
        unit.optionxform = str
        unit.read(os.path.join(folder, name))
        program, script, *words = unit["Service"]["ExecStart"].replace("\\\n", " ").split()
        wanted(f"{name}: its command", [program, script], ["/usr/bin/python3", "/opt/woadspindle/contrib/gateway"])
        form = FORMS.get(words[0], Form.HERE)
        given = parser_of(form).parse_args(words if form is Form.HERE else words[1:])
        has_engines = form is not Form.FRONT
        wanted(f"{name}: KillMode", unit["Service"].get("KillMode"), "mixed" if has_engines else None)
        if float(unit["Service"]["TimeoutStopSec"]) < (2 if has_engines else 1) * given.patience:
            raise Wrong(f"{name}: TimeoutStopSec is shorter than the gateway's patience")


def certificate(folder, name):
    """A certificate that signs itself, with its key, in one file."""
    key, made, both = (os.path.join(folder, f"{name}.{it}") for it in ("key", "crt", "pem"))
    command = ["openssl", "req", "-x509", "-newkey", "rsa:2048", "-nodes", "-days", "1", "-keyout", key, "-out", made]
    command += ["-subj", f"/CN={name}", "-addext", f"subjectAltName=DNS:{name}"]
    subprocess.run(command, capture_output=True, check=True, timeout=30)
    with open(both, "wb") as file:
        for path in made, key:
            with open(path, "rb") as part:
                file.write(part.read())
    return both


@contextlib.contextmanager
def fronted(bench, gateway, port):
    """haproxy with the example's configuration, on a port of the loopback."""
    with open(os.path.join(GATEWAY, "tls", "haproxy.cfg"), encoding="utf-8") as file:
        text = file.read().replace("bind :8584", f"bind 127.0.0.1:{port}").replace(":8583", f":{gateway.port}")
    path = os.path.join(bench.room, "haproxy.cfg")
    with open(path, "w", encoding="utf-8") as file:
        file.write(text.replace("/etc/cardswitch", bench.room))
    command = [shutil.which("haproxy") or "", "-db", "-f", path]
    with subprocess.Popen(command, stderr=subprocess.DEVNULL, preexec_fn=ends_with(os.getpid())) as proxy:
        try:
            awaited("haproxy listens", lambda: rabbit.accepts(port))
            yield
        finally:
            proxy.terminate()


def over_tls(bench):
    """A client with a certificate is served behind the example's haproxy; one without is not."""
    if not shutil.which("haproxy") or not shutil.which("openssl"):
        return print("skipped: no haproxy, or no openssl, for TLS", flush=True)
    front, client = certificate(bench.room, "front"), certificate(bench.room, "clients")
    (port,) = rabbit.free_ports(1)
    with served(bench) as (gateway, _), fronted(bench, gateway, port):
        context = ssl.create_default_context(cafile=front)
        context.load_cert_chain(client)
        with socket.create_connection(("127.0.0.1", port), SECONDS) as bare:
            with context.wrap_socket(bare, server_hostname="front") as secure:
                secure.sendall(messages.framed(NETWORK_TEST))
                wanted("the answer", secure.recv(1000)[4:8], b"0810")
        without = ssl.create_default_context(cafile=front)
        try:
            with socket.create_connection(("127.0.0.1", port), SECONDS) as bare:
                with without.wrap_socket(bare, server_hostname="front") as secure:
                    secure.sendall(messages.framed(NETWORK_TEST))
                    wanted("an answer without a certificate", secure.recv(1000), b"")
        except (ssl.SSLError, ConnectionError):
            pass


def blocks_of_the_page():
    """The fenced blocks of commands of the page."""
    with open(PAGE, encoding="utf-8") as file:
        return re.findall(r"^```sh\n(.*?)^```$", file.read(), re.DOTALL | re.MULTILINE)


def by_the_page(bench):
    """The first two blocks of the page: one command starts the gateway, the other asks it the example's requests."""
    begin, ask = blocks_of_the_page()[:2]
    port, web = rabbit.free_ports(2)
    log = os.path.join(bench.room, "log")
    # (only the place of Python, of the program and of the ports is another one)
    begin = begin.replace("python3 ", f"exec {python()} ", 1).strip()
    begin += f" --program {bench.program} --listen 127.0.0.1:{port} --web 127.0.0.1:{web} --folder {bench.room}/engines"
    with open(log, "wb") as file:
        streams = {"stderr": file, "stdin": subprocess.DEVNULL}
        gateway = subprocess.Popen(["sh", "-c", begin], cwd=TOP, preexec_fn=ends_with(os.getpid()), **streams)
    try:
        awaited("the gateway is ready", lambda: b'"ready"' in contents(log))
        os.symlink(bench.program, os.path.join(bench.room, "cardswitch"))
        ask = ask.replace("8583", str(port)).replace("| out/cardswitch decode", "")
        answer = subprocess.run(["bash", "-c", ask], cwd=TOP, capture_output=True, timeout=30, check=False)
        wanted("what it says", answer.stderr, b"")
        with open(os.path.join(TOP, "examples", "responses.frames"), "rb") as file:
            want = sorted(messages.frames(file.read()))
        got = sorted(messages.frames(answer.stdout))
        if "fake" in bench.program:
            got, want = len(got), len(want)
        wanted("the responses", got, want)
        gateway.terminate()
        wanted("the status", gateway.wait(SECONDS), 0)
    finally:
        gateway.kill()
        gateway.wait()


def contents(path):
    with open(path, "rb") as file:
        return file.read()


def options_of_the_page(bench):
    """Each option that the page names is one of the gateway, and each option of the gateway is on the page."""
    from cardgate.options import Form, parser_of

    with open(PAGE, encoding="utf-8") as file:
        text = file.read()
    known = {it for form in Form for action in parser_of(form)._actions for it in action.option_strings}
    known = {it for it in known if it.startswith("--")}
    others = {"--header", "--unordered", "--threads", "--sessions", "--journal", "--trace", "--log", "--fake", "--help"}
    named = set(re.findall(r"(?<![\w-])--[a-z][a-z-]*", text))
    wanted("options that the gateway does not have", sorted(named - known - others), [])
    wanted("options that the page does not name", sorted(known - named - {"--help"}), [])


CASES = [units_of_systemd, over_tls, by_the_page, options_of_the_page]
