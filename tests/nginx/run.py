#!/usr/bin/env python3
"""usage: tests/nginx/run.py [--library PREFIX]

Builds embed/nginx as its README says and tries it in Debian's nginx, on sockets in a folder of its own: a rule over
requests, filters over bodies of up to 5 MB beside what sandbox and Python say of them, a rule that breaks, and images
that `nginx -t` has to refuse.

PREFIX is where a library is laid out already; else tools/release/library lays one out. It needs Debian's nginx and
nginx-dev, and gcc-sparc64-linux-gnu for the rules from C."""
import http.client
import os
import random
import re
import shutil
import signal
import socket
import subprocess
import sys
import tempfile
import time

sys.dont_write_bytecode = True
sys.path.insert(0, f"{os.path.dirname(os.path.dirname(os.path.abspath(__file__)))}/lib")
from library import library
from run import CC, EXAMPLES, SANDBOX, TOP, built, bytes_of, has, put, run, text_of
from tally import FAILED, Tally, Words

TALLY = Tally("nginx")
SOURCES = "/usr/share/nginx/src"
COMPILER = "sparc64-linux-gnu-gcc"
# Ends with the number behind the second slash as its word; 7 breaks it, by an index that leaves its object.
STATUSES = """#include "plug.h"
static volatile int seen[4];
int main(void) {
    int c, word = 0;
    for (int slashes = 0; slashes < 2 && (c = get()) >= 0; slashes += c == '/') {}
    while ((c = get()) >= '0' && c <= '9') word = word * 10 + c - '0';
    if (word < 10) seen[word] = 1;
    return word;
}
"""
# Whether a header says so.
HEADERS = """#include "plug.h"
static const char wanted[] = "X-Let-In: yes";
int main(void) {
    int c, at = 0;
    while ((c = get()) >= 0) {
        if (c == '\\n') { if (at == sizeof wanted - 1) return 0; at = 0; }
        else if (at >= 0 && at < (int)sizeof wanted - 1 && c == wanted[at]) at++;
        else at = -1;
    }
    return 1;
}
"""
CONFIGURATION = """load_module {folder}/ngx_http_geyserpan_module.so;
{user}
daemon off;
pid {folder}/pid;
error_log {folder}/errors notice;
events {{ worker_connections 64; }}
http {{
    access_log off;
    client_body_temp_path {folder}/temp; proxy_temp_path {folder}/temp; fastcgi_temp_path {folder}/temp;
    uwsgi_temp_path {folder}/temp; scgi_temp_path {folder}/temp;
    root {folder}/files;
    server {{
        listen unix:{folder}/socket;
        {locations}
    }}
}}
"""
LOCATIONS = """
location /status/ { geyserpan_access status.img turns=100000; rewrite ^ /small break; }
location /header/ { geyserpan_access header.img; rewrite ^ /small break; }
location /page/ { geyserpan_access access.img turns=100000; rewrite ^ /small break; }
location /lower/ { geyserpan_body lower.img turns=1099511627776; alias FOLDER/files/; }
location /short/ { geyserpan_body lower.img turns=1099511627776 output=1000; alias FOLDER/files/; }
location /echo/ { geyserpan_body echo.img; alias FOLDER/files/; }
location /broken/ { geyserpan_body status.img turns=100000; alias FOLDER/files/; }
"""


class Connection(http.client.HTTPConnection):
    """To the server's socket."""

    def __init__(self, path):
        super().__init__("localhost", timeout=60)
        self.path = path

    def connect(self):
        self.sock = socket.socket(socket.AF_UNIX, socket.SOCK_STREAM)
        self.sock.settimeout(60)
        self.sock.connect(self.path)


def asked(folder, path, method="GET", **headers):
    """The status and the body of an answer; of one that is broken off `cut`."""
    connection = Connection(f"{folder}/socket")
    try:
        connection.putrequest(method, path)
        for name, value in headers.items():
            connection.putheader(name.replace("_", "-"), value)
        connection.endheaders()
        answer = connection.getresponse()
        return answer.status, answer.read()
    except (http.client.IncompleteRead, http.client.RemoteDisconnected, ConnectionResetError):
        return "cut", b""
    finally:
        connection.close()


# ---- the module and the server


def module(work, prefix):
    """Builds the module by the commands of its README, in a copy of nginx's sources."""
    shutil.copytree(SOURCES, f"{work}/nginx")
    readme = text_of(f"{TOP}/embed/nginx/README.md")
    configure = re.search(r"^bash -c '(.*)'$", readme, re.M)[1].replace("CHECKOUT", TOP)
    script = f"set -eu; {configure}; make -s -f objs/Makefile modules; cp objs/ngx_http_geyserpan_module.so {work}"
    ran = run(["bash", "-c", script], cwd=f"{work}/nginx", env={**os.environ, "GEYSERPAN": prefix}, seconds=None)
    return TALLY.check("the module is built", ran.status == 0, ran.said[-2000:])


def images(work):
    """The images and the files that the server has; whether the rules from C are there."""
    os.makedirs(f"{work}/files")
    lots = random.Random(1)
    put(f"{work}/files/small", "Small")
    put(f"{work}/files/empty", "")
    put(f"{work}/files/great", bytes(lots.randrange(256) for _ in range(5000)) * 1000)
    for name in ("echo", "lower"):
        shutil.copy(f"{EXAMPLES}/{name}/{name}.img", work)
    shutil.copy(f"{EXAMPLES}/refused/V1.img", work)
    if not has(COMPILER):
        return False
    built("sandbox", "fit")
    access = re.search(r"^```c access.c\n(.*?)^```$", text_of(f"{TOP}/embed/nginx/README.md"), re.M | re.S)[1]
    for name, source in (("status", STATUSES), ("header", HEADERS), ("access", access)):
        words = [CC, put(f"{work}/{name}.c", source), "-o", f"{work}/{name}.img", "--turns", "90000"]
        ran = run(words, seconds=None)
        TALLY.check(f"{name}.c", ran.status == 0, ran.said[-1000:])
    return True


def configured(work, locations, name="nginx.conf"):
    """A configuration with these locations."""
    user = "user root;" if os.geteuid() == 0 else ""
    locations = locations.replace("FOLDER", work)
    return put(f"{work}/{name}", CONFIGURATION.format(folder=work, user=user, locations=locations))


def answers(work):
    """Waits until the server answers; whether it does."""
    for _ in range(200):
        try:
            return asked(work, "/small")[0] == 200
        except OSError:
            time.sleep(0.1)
    return False


# ---- what is tried


def try_requests(work):
    """Rules over requests."""
    for path, wanted in (("0", (200, b"Small")), ("1", 403), ("405", 405), ("451", 451), ("599", 599), ("399", 500),
                         ("600", 500), ("7", 500)):
        came = asked(work, f"/status/{path}")
        TALLY.same(f"exit word {path}", came if isinstance(wanted, tuple) else came[0], wanted)
    TALLY.same("a header", asked(work, "/header/", X_Let_In="yes"), (200, b"Small"))
    TALLY.same("another header", asked(work, "/header/", X_Let_In="no")[0], 403)
    TALLY.same("no header", asked(work, "/header/")[0], 403)
    TALLY.same("the rule of the README: a path", asked(work, "/page/a.b"), (200, b"Small"))
    TALLY.same("the rule of the README: two dots", asked(work, "/page/a..b")[0], 403)
    broke = re.findall(r'status\.img" broke: exit word 000[1-9]', text_of(f"{work}/errors"))
    TALLY.check("a rule that breaks is told", len(broke) == 1, f"wanted a line, came {broke}")


def try_bodies(work):
    """Filters over bodies."""
    great = bytes_of(f"{work}/files/great")
    lowered = bytes(it + 32 if 65 <= it <= 90 else it for it in great)
    TALLY.same("a body of 5 bytes", asked(work, "/lower/small"), (200, b"small"))
    TALLY.same("an empty body", asked(work, "/lower/empty"), (200, b""))
    status, body = asked(work, "/lower/great")
    TALLY.check("a body of 5,000,000 bytes", status == 200 and body == lowered, f"wanted it, came {len(body)} bytes")
    TALLY.same("its front by another image", asked(work, "/echo/great"), (200, great[:1000]))
    TALLY.same("a body with a range", asked(work, "/lower/small", Range="bytes=1-2"), (200, b"small"))
    TALLY.same("a body that isn't there", asked(work, "/lower/none")[0], 404)
    TALLY.same("the head of a body", asked(work, "/lower/small", "HEAD"), (200, b""))
    TALLY.same("a body without an image", asked(work, "/great"), (200, great))
    TALLY.same("too much output", asked(work, "/short/great")[0], "cut")
    if os.path.exists(f"{work}/status.img"):
        put(f"{work}/files/seven", "//7")
        TALLY.same("a body whose image breaks", asked(work, "/broken/seven")[0], "cut")
    ran = run([SANDBOX, "run", f"{work}/lower.img"], great, seconds=None)
    TALLY.check("sandbox says the same", ran.out == lowered, "wanted the body that came, came another one")


def try_configurations(work):
    """Images that `nginx -t` refuses, with the reason."""
    verdict = text_of(f"{EXAMPLES}/refused/V1.told").splitlines()[0]
    for name, line, wanted in (
            ("a refused image", "geyserpan_access V1.img;", f'V1.img": {verdict}'),
            ("no image", "geyserpan_body files/empty;", 'files/empty": image I1'),
            ("no file", "geyserpan_access none.img;", "(2: No such file or directory)"),
            ("a greedy image", "geyserpan_body lower.img;", "asks for 49,392,123,895 turns, 100,000 are granted"),
            ("other words", "geyserpan_body lower.img turn=1;", "takes turns=N and output=N"),
            ("no number", "geyserpan_body lower.img turns=x;", "takes turns=N and output=N"),
            ("twice", "geyserpan_access echo.img; geyserpan_access echo.img;", "is duplicate")):
        ran = run(["nginx", "-t", "-p", work, "-c", configured(work, line, "bad.conf")])
        TALLY.check(f"nginx -t: {name}", ran.status == 1 and wanted in ran.said, f"wanted {wanted}, came {ran.said}")


def try_reload(work, process):
    """A reload with a bad image leaves the workers as they are."""
    good = bytes_of(f"{work}/nginx.conf")
    configured(work, "geyserpan_access V1.img;")
    process.send_signal(signal.SIGHUP)
    told = wait_for(lambda: 'V1.img": refused' in text_of(f"{work}/errors"))
    TALLY.check("a reload with a bad image", told and asked(work, "/lower/small") == (200, b"small"),
                "wanted the workers as they were, came others")
    put(f"{work}/nginx.conf", good)
    process.send_signal(signal.SIGHUP)
    TALLY.check("a reload", answers(work), "wanted an answer, came none")


def wait_for(condition):
    """Whether something comes to hold within some seconds."""
    for _ in range(200):
        if condition():
            return True
        time.sleep(0.1)
    return False


def try_server(work, has_rules):
    """Starts the server and tries all of it."""
    lines = LOCATIONS.strip().split("\n")
    locations = "\n".join(it for it in lines if has_rules or "lower.img" in it or "echo.img" in it)
    words = ["nginx", "-p", work, "-c", configured(work, locations)]
    streams = {"stdin": subprocess.DEVNULL, "stdout": subprocess.DEVNULL, "stderr": subprocess.PIPE}
    with subprocess.Popen(words, **streams) as process:
        try:
            if TALLY.check("nginx answers", answers(work), "wanted an answer, came none"):
                if has_rules:
                    try_requests(work)
                try_bodies(work)
                try_reload(work, process)
        finally:
            process.send_signal(signal.SIGQUIT)
            process.communicate()
    crashed = [it for it in text_of(f"{work}/errors").splitlines() if "exited on signal" in it]
    TALLY.check("no worker crashes", not crashed, f"came {crashed}")


def main(line):
    reader = Words(__doc__)
    reader.add_argument("--library")
    given = reader.parse_args(line)
    for package, there in (("nginx", has("nginx")), ("nginx-dev", os.path.exists(f"{SOURCES}/conf_flags"))):
        if not there:
            TALLY.skip("all of it", f"Debian's package {package}")
            return TALLY.end()
    built("sandbox")
    with tempfile.TemporaryDirectory() as work:
        prefix = library(TALLY, given.library, work)
        if not prefix:
            return TALLY.end() or FAILED
        has_rules = images(work)
        if not has_rules:
            TALLY.skip("rules from C", "Debian's package gcc-sparc64-linux-gnu")
        if module(work, prefix):
            try_configurations(work)
            try_server(work, has_rules)
    return TALLY.end()


if __name__ == "__main__":
    sys.exit(main(sys.argv[1:]))
