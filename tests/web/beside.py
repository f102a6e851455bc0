"""What is tried without a browser: the page's modules and script in Node, beside the repository's programs and
texts."""
import hashlib
import json
import os
import random
import re
import shutil
import subprocess

from run import EXAMPLES, TOP, bytes_of, built, put, run

HERE = os.path.dirname(os.path.abspath(__file__))
RUNS, LIMIT, DATA_LIMIT, SEED = 1000, 300_000, 5000, 83
WINDOWS = (4, 8, 32)


def node(page, script, *words):
    """What a script prints in Node, or None where there is none."""
    if shutil.which("node") is None:
        page.tally.skip(f"{script} in Node", "Debian's package nodejs")
        return None
    ran = run(["node", f"{HERE}/{script}.mjs", page.path, *words], seconds=1200)
    page.same(f"{script}: the status", ran.status, 0)
    if ran.status != 0:
        print(ran.err.decode(errors="replace")[-2000:])
    return ran.out.decode(errors="replace")


def counted(page, script, *words):
    """Counts the checks that a script in Node has made."""
    told = node(page, script, *words)
    if told is None:
        return
    *lines, last = told.strip().split("\n")
    print("\n".join(lines), end="\n" if lines else "", flush=True)
    passed, failed = map(int, last.split())
    page.tally.passes(passed)
    page.same(f"{script}: checks that failed", failed, 0)


def blocks(page):
    """The allocator."""
    counted(page, "blocks")


def stored(page):
    """The stored texts."""
    counted(page, "stored", TOP)


def images_in(folder):
    """The images that are run: of the examples, and each changed at random in a few bytes."""
    chance, found = random.Random(SEED), []
    for at, _, files in sorted(os.walk(EXAMPLES)):
        for name in sorted(files):
            if name.endswith(".s") and "/c/" not in f"{at}/":
                image = f"{folder}/{name[:-2]}.img"
                if run([f"{TOP}/sandbox", "asm", f"{at}/{name}", image]).status == 0:
                    found.append(image)
    for image in list(found):
        for number in range(4):
            content = bytearray(bytes_of(image))
            for _ in range(chance.choice((1, 1, 2, 4))):
                content[chance.randrange(len(content))] = chance.randrange(256)
            found.append(put(f"{image[:-4]}.{number}.img", bytes(content)))
    return found


def cases_in(folder):
    """The runs that are made: image, input in hexadecimal, windows and limit."""
    chance, images = random.Random(SEED), images_in(folder)
    for number in range(RUNS):
        given = chance.randbytes(chance.choice((0, 1, 3, 64, 300)))
        if chance.random() < 0.5:
            given = bytes(32 + it % 95 for it in given) + b"\n"
        yield {"image": images[number % len(images)], "input": given.hex(), "limit": LIMIT,
               "windows": chance.choice((4, 5, 8, 8, 8, 12, 32))}


def native(case):
    """The verdict on a case's image, and its run, as the programs tell them."""
    verdict = run([f"{TOP}/sandbox", "verify", case["image"]])
    told = run([f"{TOP}/inspect", "run", "--json", "--windows", str(case["windows"]), "--limit", str(case["limit"]),
                case["image"]], bytes.fromhex(case["input"]))
    said = verdict.said if re.match("accepted|refused", verdict.said) else "no image"
    return said, told.out.decode() if told.status in (0, 1) else None


def runs(page):
    """Verdicts and runs."""
    built("sandbox", "inspect")
    cases = list(cases_in(page.folder))
    put(f"{page.folder}/cases.json", json.dumps(cases))
    told = node(page, "runs", page.folder)
    accepted = 0
    for case, line in zip(cases, (told or "").splitlines()):
        came, (verdict, ran) = json.loads(line), native(case)
        name = f"{os.path.basename(case['image'])} on {case['windows']} windows"
        page.same(f"{name}: the verdict", came["verdict"], verdict)
        page.same(f"{name}: the run", came["run"], ran)
        if verdict == "accepted" and ran and json.loads(ran)["end"]["how"] == "exit":
            accepted += 1
            in_pieces(page, name, came, json.loads(ran))
    if told:
        print(f"web: {len(cases)} runs, {accepted} of them accepted and in pieces too", flush=True)
        page.check("too few runs are of accepted images", accepted > RUNS / 10)


def in_pieces(page, name, came, ran):
    """A run in pieces gives what the run as a whole does."""
    for kind in ("engine", "board"):
        if came[kind] is not None:
            wanted = {"status": 8, "turns": ran["turns"], "exit": ran["end"]["word"], "output": ran["output"]}
            page.same(f"{name}: on the {kind}", came[kind], wanted)


def sources():
    """The examples and the lessons, with their inputs."""
    for at, _, files in sorted(os.walk(EXAMPLES)):
        for name in sorted(files):
            if name.endswith(".s") and "/c/" not in f"{at}/":
                given = f"{at}/{name[:-1]}in"
                yield f"{at}/{name}", bytes_of(given) if os.path.exists(given) else b""


def states_and_map(page, case, image):
    """The states of a run, and the map of its source, which the page's module makes without the image's digest."""
    of_run = ["--windows", str(case["windows"]), "--limit", str(case["limit"])]
    told = run([f"{TOP}/inspect", "states", *of_run, image], bytes.fromhex(case["input"]))
    page.same(f"{case['name']}: the states", bytes_of(f"{page.folder}/{case['name']}.states"), told.out)
    told = run([f"{TOP}/inspect", "map", case["source"]])
    wanted = re.sub(rb"\A(map of image )[0-9a-fA-F]{64}", rb"\1", told.out)
    page.same(f"{case['name']}: the map", bytes_of(f"{page.folder}/{case['name']}.map"), wanted)


def data(page):
    """The data of runs, their states, and the maps of their sources."""
    built("sandbox", "inspect")
    cases = [{"name": f"{os.path.basename(source)[:-2]}.{windows}", "source": source, "windows": windows,
              "limit": DATA_LIMIT, "input": given.hex()} for source, given in sources() for windows in WINDOWS]
    put(f"{page.folder}/cases.json", json.dumps(cases))
    if node(page, "data", page.folder) is None:
        return
    for case in cases:
        image = f"{page.folder}/{case['name']}.img"
        run([f"{TOP}/sandbox", "asm", case["source"], image])
        ran = run([f"{TOP}/inspect", "page", "--windows", str(case["windows"]), "--limit", str(case["limit"]),
                   "--source", case["source"], image], bytes.fromhex(case["input"]))
        wanted = re.search(rb'id="data">\n(.*?)</script>', ran.out, re.S)
        page.same(f"{case['name']}: the data", bytes_of(f"{page.folder}/{case['name']}.data"), wanted and wanted[1])
        states_and_map(page, case, image)


def same(page):
    """The page of this tree."""
    if shutil.which("rt") is None or shutil.which("wasm-opt") is None:
        page.tally.skip("the page made anew", "the kit, or Debian's package binaryen")
        return
    made = f"{page.folder}/made.html"
    ran = subprocess.run([f"{TOP}/tools/web/make", made], stdout=subprocess.PIPE, stderr=subprocess.STDOUT, check=False)
    page.same("tools/web/make ends with", (ran.returncode, ran.stdout[-500:] if ran.returncode else b""), (0, b""))
    page.check("the page made anew is another one", bytes_of(made) == bytes_of(page.path))


def policy(page):
    """What the page's head says, and what stands in it."""
    text = page.text
    said = re.search(r'http-equiv="Content-Security-Policy" content="([^"]*)"', text)[1]
    page.check("default-src 'none'", said.startswith("default-src 'none';"))
    for word in ("unsafe-inline", "unsafe-eval' ", "http:", "https:", "data:", "blob:", "*"):
        page.check(f"{word} stands in the policy", word not in said.replace("'wasm-unsafe-eval' ", ""))
    script = re.search(r"<script>(.*?)</script>", text, re.S)[1]
    for word in ("innerHTML", "outerHTML", "insertAdjacent", "document.write", "eval(", "new Function", "fetch(",
                 "XMLHttpRequest", "WebSocket", "sendBeacon", "import("):
        page.check(f"{word} stands in the script", word not in script)
    page.check("an address stands in the page",
               not re.search(r"https?://", re.sub(r"http://www\.w3\.org/2000/svg", "", text)))
    size = len(text.encode())
    print(f"web: {size:,} bytes", flush=True)
    page.check(f"it has {size} bytes", size < 1_500_000)
    if page.path == f"{TOP}/docs/try.html":
        stands = bytes_of(f"{TOP}/docs/try.sha256").decode().split()[0]
        page.same("its sum", hashlib.sha256(text.encode()).hexdigest(), stands)


