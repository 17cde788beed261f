"""Where the web form of the program and the native one are found for tests, and how what they need is installed."""
import base64
import gzip
import os
import re
import shutil
import subprocess

TOP = os.path.dirname(os.path.dirname(os.path.dirname(os.path.abspath(__file__))))
PAGE = os.path.join(TOP, "dist/inputflinger.html")
BUILT = os.path.join(TOP, "crates/inputflinger_main/out/inputflinger_main")
DIST = os.path.join(TOP, "dist/inputflinger")


def installed(tool, package):
    """Whether a tool is there; where it is not, root asks for Debian's package, with little patience."""
    if not shutil.which(tool) and os.geteuid() == 0:
        for words in (["update"], ["install", "-y", "--no-install-recommends", package]):
            try:
                subprocess.run(["apt-get", "-qq", "-o", "Acquire::Retries=0", "-o", "Acquire::http::Timeout=10"] + words, check=False,
                               stdout=subprocess.DEVNULL, stderr=subprocess.DEVNULL, stdin=subprocess.DEVNULL, timeout=300,
                               env=dict(os.environ, DEBIAN_FRONTEND="noninteractive"))
            except (OSError, subprocess.TimeoutExpired):
                break
    return shutil.which(tool)


def of_script(*words):
    """What a script of the tree prints."""
    return subprocess.run(words, cwd=TOP, stdout=subprocess.PIPE, text=True, check=True).stdout.strip()


def manifest():
    """What dist/MANIFEST says, by its keys."""
    path = os.path.join(TOP, "dist/MANIFEST")
    if not os.path.exists(path):
        return {}
    with open(path, encoding="utf-8") as file:
        return dict(line.rstrip("\n").split(": ", 1) for line in file if ": " in line)


def native():
    """The native program of these sources, or None."""
    if subprocess.run(["sh", "-c", ". packaging/programs.sh; is_proved"], cwd=TOP, env=dict(os.environ, top=TOP), check=False).returncode == 0:
        return BUILT
    return DIST if os.path.exists(DIST) and manifest().get("sources") == of_script("packaging/sources") else None


def page_module(page, to):
    """Unpacks the module that a page has in it."""
    with open(page, encoding="utf-8") as file:
        packed = re.search(r'<script type="text/plain" id="program-module">([^<]*)</script>', file.read())
    with open(to, "wb") as file:
        file.write(gzip.decompress(base64.b64decode(packed[1])))
    return to


def module(folder):
    """The web form of these sources: that of dist/, or one that is built of what a gate left and kept in viewer/out; None where there is neither."""
    sources = of_script("packaging/sources")
    if os.path.exists(PAGE) and manifest().get("page.sources") == sources:
        return page_module(PAGE, os.path.join(folder, "program.wasm"))
    rlib = os.path.join(TOP, "crates/plain_run/out/rlib/plain_run.rlib")
    if not os.path.isdir(rlib) or not shutil.which("rt") or not installed("wasm-opt", "binaryen"):
        return None
    kept = os.path.join(TOP, "viewer/out/program.wasm")
    stamp = "%s %s %s" % (sources, of_script("viewer/sources"), of_script("rt", "version"))
    os.makedirs(os.path.dirname(kept), exist_ok=True)
    if not os.path.exists(kept) or text_of(kept + ".of") != stamp:
        if subprocess.run([os.path.join(TOP, "viewer/web/build"), kept], check=False).returncode:
            return None
        with open(kept + ".of", "w", encoding="utf-8") as file:
            file.write(stamp)
    return kept


def text_of(path):
    if not os.path.exists(path):
        return ""
    with open(path, encoding="utf-8") as file:
        return file.read()
