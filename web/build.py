#!/usr/bin/env python3
"""Builds web/tower.html: one page with the proved program `mctower` in it, the stored plans, and what is needed to look at their runs.

    web/build.py              the program from the sources of this tree, and the page
    web/build.py --page       the page alone: the program is taken out of the page that is there

It needs the libraries that tools/prove-all.py, `rt check` or `rt ci` leave in crates/*/out, and no other tool than the kit's. The page is the
files of web/page/ and what it shares with plans/explore.py, and asks for nothing else. How the program comes into it: web/module.py.
"""
import argparse
import base64
import gzip
import hashlib
import json
import re
import subprocess
import sys
from pathlib import Path

ROOT = Path(__file__).resolve().parent.parent
PARTS, PAGE = ROOT / "web/page", ROOT / "web/tower.html"
sys.path.append(str(ROOT / "plans"))
import kernel  # noqa: E402
import limits  # noqa: E402
import record  # noqa: E402

# The page's scripts, one behind the other, after the limits of plans/limits.json; those of plans/ are of the pages of runs as well.
NAMES = ("markup", "schedule", "program", "toml", "plan", "twin", "laws", "record", "judge", "where", "session", "ownlaw", "tables", "pieces",
         "moves", "groups", "states", "search", "beside", "finder", "player", "about", "page")
SCRIPTS = [ROOT / "plans/look.js", *(PARTS / f"{name}.js" for name in NAMES)]
POLICY = "default-src 'none'; script-src {scripts} 'wasm-unsafe-eval'; worker-src blob:; style-src {styles}; base-uri 'none'; form-action 'none'"
PROGRAM = re.compile(r'<script type="text/plain" id="packed">(.*?)</script>', re.S)


def git(*words):
    return subprocess.run(["git", *words], cwd=ROOT, stdout=subprocess.PIPE, text=True, check=True).stdout.strip()


def packed(program):
    """The program as it stands in the page: gzipped, in base 85 without the sign that begins a tag, in lines."""
    text = base64.b85encode(gzip.compress(program, 9, mtime=0)).decode().replace("<", ",")
    return "\n".join(text[i:i + 8000] for i in range(0, len(text), 8000))


def kept():
    """The packed program of the page that is there, and what is said of it."""
    page = PAGE.read_text(encoding="utf-8")
    about = json.loads(re.search(r'<script type="application/json" id="facts">(.*?)</script>', page, re.S).group(1))
    return PROGRAM.search(page).group(1).strip(), about["program"]


def made():
    """The packed program of this tree's sources, and what is said of it."""
    import module  # it asks for the kit, which --page does without
    program, kit = module.built()
    changed = bool(git("status", "--porcelain", "--", "crates", "crates.txt"))
    about = {"commit": git("rev-parse", "HEAD"), "changed": changed, "kit": kit, "bytes": len(program), "sha256": hashlib.sha256(program).hexdigest()}
    return packed(program), about


def stored_plans():
    """The stored plans by name."""
    return {path.stem: path.read_text(encoding="utf-8") for path in sorted((ROOT / "plans").glob("*.toml"))}


def as_json(value):
    """JSON in which no text ends the element that it stands in."""
    return json.dumps(value, separators=(",", ":")).replace("<", "\\u003c")


def digest(text):
    """A text as the page's own policy names it."""
    return f"'sha256-{base64.b64encode(hashlib.sha256(text.encode()).digest()).decode()}'"


def code_of(path):
    """The text of a script without its lines of comments, which would be a twentieth of the page."""
    return "\n".join(line for line in path.read_text(encoding="utf-8").split("\n") if not line.lstrip().startswith("//"))


def assembled(program, about):
    """The page: its parts, and a policy that allows them alone."""
    style = "\n".join(["", (ROOT / "plans/look.css").read_text(encoding="utf-8"), record.place_style(), (PARTS / "page.css").read_text(encoding="utf-8")])
    scripts = {"limits": "\n" + limits.script(), **{path.stem: "\n" + code_of(path) for path in SCRIPTS}}
    policy = POLICY.format(scripts=" ".join(map(digest, scripts.values())), styles=digest(style))
    pieces = {
        "POLICY": policy,
        "STYLE": f"<style>{style}</style>",
        "PLANS": as_json(stored_plans()),
        "LESSONS": as_json(json.loads((PARTS / "lessons.json").read_text(encoding="utf-8"))),
        "FACTS": as_json({"program": about, "places": record.PLACES, "mistakes": kernel.WRONG}),
        "PROGRAM": program,
        "SCRIPTS": "\n".join(f'<script id="script-{name}">{text}</script>' for name, text in scripts.items()),
    }
    page = (PARTS / "tower.html").read_text(encoding="utf-8")
    return re.sub(r"\{\{([A-Z]+)\}\}", lambda found: pieces[found.group(1)], page)


def main():
    parser = argparse.ArgumentParser(description=__doc__, formatter_class=argparse.RawDescriptionHelpFormatter)
    parser.add_argument("--page", action="store_true", help="take the program out of the page that is there")
    asked = parser.parse_args()
    page = assembled(*(kept() if asked.page else made()))
    PAGE.write_text(page, encoding="utf-8")
    print(f"{PAGE.relative_to(ROOT)}: {len(page.encode())} bytes")


if __name__ == "__main__":
    main()
