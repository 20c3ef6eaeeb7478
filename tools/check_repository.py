"""The repository's own checks: listed crates, no reference to what its readers do not have, the toolchain's line, links, vectors.

Run from anywhere; ./test calls it. Exits with 1 and a line for each fault if there is one.
"""
import os
import re
import subprocess
import sys

ROOT = os.path.dirname(os.path.dirname(os.path.abspath(__file__)))

# What no file and no commit message may name: papers, demands and requests by number, and paths of a build machine.
# A letter in brackets keeps each pattern from matching itself.
FORBIDDEN = [
    r"\b[Dd][o]cuments?\s+0?\d",
    r"\b[Pp][a]pers?\s+0?\d",
    r"\b[Dd][e]mands?\s+(\d|one|two|three)\b",
    r"\b[Rr][e]quests?\s+\d",
    r"\b[U]\d{1,2}\b",
    r"\b[Ii][s]sues?\s+#?\d",
    r"\b\d\d-[s]cope|\b\d\d-[c]hange-requests|\b\d\d-[f]ormal-statements",
    r"\.\./[s]hared\b",
    r"/[w]ork/|/[o]pt/|/[r]oot/|/[h]ome/|/[t]mp/",
    r"\b[d]eb\.debian\.org|\b[c]rates\.io|\b[r]egistry\.npmjs",
]

# (file, forbidden text) pairs that are allowed after all.
EXCEPTIONS = []


def git(*words):
    done = subprocess.run(["git", "-C", ROOT, *words], capture_output=True, text=True)
    return done.stdout if done.returncode == 0 else None


def files():
    """Every file of the repository: what git has or would take, else what lies in the folder."""
    listed = git("ls-files", "--cached", "--others", "--exclude-standard")
    if listed is not None:
        names = listed.splitlines()
    else:
        names = []
        for folder, folders, here in os.walk(ROOT):
            folders[:] = [f for f in folders if f not in (".git", "target", "out")]
            names += [os.path.relpath(os.path.join(folder, f), ROOT) for f in here]
    return sorted(n for n in names if os.path.isfile(os.path.join(ROOT, n)))


def text_of(name):
    try:
        with open(os.path.join(ROOT, name), encoding="utf-8") as file:
            return file.read()
    except (UnicodeDecodeError, FileNotFoundError):
        return ""


def listed_crates():
    with open(os.path.join(ROOT, "crates.txt"), encoding="utf-8") as file:
        lines = [line.split("#")[0] for line in file]
    listed = {line.split(":")[0].split()[0] for line in lines if ":" in line}
    there = set(os.listdir(os.path.join(ROOT, "crates")))
    for name in sorted(there - listed):
        yield f"crates/{name} is not listed in crates.txt"
    for name in sorted(listed - there):
        yield f"crates.txt lists {name}, which is not in crates/"


def forbidden_in(where, text):
    for pattern in FORBIDDEN:
        for hit in re.finditer(pattern, text):
            if (where, hit.group()) not in EXCEPTIONS:
                line = text.count("\n", 0, hit.start()) + 1
                yield f"{where}:{line} names '{hit.group()}', which no reader of the repository has"


def stands_alone():
    for name in files():
        yield from forbidden_in(name, text_of(name))
    log = git("log", "--format=%h%x00%B%x01")
    if log is None or not log.strip():
        print("check: no git history here, so commit messages are not looked at")
        return
    for entry in log.split("\x01"):
        if "\x00" in entry:
            commit, message = entry.strip().split("\x00", 1)
            yield from forbidden_in("commit " + commit, message)


def toolchain_line():
    line = subprocess.run(["rt", "version"], capture_output=True, text=True).stdout.strip()
    readme = text_of("README.md")
    if line not in readme:
        if re.search(r"rattle-kit-\S+ logic [0-9a-f]+", readme):
            print(f"check: warning: this is {line}, another toolchain than the one that README names")
        else:
            yield "README.md has no line of rt version"


def links():
    for name in files():
        if not name.endswith(".md"):
            continue
        for target in re.findall(r"\]\(([^)\s]+)\)", text_of(name)):
            if re.match(r"[a-z]+:", target) or target.startswith("#"):
                continue
            path = os.path.join(ROOT, os.path.dirname(name), target.split("#")[0])
            if not os.path.exists(path):
                yield f"{name}: the link to {target} leads nowhere"


def vectors():
    """What the program `vectors` is fed in the gate is the tables of bench/, joined."""
    tables = "".join(text_of(f"bench/vectors/{name}.txt") for name in ("outer", "inner", "frames"))
    if tables != text_of("crates/vectors/stdin"):
        yield "crates/vectors/stdin is not bench/vectors/outer.txt, inner.txt and frames.txt joined"


def main():
    faults = []
    for check in (listed_crates, stands_alone, toolchain_line, links, vectors):
        found = list(check())
        print(f"check: {check.__name__}: {'ok' if not found else 'FAILED'}")
        faults += found
    for fault in faults:
        print("  " + fault)
    return 1 if faults else 0


if __name__ == "__main__":
    sys.exit(main())
