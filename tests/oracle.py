"""Runs the crate (the oracle folder's program) and the archive (tests/answers.c) on the same lines of cases."""
import json
import os
import shutil
import subprocess
import sys
import tempfile
from pathlib import Path

TOP = Path(__file__).resolve().parent.parent


def build_oracle(folder, work):
    """The oracle's program: the one built in its folder, or one built in a copy of it."""
    built = Path(folder) / "target/release/oracle"
    if built.is_file():
        return built
    copy = work / "oracle"
    shutil.copytree(folder, copy)
    for path in [copy, *copy.rglob("*")]:
        path.chmod(0o755 if path.is_dir() else 0o644)
    print("building the oracle ..", file=sys.stderr)
    subprocess.run(["cargo", "build", "--release", "--offline", "--quiet"], cwd=copy, check=True)
    return copy / "target/release/oracle"


def build_answers(work, archive=None):
    """The program of tests/answers.c, linked with the archive; the archive is proved and made first unless one is named."""
    if archive is None:
        print("proving and making the archive ..", file=sys.stderr)
        subprocess.run(["tools/native-staticlib", "c_api"], cwd=TOP, check=True, stdout=sys.stderr)
        archive = TOP / "target/staticlib/libc_api.a"
    program = work / "answers"
    compiler = os.environ.get("CC") or next(c for c in ("cc", "gcc", "clang") if shutil.which(c))
    subprocess.run([compiler, "-std=c11", "-O2", "-I", TOP / "include", "-o", program, TOP / "tests/answers.c", archive], check=True)
    return program


def run(program, text, *words):
    """The lines that a program answers."""
    done = subprocess.run([program, *words], input=text, stdout=subprocess.PIPE, check=True)
    return done.stdout.decode().splitlines()


def where(path):
    """A panic's place: file and line, or the other crate's name."""
    return "byteorder" if "byteorder" in path else path.rsplit("/", 1)[-1]


def ending(answer, count, yields):
    kind = answer["r"]
    if kind == "error":
        if "no" in answer:
            return f"refused:{answer['no']}:{answer['opened']}"
        return "error:" + answer["error"]
    if kind == "panic":
        return "panic:" + where(answer["where"])
    if kind == "loop":
        return f"cut:{answer['reads']}" if count == yields else "loop"
    if kind in ("end", "notfound"):
        return ("end" if kind == "end" else "missing") + f":{answer['opened']}"
    return kind


def entry(e):
    return f"{e[0]}:{e[1]}:{e[2]}:{e[5]}"


def written(line, yields):
    """An answer of the oracle as answers.c writes one: its id, the rest."""
    answer = json.loads(line)
    if answer.get("str") == "DIFFERS":
        return answer["id"], "the crate's two lookups differ"
    if answer["r"] == "found":
        return answer["id"], "found:" + entry(answer["e"])
    entries = answer.get("list", [])
    return answer["id"], " ".join([*map(entry, entries), ending(answer, len(entries), yields)])


def answers(program, text, cap, yields):
    """The oracle's answers, by id."""
    return dict(written(line, yields) for line in run(program, text, "--cap", str(cap), "--yields", str(yields)))


def ours(program, text, yields):
    """The archive's answers, by id."""
    return dict(line.split(" ", 1) for line in run(program, text, "--yields", str(yields)))


def workshop():
    """A temporary folder for what is built."""
    return tempfile.TemporaryDirectory(prefix="compare-")
