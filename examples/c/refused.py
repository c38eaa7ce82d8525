#!/usr/bin/env python3
"""Tries what programs in C can't have: refused.py [--write] CLANG FLAG ..

The comments at the head of each file of refused/ say what comes of it, and this compares:
  clang: PATTERN     clang's error
  flags: FLAG ..     further arguments of clang
  bpfagent-ship: TEXT
                     why the object file can't be shipped
  check: TEXT        what `bpfagent check` says of the raw code
  ship: REPLY        the reply to `ship` of the raw code
  run A ..: REPLY    the reply at the program's end, with a first object of 16 bytes; of raw code that bpfagent-ship refuses,
                     what would come of it
The conversations of `ship` and `run` are refused.script, which is written with --write.
"""
import re
import subprocess
import sys

from make_scripts import HERE, SECONDS, Script  # this has to come first: it says where the interpreter is
from instructions import Fault, load
from bpfagent.objectfile import ObjectFile, Unlinkable, link
from bpfagent.ship import ship_line

HEAD = re.compile(r"^// (clang|flags|bpfagent-ship|check|ship|run)((?: \S+)*): (.*)$", re.M)
OUT = HERE / "out/refused"
FUEL = "100"


def want(is_so, path, found):
    if not is_so:
        sys.exit(f"{path.name}: {found}")


def compile_it(clang, path):
    """Clang's status and errors, and the object file."""
    made = OUT / f"{path.stem}.o"
    done = subprocess.run([*clang, "-fno-crash-diagnostics", "-c", path, "-o", made], stderr=subprocess.PIPE, text=True, timeout=SECONDS)
    return done.returncode, done.stderr, made


def raw_code(made):
    """The code of .text as it is, with slots that nobody filled in."""
    return ObjectFile(made.read_bytes()).code_of_section(".text")


def fault_of(code):
    try:
        load(code)
    except Fault as fault:
        return f"slot {fault.slot}: {fault.name}"
    return None


def converse(script, path, code, arguments, wanted):
    """Ships the code to a fresh agent with one object, and steps it until it neither is refused nor runs."""
    script.begin(f"# refused/{path.name}")
    script.tell("make 16")
    reply = script.tell(ship_line(code, FUEL, arguments))
    while reply.startswith(("shipped ", "ran ")):
        reply = script.tell("step 1")
    want(reply == wanted, path, reply)


def refusal_of(made):
    """Why an object file can't be shipped; nothing if it can."""
    try:
        link(made.read_bytes())
        return ""
    except Unlinkable as why:
        return str(why)


def try_code(script, path, made, kind, arguments, text):
    """What comes of an object file that clang has made."""
    if kind == "check":
        found = fault_of(raw_code(made))
        want(found == text, path, found)
    elif kind in ("ship", "run"):
        converse(script, path, raw_code(made), arguments, text)


def try_it(clang, script, path):
    said = [(kind, rest.split(), text) for kind, rest, text in HEAD.findall(path.read_text())]
    texts = {kind: text for kind, _, text in said}
    status, errors, made = compile_it([*clang, *texts.get("flags", "").split()], path)
    want(said and bool(status) == ("clang" in texts), path, errors or "clang takes it")
    if status:
        want(re.search(texts["clang"], errors), path, errors)
        return
    want(refusal_of(made) == texts.get("bpfagent-ship", ""), path, refusal_of(made))
    for kind, arguments, text in said:
        try_code(script, path, made, kind, arguments, text)


def main():
    writes = sys.argv[1:2] == ["--write"]
    clang = sys.argv[1 + writes :]
    if not clang:
        sys.exit(__doc__)
    OUT.mkdir(parents=True, exist_ok=True)
    script, stored = Script(), HERE / "refused.script"
    sources = sorted((HERE / "refused").glob("*.c"))
    for path in sources:
        try_it(clang, script, path)
    made = "\n".join(script.lines) + "\n"
    if writes:
        stored.write_text(made)
    want(stored.exists() and stored.read_text() == made, stored, "this isn't what refused/ gives")
    print(f"refused: {len(sources)} programs, each as its head says")


main()
