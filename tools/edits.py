#!/usr/bin/env python3
"""Tries wrong edits: each turns a promise in the code, and the prover must refuse it at the goal that it names.

    tools/edits.py [--all] [NAME[/EDIT] ..]

The edits of the crate NAME are the files of crates/NAME/wrong/; with --all those of must-fail/ too, which `rt ci` tries as
well. Without a NAME it tries those of all crates. An edit has lines `file: PATH`, `old: TEXT`, `new: TEXT` as in must-fail/,
each TEXT standing once in that file, and `goal: NAME`: the goal by which the prover must refuse it; one that names none must
be refused at some goal of the function that it turns. `fn: PATH` names the function, where others of the crate, or a module,
have the same name.

All edits of a crate that turn different functions are tried in one check of those functions, in a copy: a function's proof
cites what those that it calls promise, and never their code, so each edit is told by itself. Two edits of one function go
into two checks, the second over what the first proved. It takes the libraries below from `out/rlib`, as `rt ci` or
tools/changed.py left them, and nothing else that an earlier run kept.

It prints a line for each edit and a count. The status is 0 if each was refused at its goal, 1 if one wasn't or couldn't be
tried, 2 if there is no such edit.
"""
import os
import re
import resource
import shutil
import subprocess
import sys
import tempfile
from concurrent.futures import ThreadPoolExecutor

import kit

HEAD = re.compile(r'(?m)^( *)(?:pub(?:\([^)]*\))? )?(?:const )?(?:unsafe )?(?:extern "C" )?fn (\w+)')


class Edit:
    """A wrong edit: pairs of texts by file, the function that holds the first of them, and the goal that refuses it."""

    def __init__(self, path, folder):
        self.label = os.path.basename(os.path.dirname(os.path.dirname(path))) + "/" + os.path.basename(path)[: -len(".edit")]
        self.pairs, self.wanted, self.path, file, old = [], None, None, None, None
        with open(path, encoding="utf-8") as it:
            for line in it.read().split("\n"):
                word, _, text = line.partition(": ") if ": " in line else (line.rstrip(":"), "", "")
                if word == "file":
                    file = text.strip()
                elif word == "old":
                    old = text
                elif word == "new":
                    self.pairs.append((file, old, text))
                elif word == "goal":
                    self.wanted = text.strip()
                elif word == "fn":
                    self.path = text.strip()
        self.why = self.find(folder)

    def find(self, folder):
        """Finds the function that the edit turns; returns why it can't be applied, if it can't."""
        for file, old, _ in self.pairs:
            text = kit.rtlib.text_of(f"{folder}/{file}") or ""
            if text.count(old) != 1:
                return f"its text is in {file} {text.count(old)} times"
        if not self.pairs:
            return "it has no 'old:' and 'new:' pair"
        self.file, old, _ = self.pairs[0]
        text = kit.rtlib.text_of(f"{folder}/{self.file}")
        place = text.index(old)
        line = lambda at: text.count("\n", 0, at) + 1
        for head in HEAD.finditer(text):
            end = re.compile(rf"(?m)^{head[1]}}}$").search(text, head.end())
            if head.start() <= place < (end.end() if end else len(text)):
                self.name, self.lines = head[2], (line(head.start()), line(end.end()))
                return None
        return "its first text is in no function"

    def function(self):
        """The function as `--only` takes it: a name, or where several have it, a path."""
        return self.path or self.name

    def goals(self, said):
        """The goals of the function that the prover doesn't close."""
        # (the proof of a function that calls itself stands in a folder with a +)
        name, found = re.escape(self.name), []
        for line in said.split("\n"):
            own = re.match(rf"(?:\./)?proofs/(?:\S+/)?\+?{name}/\S+: error: `([^`]+)`", line)
            open_goal = re.match(rf"\s*note: `([^`]+)` of proofs/(?:\S+/)?\+?{name}/\S+ must prove", line)
            here = re.match(rf"note: (?:\./)?{re.escape(self.file)}:(\d+):\d+: it is not proved .*\(`([^`]+)`\)", line)
            if own or open_goal:
                found.append((own or open_goal)[1])
            elif here and self.lines[0] <= int(here[1]) <= self.lines[1]:
                found.append(here[2])
        return [*dict.fromkeys(found)]


def checked(crate, edits, kept):
    """Checks a copy of the crate with all these edits, over what its other checks kept in a folder, and returns what the prover
    says."""
    with tempfile.TemporaryDirectory(prefix="edits-") as room:
        for part in kit.rtlib.PARTS:
            if os.path.isdir(f"{crate.folder}/{part}"):
                shutil.copytree(f"{crate.folder}/{part}", f"{room}/{part}")
        for file, old, new in [pair for edit in edits for pair in edit.pairs]:
            text = kit.rtlib.text_of(f"{room}/{file}").replace(old, new)
            with open(f"{room}/{file}", "w", encoding="utf-8") as it:
                it.write(text)
        words = [kit.rtlib.RATTLE, "check", *crate.words(["--jobs", "1"], keeps=False)]
        words += ["--incremental", kept] if kept else []
        for edit in edits:
            words += ["--only", edit.function()]
        how = {"stdin": subprocess.DEVNULL, "stdout": subprocess.PIPE, "stderr": subprocess.STDOUT}
        return subprocess.run(words, cwd=room, text=True, errors="replace", **how).stdout


def told(crate, edit, said):
    """Returns whether the edit is refused at its goal, and a line on it."""
    if not re.search(r"^only=\d+ ", said, re.M):
        first = next((it for it in said.split("\n") if re.search(r"error|rattle: ", it)), said[-300:])
        return False, f"{edit.label}: NOT TRIED: the edited text doesn't reach the prover: {first.strip()[:300]}"
    goals = edit.goals(said)
    if edit.wanted in goals:
        return True, f"{edit.label}: refused at {edit.wanted} of {edit.function()}"
    if goals and not edit.wanted:
        return True, f"{edit.label}: refused at {goals[0]} of {edit.function()}, which it doesn't name"
    if goals:
        return False, f"{edit.label}: NOT REFUSED at {edit.wanted}, but at {', '.join(goals)} of {edit.function()}"
    return False, f"{edit.label}: NOT REFUSED: no goal of {edit.function()} is open"


def tried(name, edits):
    """Tries edits of a crate, as many in one check as turn different functions, and returns a pair for each."""
    crate, answers = kit.crate(name), []
    lacking = [it.name for it in crate.below() if not os.path.isfile(f"{it.rlib}/format")]
    for edit in edits:
        edit.why = edit.why or (f"its library {lacking[0]} isn't built" if lacking else None)
    answers += [(False, f"{it.label}: NOT TRIED: {it.why}") for it in edits if it.why]
    left = [it for it in edits if not it.why]
    rounds = []
    while left:
        rounds.append([*{(it.file, it.name): it for it in reversed(left)}.values()])
        left = [it for it in left if it not in rounds[-1]]
    with tempfile.TemporaryDirectory(prefix="edits-kept-") as room:
        # (a second check needs only what the first edits turned; a crate's only check is faster without keeping)
        kept = room if len(rounds) > 1 else None
        for now in rounds:
            said = checked(crate, now, kept)
            is_read = len(now) == 1 or re.search(r"^only=\d+ ", said, re.M)
            # (where one of them doesn't compile, each is tried by itself)
            answers += [told(crate, it, said if is_read else checked(crate, [it], room)) for it in now]
    for _, line in answers:
        print(line, flush=True)
    return [well for well, _ in answers]


def main(words):
    folders = ["wrong"] + ["must-fail"] * ("--all" in words)
    wanted = [it.partition("/")[::2] for it in words if it != "--all"]
    crates = {}
    for name in kit.names():
        for folder in [f"{kit.TOP}/crates/{name}/{it}" for it in folders]:
            files = sorted(os.listdir(folder)) if os.path.isdir(folder) else []
            edits = [Edit(f"{folder}/{it}", f"{kit.TOP}/crates/{name}") for it in files if it.endswith(".edit")]
            is_asked = lambda edit: not wanted or any(name == it and edit.label.endswith(f"/{one}" * bool(one)) for it, one in wanted)
            crates.setdefault(name, []).extend(filter(is_asked, edits))
    crates = {name: edits for name, edits in crates.items() if edits}
    if not crates:
        print("there is no such edit", file=sys.stderr)
        return 2
    # the largest crates first
    order = sorted(crates, key=lambda it: -kit.crate(it).count(rb"\n"))
    with ThreadPoolExecutor(kit.lanes()) as pool:
        answers = [well for it in pool.map(lambda it: tried(it, crates[it]), order) for well in it]
    used = resource.getrusage(resource.RUSAGE_CHILDREN)
    minutes = (used.ru_utime + used.ru_stime) / 60
    print(f"{sum(answers)} of {len(answers)} wrong edits refused at their goals, in {minutes:.0f} processor minutes")
    return 0 if all(answers) else 1


if __name__ == "__main__":
    sys.exit(main(sys.argv[1:]))
