#!/usr/bin/env python3
"""Turns proofs in the older form, one Proof.antt for a function, into Invariants.antt and Answers.antt.

usage: tools/answers.py NAMES CRATE..    once, at the top of the tree; NAMES is the folder that `rt names NAMES` wrote

A goal, a step and a field get the names that Rattle gives them today, by the list of both names. An answer that was only a search goes, since
Rattle tries that by itself. What a line cites and the list doesn't have is printed, to be mended by hand.
"""
import json
import os
import re
import sys

HEAD = re.compile(r"^(abbrev )?([^\s:]+) : tie\.(\S+)")
CHAIN = re.compile(r"(?<![\w.'-])([A-Za-z]\w*)((?:\.before)*)\.([^\s.(){},\[\]]+)((?:\.[^\s.(){},\[\]]+)*)")
AT_START = {"args", "requires", "ranges", "well_formed"}
TOKEN = re.compile(r"[^\s()\[\]{},;.]+")


def plain(name):
    return re.sub(r"_arg\d*$", "", exact(name))


def exact(name):
    name = name.strip("«»").replace("-", "_").removesuffix("_lem").removeprefix("Is")
    return name[:1].lower() + name[1:]


class Function:
    """What the list says of one function: its places, each with the step that leads to it, and its goals."""

    def __init__(self, listed, said):
        self.said = said
        self.places = {p[0]: p for p in listed["places"]}
        self.arms = dict(zip([p[0] for p in listed["places"]], listed["arms"]))
        self.clauses = dict(zip([p[0] for p in listed["places"]], listed["clauses"]))
        self.needs = {plain(n[0]): (n[1], at[0]) for n, at in zip(listed["needs"], listed["asked_at"])}
        for n, at in zip(listed["needs"], listed["asked_at"]):
            self.needs.setdefault(plain(n[1]), (n[1], at[0]))
        self.settled = {plain(s) for s in listed["settled"]}
        self.loops, self.changed = listed["loops"], listed["changed"]
        self.asked = {new: listed["asked"][old] for old, new in listed["needs"] if old in listed["asked"]}
        self.args = {}
        for old, new in listed["args"]:
            if old.startswith(".args ."):
                self.args[old[7:]] = new[7:]

    def goal(self, need):
        need = plain(need)
        for alike in (need, need.replace("overflow_", "", 1), need.replace("nonzero_", "", 1)):
            if alike in self.needs:
                return self.needs[alike]
        return None, None

    def up(self, place, times):
        for _ in range(times):
            place = self.places[place][1] if place in self.places else None
        return place

    def way(self, place):
        found = [place]
        while self.places[found[-1]][1]:
            found.append(self.places[found[-1]][1])
        return found

    def path(self, place, name, befores, step, rest):
        """The path of a fact today, or None."""
        at = self.up(place, befores)
        rest = [r for r in rest.split(".") if r]
        if step in AT_START:
            if rest and step != "requires":
                rest[0] = self.args.get(rest[0], rest[0])
            return ".".join(["c", step, *rest])
        if at is None:
            return None
        old, new = self.places[at][2]
        if step == "before":
            return None
        if exact(old) != exact(step):
            # Where today's places are others, the nearest of that name on the way here.
            way = self.way(place)
            near = [i for i, p in enumerate(way) if exact(self.places[p][2][0]) == exact(step)]
            near = near or [i for i, p in enumerate(way) if plain(self.places[p][2][0]) == plain(step)]
            if near:
                at = way[min(near, key=lambda i: abs(i - befores))]
                old, new = self.places[at][2]
            else:
                self.said(f"{name}{'.before' * befores}.{step}: the step is {old}")
        for listed in self.arms.values():
            for field, of, tail in (listed[2] if listed else []):
                if of == old and tail and rest[: len(tail)] == tail and self.leads(at, old, listed):
                    return ".".join(["c", listed[0], field, *rest[len(tail) :]])
        if rest[:1] == ["ensures"] and self.clauses.get(at):
            fields = self.clauses[at]["fields"]
            if len(rest) > 1 and rest[1].isdigit() and int(rest[1]) < len(fields):
                rest[1] = fields[int(rest[1])]
        if step.startswith(("shared_slice_known", "slice_known")):
            self.said(f"{name}.{step}: a fact of the slice's type")
        return ".".join(["c", new, *rest])

    def leads(self, at, old, listed):
        """Whether the arm is that of a place where the step was made."""
        return any(self.arms[p] is not None and self.arms[p][0] == listed[0] for p in self.places if p == at or self.places[p][1] == at)


def blocks(text):
    """The declarations of a file, each with the lines that belong to it."""
    found, block = [], []
    for line in text.split("\n"):
        if not line.strip():
            if block:
                found.append(block)
            block = []
        else:
            block.append(line)
    return found + [block] * bool(block)


def turned(body, function, place, said):
    """A body, with today's paths."""
    alias = {"c": 0}
    while True:
        m = re.search(rf"\blet (\w+) = ({'|'.join(alias)})((?:\.before)+) in\s*", body)
        if not m:
            break
        alias[m.group(1)] = alias[m.group(2)] + m.group(3).count(".before")
        body = body[: m.start()] + body[m.end() :]

    def one(m):
        name, befores, step, rest = m.groups()
        if name not in alias:
            return m.group(0)
        path = function.path(place, name, alias[name] + befores.count(".before"), step, rest)
        if path is None:
            said(f"no path for {m.group(0)}")
            return m.group(0)
        return path

    body = CHAIN.sub(one, body)
    for name in alias:
        if name != "c" and re.search(rf"(?<![\w.'-]){name}(?![\w'-])", body):
            said(f"{name} stands alone: c{'.before' * alias[name]}")
    return body


def parts(text):
    """The parts of a tuple, or None."""
    text = text.strip()
    if not (text.startswith("(") and text.endswith(")")):
        return None
    found, depth, last = [], 0, 1
    for i, ch in enumerate(text):
        depth += ch in "([{"
        depth -= ch in ")]}"
        if depth == 0 and i < len(text) - 1:
            return None
        if ch == "," and depth == 1:
            found.append(text[last:i].strip())
            last = i + 1
    return found + [text[last:-1].strip()]


def by_clauses(body, clauses):
    m = re.fullmatch(r"((?:\s*let .*? in\s)*)(\s*\(.*\)\s*)", body, re.S)
    lets, tail = (m.group(1), m.group(2)) if m else ("", body)
    found = parts(tail)
    if not found or len(found) != len(clauses):
        return None
    return lets + " record { " + "; ".join(f"{c} = {p}" for c, p in zip(clauses, found)) + " }"


def uses(lines, body, extra):
    """The `use` lines, with the names that the body has."""
    tokens = set(TOKEN.findall(body))
    found = []
    for line in lines:
        m = re.match(r"use (\S+)\.\{(.*)\}$", line)
        if not m:
            if re.search(r" as (\S+)$", line) and line.split()[-1] in tokens:
                found.append(line)
            continue
        names = [n.strip() for n in m.group(2).split(",")]
        kept = [n for n in names if any(p in tokens or ("◌" in n and p in body) for p in ([n.split(" as ")[-1]] if "◌" not in n else [x for x in n.split("◌") if x]))]
        if kept:
            found.append(f"use {m.group(1)}.{{{', '.join(kept)}}}")
    return found + extra


def convert(crate, path, listed, report):
    folder = os.path.dirname(path)
    said = lambda text: report.append(f"{path}: {text}")
    function = Function(listed, said)
    text = open(path, encoding="utf-8").read()
    top = []
    for l in text.split("\n"):
        if l.startswith("--"):
            top.append(l)
        else:
            break
    lines = [l for l in text.split("\n") if l.startswith("use ")]
    lines = [l for l in lines if ".Statement." not in l and not l.endswith(" as tie")]
    rest = "\n".join(l for l in text.split("\n")[len(top) :] if not l.startswith("use "))
    invariants, answers, helpers = [], [], []
    for block in blocks(rest):
        first = next((i for i, l in enumerate(block) if not l.startswith("--")), 0)
        comment, block = block[:first], block[first:]
        whole = "\n".join(block)
        m = HEAD.match(block[0])
        if re.match(r"pub \S+_spec : ", block[0]):
            continue
        if not m:
            if "tie." in whole:
                said(f"a helper speaks of a place: {block[0][:80]}")
            helpers.append(comment + block)
            continue
        name, of = m.group(2), m.group(3)
        # The signature may go on over lines that are set in.
        i = 1
        while i < len(block) and block[i].startswith(" "):
            i += 1
        unfolding = [l for l in block[i:] if l.startswith("unfolding")][:1]
        body = "\n".join(l for l in block[i:] if not l.startswith("unfolding"))
        m = re.match(re.escape(name) + r"((?: [^\s=]+)*) =(.*)", body, re.S)
        if not m:
            said(f"a clause isn't read: {name}")
            helpers.append(comment + block)
            continue
        params, value = m.group(1).split(), m.group(2)
        if of.startswith(("invariant", "Inv", "decreases", "Measure")):
            kind = "decreases" if of.startswith(("decreases", "Measure")) else "invariant"
            if len(function.loops) != 1:
                said(f"{len(function.loops)} loops")
            (_, new), names = function.loops[0]
            changed = function.changed[0]
            fields = {}
            for author, n, is_changed in zip(params, names, changed):
                fields[author] = f"l.initial.{n}" if is_changed else f"l.{n}"
            for author, n in zip(params[len(names) :], [n for n, ch in zip(names, changed) if ch]):
                fields[author] = f"l.{n}"
            value = re.sub(r"(?<![\w.'₀-₉-])([^\s()\[\]{},;.]+)", lambda t: fields.get(t.group(1), t.group(1)), value)
            invariants.append([*comment, f"abbrev pub {kind}-{new} : goal.{kind}-{new}", *unfolding, f"{kind}-{new} l ={value}"])
            continue
        if not of.startswith("Need-"):
            said(f"what is tie.{of}?")
            helpers.append(comment + block)
            continue
        goal, place = function.goal(of[5:])
        if goal is None:
            if plain(of[5:]) not in function.settled and "search rules" not in value:
                said(f"no goal for {of[5:]}")
                helpers.append(["-- LEFT"] + comment + block)
            continue
        if value.strip() == "search rules":
            continue
        params = [p for p in params if p != "κs"]
        value = turned(value, function, place, said)
        clauses = function.asked.get(goal)
        if clauses:
            split = by_clauses(value, clauses)
            if split is None:
                said(f"{goal} has the clauses {' '.join(clauses)}")
            else:
                value = split
        answers.append([*comment, f"pub {goal} : goal.{goal}", *unfolding, f"{goal} {' '.join(params)} ={value}"])
    inner = folder.split("/proofs/", 1)[1].replace("/", ".")
    where = f"Rattle.{crate}.proofs.{inner}"
    if invariants:
        body = "\n\n".join("\n".join(b) for b in invariants)
        tokens = set(TOKEN.findall(body))
        mine = [h for h in helpers if any(re.match(r"(?:abbrev |unfoldable |pub )*(\S+) :", l) and re.match(r"(?:abbrev |unfoldable |pub )*(\S+) :", l).group(1) in tokens for l in h)]
        if mine:
            said("a helper serves the invariant: it stands in both files")
        body = "\n\n".join("\n".join(b) for b in [*mine, *invariants])
        write(os.path.join(folder, "Invariants.antt"), top, uses(lines, body, [f"use {where}.Given as goal"]), body)
    if answers or helpers:
        body = "\n\n".join("\n".join(b) for b in [*helpers, *answers])
        write(os.path.join(folder, "Answers.antt"), [] if invariants else top, uses(lines, body, [f"use {where}.Goals as goal"]), body)
    os.remove(path)


def write(path, top, lines, body):
    with open(path, "w", encoding="utf-8") as f:
        f.write("\n".join([*top, *lines]) + "\n\n" + body + "\n")


def main(names, crates):
    report = []
    for crate in crates:
        with open(f"{names}/crates/{crate}/names.json", encoding="utf-8") as f:
            listed = json.load(f)
        for folder, _, files in sorted(os.walk(f"crates/{crate}/proofs")):
            path = os.path.join(folder, "Proof.antt")
            if "Proof.antt" not in files or "tie.close" not in open(path, encoding="utf-8").read():
                continue
            key = f"Rattle-{crate}-proofs.{folder.split('/proofs/', 1)[1].replace('/', '.')}.Lts"
            if key not in listed:
                report.append(f"{path}: {key} isn't listed")
                continue
            convert(crate, path, listed[key], report)
    print("\n".join(report))


if __name__ == "__main__":
    main(sys.argv[1], sys.argv[2:])
