#!/usr/bin/env python3
"""Turns a function's Proof.antt, written for the older Rattle, into Invariants.antt and Answers.antt, by the names that the check gives.

usage: answers.py NAMES CRATE..     in the repository; NAMES is the names.json of `rt check --generated DIR --old-names`

What it can't place is printed. The check decides; this is for the port alone.
"""
import json
import os
import re
import sys

DECL = re.compile(r"^(abbrev |unfoldable )?(pub )?([^\s:()]+) : (.*)$")


def norm(name):
    name = name.replace("-", "_")
    return re.sub(r"^(overflow|nonzero|bounds)_", "", name)


def chunks(lines):
    """The top-level declarations: each a list of lines, with the comments before it."""
    out, current, comments = [], None, []
    for line in lines:
        if not line.strip():
            continue
        if line.startswith("--"):
            comments.append(line)
        elif DECL.match(line) and not line.startswith(" "):
            current = comments + [line]
            comments = []
            out.append(current)
        elif current is not None:
            current += comments + [line]
            comments = []
        else:
            out.append([line])
    return out


def head(chunk):
    for i, line in enumerate(chunk):
        if not line.startswith("--"):
            return i, DECL.match(line)
    return 0, None


def chain_of(names, at):
    """The steps before a goal, the nearest first, each with what its arm says."""
    places = {p[0]: (p, a) for p, a in zip(names["places"], names["arms"])}
    out = []
    while at in places:
        out.append(places[at])
        at = places[at][0][1]
    return out


def turn_paths(text, names, report, at=None):
    """Paths of an answer: no .before, steps by their new names, and what an arm of a match says by its fields."""
    text = re.sub(r"(\.before)+(?![\w-])", "", text)
    text = re.sub(r"(?<=\.)(\w+)_lem(?![\w-])", r"\1", text)
    text = re.sub(r"(?<=\.)([A-Z])([a-z]+-[a-z])", lambda m: m[1].lower() + m[2], text)
    fields, lent, inner = {}, {}, {}
    chain = chain_of(names, at) if at else list(zip(names["places"], names["arms"]))
    for place, _ in chain:
        old, new = place[2]
        if old:
            fields.setdefault(norm(old), new)
            for a, b in place[4]:
                inner.setdefault(norm(old), {}).setdefault(norm(a), b)
            if place[3] in names["params"]:
                lent[norm(old)] = names["params"][place[3]]
    arms = []
    for place, arm in chain:
        if arm:
            step, _, entries = arm
            step = place[2][1] if place[2][0] == "match" else step
            for field, old, path in entries:
                if path:
                    arms.append((norm(old), path, step + "." + field))
                else:
                    arms.append((norm(old), path, step + "." + field))
    arms.sort(key=lambda a: -len(a[1]))

    roots = {"c"}
    for _ in range(4):
        roots |= {a for a, b in re.findall(r"let ([\w'₀-₉]+) = ([\w'₀-₉]+) in", text) if b in roots}

    def one(m):
        if m[1] not in roots:
            return m[0]
        parts = m[2].split(".")[1:]
        for old, path, new in arms:
            if norm(parts[0]) == old and parts[1 : 1 + len(path)] == path:
                return m[1] + "." + ".".join([new] + parts[1 + len(path) :])
        if norm(parts[0]) in lent and parts[1:2] == ["new"]:
            at = 2
            while parts[at : at + 1] == ["1"]:
                at += 1
            if parts[at : at + 1] == ["0"] and at - 2 < len(lent[norm(parts[0])]):
                parts[2 : at + 1] = [lent[norm(parts[0])][at - 2]]
        if len(parts) > 1 and norm(parts[1]) in inner.get(norm(parts[0]), {}):
            parts[1] = inner[norm(parts[0])][norm(parts[1])]
        if norm(parts[0]) in fields:
            parts[0] = fields[norm(parts[0])]
        return m[1] + "." + ".".join(parts)

    return re.sub(r"(?<![\w.₀-₉'-])([\w₀-₉']+)((?:\.[\w'-]+)+)", one, text)


def variables(text, params, wanted):
    """An invariant's body with its parameters as fields of l."""
    sub = dict(zip(params, wanted))

    def one(m):
        return sub.get(m[0], m[0])

    return re.sub(r"(?<![\w.'₀-₉-])[^\W\d][\w'₀-₉]*(?![\w'₀-₉])", one, text)


def imports_for(imports, text):
    words = set(re.findall(r'[^\s(){}.;,@"«»]+', text))
    out = []
    for module, names in imports:
        kept = [n for n in names if n.split(" as ")[-1].strip() in words or used_operator(n, text)]
        if kept:
            out.append("use %s.{%s}" % (module, ", ".join(kept)))
    return out


def used_operator(name, text):
    if "◌" not in name:
        return False
    return all(p.strip() in text for p in name.split("◌") if p.strip())


def turn_cycle(crate, function, path, names):
    """A function that calls itself: one proof, with the measure's value as an argument of each answer."""
    text = open(path, encoding="utf-8").read()
    report, answers, invariants, imports = [], [], [], []
    name = function.lstrip("+")
    for m in re.finditer(r"(?m)^use ([\w.·+-]+)\.\{(.*)\}$", text):
        if not re.search(r"\.Tie$|\.proofs\.\+%s$|PlainCycle|Kinds" % name, m[1]):
            imports.append((m[1], [n.strip() for n in m[2].split(",")]))
    needs = {norm(a): b for a, b in names["needs"]}
    at_of = {b: at[0] for (_, b), at in zip(names["needs"], names["asked_at"])}
    for m in re.finditer(r"(?m)^(\S+) : \(t : ℕ\) → \S+-lts\.Need-(\S+) \((?:.|\n)*?\n\1 t c( κs)? = (.*(?:\n .*)*)", text):
        new = needs.get(norm(m[2]))
        if not new:
            report.append("no goal for " + m[2])
            continue
        if m[4].strip() in ("search rules", "tt", "omega arith"):
            continue
        answers += ["", "pub %s : goal.%s" % (new, new), "%s t c = %s" % (new, turn_paths(m[4], names, report, at_of.get(new)))]
    m = re.search(r"(?m)^μ_%s κs a = a((?:\.1)*)\.0$" % name, text)
    params = names["params"]["merged::%s::%s" % (crate, name)]
    invariants = ["", "abbrev pub decreases-%s : goal.decreases-%s" % (name, name), "decreases-%s l = l.%s" % (name, params[m[1].count("1")])]
    folder = os.path.dirname(path)
    comment = [l for l in text.split("\n")[:1] if l.startswith("--")]
    module = "Rattle.%s.proofs.%s" % (crate, function)
    t = "\n".join(invariants)
    with open(os.path.join(folder, "Invariants.antt"), "w", encoding="utf-8") as f:
        f.write("\n".join(comment + ["use %s.Given as goal" % module]) + "\n" + t + "\n")
    t = "\n".join(answers)
    with open(os.path.join(folder, "Answers.antt"), "w", encoding="utf-8") as f:
        f.write("\n".join(comment + imports_for(imports, t) + ["use %s.Goals as goal" % module]) + "\n" + t + "\n")
    os.remove(path)
    for r in report:
        print("%s::%s: %s" % (crate, function, r))


def turn(crate, function, path, names):
    text = open(path, encoding="utf-8").read()
    report = []
    lines = text.split("\n")
    comment, imports, body = [], [], []
    for i, line in enumerate(lines):
        if line.startswith("use "):
            m = re.match(r"use ([\w.·+-]+)\.\{(.*)\}$", line)
            if m:
                imports.append((m[1], [n.strip() for n in m[2].split(",")]))
            elif not re.search(r" as (tie|reads|lts|[\w-]+-reads|[\w-]+-lts)$", line):
                imports.append((line, None))
            continue
        if not imports and not body and line.startswith("--"):
            comment.append(line)
            continue
        body.append(line)
    plain = [i[0] for i in imports if i[1] is None]
    imports = [i for i in imports if i[1] is not None and not re.search(r"\.proofs\.%s\.(Statement|Tie|Reads|Lts)$" % re.escape(function), i[0])]
    parts = chunks(body)
    # the order of the goals
    spec = "\n".join("\n".join(c) for c in parts if re.search(r"tie\.spec", "\n".join(c)))
    order = re.search(r"tie\.spec([^)]*)", spec)
    order = order[1].split() if order else []
    declared = {}
    for c in parts:
        i, m = head(c)
        if m and m[4].startswith("tie."):
            declared[m[3]] = m[4]
    settled = {norm(s) for s in names["settled"]}
    goals = [o for o in order if declared.get(o, "").startswith("tie.Need-")]
    old_of = {o: re.match(r"tie\.Need-(\S+)", declared[o])[1] for o in goals}
    left = [o for o in goals if norm(old_of[o]) not in settled]
    needs = names["needs"]
    if len(left) != len(needs):
        known = {norm(a) for a, _ in needs}
        left = [o for o in left if norm(old_of[o]) in known or not norm(old_of[o]).startswith(("same_", "enum_", "shared_", "struct_"))]
    new_of = {}
    at_of = {b: at[0] for (_, b), at in zip(needs, names["asked_at"])}
    by_name = {norm(a): b for a, b in needs}
    if len(left) == len(needs):
        for o, (a, b) in zip(left, needs):
            new_of[o] = b
    else:
        report.append("%d answers for %d goals" % (len(left), len(needs)))
        for o in left:
            if norm(old_of[o]) in by_name:
                new_of[o] = by_name[norm(old_of[o])]
            else:
                report.append("no goal for %s" % old_of[o])
    invariants, answers, helpers = [], [], []
    loops = names["loops"]
    for c in parts:
        i, m = head(c)
        whole = "\n".join(c)
        if not m:
            report.append("not placed: " + whole[:80])
            continue
        name, kind = m[3], m[4]
        if "tie.close" in whole or name.endswith("-spec") and "statement" in kind or name.endswith("_spec") and "statement" in kind:
            continue
        if re.match(r"tie\.(invariant|decreases)", kind):
            old = re.match(r"tie\.(invariant|decreases)[-_]?(\S*)", kind)
            found = [k for k, l in enumerate(loops) if norm(l[0][0]) == norm(old[2])]
            if not found:
                report.append("no loop %s" % kind)
                continue
            (o, new), args = loops[found[0]]
            line = " ".join(l.strip() for l in c[i + 1 :] if not l.startswith("unfolding"))
            m2 = re.match(r"\S+ (.*?) = (.*)$", line, re.S)
            params = m2[1].split()
            changed = names["changed"][found[0]] if found[0] < len(names["changed"]) else []
            wanted = ["l.initial." + a if f else "l." + a for a, f in zip(args, changed)]
            wanted += ["l." + a for a, f in zip(args, changed) if f]
            if len(wanted) != len(params):
                report.append("%s: %d parameters for %d" % (kind, len(params), len(wanted)))
            invariants += ["", "abbrev pub %s-%s : goal.%s-%s" % (old[1], new, old[1], new)]
            invariants += [l for l in c[i + 1 :] if l.startswith("unfolding")]
            plain_args = [p[:-1] if p.endswith("₀") else p for p in params]
            names_of = dict(zip(params, wanted))
            invariants += ["%s-%s l = %s" % (old[1], new, variables(m2[2], params, wanted))]
            continue
        if kind.startswith("tie.Need-"):
            if name not in new_of:
                continue
            new = new_of[name]
            rest = c[i + 1 :]
            text_ = "\n".join(rest)
            if re.fullmatch(r"%s c( κs)? = search rules\s*" % re.escape(name), text_.strip()):
                continue
            text_ = turn_paths(text_, names, report, at_of.get(new))
            text_ = re.sub(r"(?m)^%s c κs" % re.escape(name), new + " c", text_)
            text_ = re.sub(r"(?m)^%s(?=\s)" % re.escape(name), new, text_)
            if "κs" in text_:
                report.append("lifetimes in " + new)
            answers += [""] + c[:i] + ["pub %s : goal.%s" % (new, new)] + [text_]
            continue
        helpers += [""] + [turn_paths("\n".join(c), names, report) if "lts." in whole or "tie." in whole else whole]
        if "lts." in whole or "tie." in whole:
            report.append("helper %s names generated records" % name)
    folder = os.path.dirname(path)
    module = "Rattle.%s.proofs.%s" % (crate, function)
    if invariants:
        t = "\n".join(invariants)
        with open(os.path.join(folder, "Invariants.antt"), "w", encoding="utf-8") as f:
            f.write("\n".join(comment + imports_for(imports, t) + [u for u in plain if re.search(r"(?<![\w.])%s\." % re.escape(u.split()[-1]), t)] + ["use %s.Given as goal" % module]) + "\n" + t + "\n")
    if answers:
        t = "\n".join(helpers + answers)
        with open(os.path.join(folder, "Answers.antt"), "w", encoding="utf-8") as f:
            f.write("\n".join(comment + imports_for(imports, t) + plain + ["use %s.Goals as goal" % module]) + "\n" + t + "\n")
    elif helpers:
        report.append("helpers and no answers")
    os.remove(path)
    for r in report:
        print("%s::%s: %s" % (crate, function, r))


def main(arguments):
    names = json.load(open(arguments[0], encoding="utf-8"))
    for crate in arguments[1:]:
        for folder, _, files in sorted(os.walk("crates/%s/proofs" % crate)):
            if "Proof.antt" in files:
                function = os.path.relpath(folder, "crates/%s/proofs" % crate).replace("/", ".")
                key = next((k for k in ("Rattle-merged-proofs.%s.%s.Lts" % (crate, function), "Rattle-%s-proofs.%s.Lts" % (crate, function)) if k in names), None)
                cycle = "Rattle-merged-proofs.%s.%s.Lts-%s" % (crate, function, function.lstrip("+"))
                if cycle in names:
                    turn_cycle(crate, function, os.path.join(folder, "Proof.antt"), names[cycle])
                    continue
                if not key:
                    print("%s::%s: no names" % (crate, function))
                    continue
                turn(crate, function, os.path.join(folder, "Proof.antt"), names[key])
    return 0


if __name__ == "__main__":
    sys.exit(main(sys.argv[1:]))
