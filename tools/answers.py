#!/usr/bin/env python3
"""Turns a crate's old proofs to today's form: proofs/F/Proof.antt that closes a Tie becomes Invariants.antt and Answers.antt.

usage: python3 tools/answers.py CRATE [FUNCTION..]     at the top of the repository; FUNCTION as its folder below proofs/

Goals and steps get today's names (`rt check --generated DIR --old-names`); answers that only search are left out, since the check tries that
itself; `.before` goes out of every path. What it could not turn is printed: by hand. It proves nothing: rt check decides.
"""
import glob
import json
import os
import re
import subprocess
import sys
import tempfile

PATH = re.compile(r"(?<![\w'.-])([A-Za-zκμΓ][\w'₀-₉]*(?:-[\w'₀-₉]+)*)((?:\.[\w'₀-₉]+(?:-[\w'₀-₉]+)*)+)")
FIELDS = {"inv": "invariant", "pre": "requires", "type-inv": "type_inv", "ref-ptr": "ref_ptr", "ghost-name": "ghost_name"}


def norm(name):
    return name.replace("_", "-")


def parameters(crate, callee):
    """The parameters of a function that the crate calls, by name."""
    for f in sorted(glob.glob("crates/%s/src/*.rt" % crate)) + sorted(glob.glob("crates/*/src/*.rt")):
        with open(f, encoding="utf-8") as it:
            m = re.search(r"\bfn %s\s*(?:<[^>]*>)?\(([^{]*?)\)\s*(?:->|\n|\{|requires|ensures)" % re.escape(callee), it.read(), re.S)
        if m:
            return [p.split(":")[0].replace("mut ", "").replace("&", "").strip() for p in re.split(r",(?![^\[\(<]*[\]\)>])", m[1]) if p.strip()]
    return []


def declarations(text):
    """The file's head (comments and use lines), then its declarations: lists of lines."""
    head, decls, now = [], [], []
    for line in text.split("\n"):
        if not decls and not now and (line.startswith(("--", "use ")) or not line.strip()):
            head.append(line)
        elif not line.strip():
            if now:
                decls.append(now)
            now = []
        else:
            now.append(line)
    if now:
        decls.append(now)
    return head, decls


class Turned:
    def __init__(self, crate, names):
        self.crate = crate
        self.steps = {}
        for place in names["places"]:
            old, new = place[2]
            if old:
                self.steps.setdefault(norm(old), new)
        for (old, new), _ in names["loops"]:
            self.steps.setdefault(norm(old), new)
        self.args = {}
        for old, new in names.get("args", []):
            if old.startswith(".args ."):
                self.args[norm(old[7:])] = new[7:]
        self.params = {norm(k.split("::")[-1]): v for k, v in names.get("params", {}).items()}
        self.left = []

    def path(self, root, parts, level, out_root):
        """A path by today's names, and the level that it ends at: place, step, args or other."""
        new, step = [], None
        i = 0
        while i < len(parts):
            p = parts[i]
            if level == "place":
                if p == "before":
                    pass
                elif norm(p) in self.steps:
                    new.append(self.steps[norm(p)])
                    level, step = "step", p
                elif p == "args":
                    new.append(p)
                    level = "args"
                else:
                    new.append(FIELDS.get(p, p))
                    level = "other"
            elif level == "step":
                if p == "new" and step:
                    k = 0
                    while i + 1 + k < len(parts) and parts[i + 1 + k] == "1":
                        k += 1
                    callee = norm(step)
                    names = self.params.get(callee) or self.params.get(re.sub(r"-?\d*$", "", callee)) or parameters(self.crate, callee.replace("-", "_")) or parameters(self.crate, re.sub(r"-?\d*$", "", callee).replace("-", "_"))
                    if i + 1 + k < len(parts) and parts[i + 1 + k] == "0" and k < len(names):
                        new += ["new", names[k]]
                        i += k + 1
                    else:
                        new.append("new")
                        self.left.append("`%s.%s`: name the parameter after .new" % (root, ".".join(parts)))
                else:
                    new.append(FIELDS.get(p, p))
                    if step and p == "ensures" and i + 1 < len(parts) and parts[i + 1].isdigit():
                        callee = norm(step)
                        for word in (callee, re.sub(r"-?\d*$", "", callee)):
                            clauses = clause_names(self.crate, word.replace("-", "_"))
                            if len(clauses) > int(parts[i + 1]):
                                new.append(clauses[int(parts[i + 1])])
                                i += 1
                                break
                level = "other"
            elif level == "args":
                new.append(self.args.get(norm(p), p.replace("-", "_")))
                level = "other"
            else:
                new.append(FIELDS.get(p, p.replace("-", "_")))
            i += 1
        return out_root + "".join("." + p for p in new), level

    def body(self, text):
        known = {"c": ("place", "c")}

        def walk(m):
            root, parts = m[1], m[2][1:].split(".")
            if root not in known:
                return m[0]
            level, name = known[root]
            return self.path(root, parts, level, name)[0]

        out, at = [], 0
        let = re.compile(r"let ([\w'₀-₉]+)(?: : [^=\n]+)? = ([\w'₀-₉]+)((?:\.[\w'₀-₉]+(?:-[\w'₀-₉]+)*)*) in\s*")
        while True:
            m = let.search(text, at)
            if not m:
                out.append(PATH.sub(walk, text[at:]))
                break
            out.append(PATH.sub(walk, text[at:m.start()]))
            name, root, parts = m[1], m[2], [p for p in m[3].split(".") if p]
            if root in known:
                level, base = known[root]
                new, level = self.path(root, parts, level, base)
                if level == "place":
                    rest = text[m.end():]
                    if re.search(r"(?<![\w'.-])%s(?![\w'.-])" % re.escape(name), rest):
                        out.append("let %s = %s in%s" % (name, new, m[0][len(m[0].rstrip()):]))
                    known[name] = ("place", new)
                else:
                    out.append("let %s = %s in%s" % (name, new, m[0][len(m[0].rstrip()):]))
                    known[name] = (level if level in ("step", "args") else "other", name)
            else:
                out.append(PATH.sub(walk, m[0]))
                known.pop(name, None)
            at = m.end()
        return "".join(out)


def clause_names(crate, callee):
    """The names of a function's ensures clauses, in order; [] where it has one without a name, or cannot be found."""
    for f in sorted(glob.glob("crates/%s/src/*.rt" % crate)) + sorted(glob.glob("crates/*/src/*.rt")):
        with open(f, encoding="utf-8") as it:
            m = re.search(r"\bfn %s\s*(?:<[^>]*>)?\(.*?\n\{\n" % re.escape(callee), it.read(), re.S)
        if m:
            return re.findall(r"^    ensures (\w+) \{", m[0], re.M)
    return []


def closing(text, at):
    """Where the bracket that opens at a place closes."""
    depth = 0
    for i in range(at, len(text)):
        depth += {"(": 1, "{": 1, "[": 1, ")": -1, "}": -1, "]": -1}.get(text[i], 0)
        if depth == 0:
            return i
    return -1


def parts_of(text):
    """The parts of a tuple's inside, at its outer commas."""
    depth, out, now = 0, [], ""
    for ch in text:
        depth += {"(": 1, "{": 1, "[": 1, ")": -1, "}": -1, "]": -1}.get(ch, 0)
        if ch == "," and depth == 0:
            out.append(now)
            now = ""
        else:
            now += ch
    if now.strip():
        out.append(now)
    return [p.strip() for p in out]


def as_record(body, names):
    """A tuple of a function's clauses as the record that they are now."""
    text = body.rstrip()
    if text.endswith(")"):
        for m in re.finditer(r"(?:^|\bin )\s*\(", text):
            at = m.end() - 1
            if closing(text, at) == len(text) - 1:
                inside = parts_of(text[at + 1:-1])
                if len(inside) == len(names):
                    return text[:at].rstrip() + "\n    record { " + "; ".join("%s = %s" % p for p in zip(names, inside)) + " }"
    last = 0
    for m in re.finditer(r"\bin\s", text):
        before = text[:m.start()]
        if all(before.count(a) == before.count(b) for a, b in ("()", "[]", "{}")):
            last = m.end()
    head, body = text[:last], text[last:].strip()
    if body.startswith("elim ") or " as " in body:
        return None
    return "%s\n    let all = %s in\n    record { %s }" % (head.rstrip(), body, "; ".join("%s = all.%d" % (n, i) for i, n in enumerate(names)))


def tests(text):
    """Tests and lengths as they are known now: `.true` of `!x` says that x is false, and a field array's length is found by search."""
    text = re.sub(r"\(not-(?:true|false) (?:_|\(_\)) (c\.if-not[\w-]*\.(?:true|false))\)", r"\1", text)
    text = re.sub(r"not-(?:true|false) (?:_|\(_\)) (c\.if-not[\w-]*\.(?:true|false))", r"\1", text)
    text = re.sub(r"search \(rules, [\w.]+\.well_formed[\w.]*\)", "search rules", text)
    text = re.sub(r"search \(rules, c\.well-formed[\w.]*\)", "search rules", text)
    return text


def first_word(text):
    """What a declaration declares."""
    words = text.split()
    while words[0] in ("abbrev", "pub", "unfoldable", "record", "data"):
        words = words[1:]
    return words[0]


def replaced(text, words):
    """Whole words replaced, where they begin a path or stand alone."""
    if not words:
        return text
    return re.sub(r"(?<![\w'.₀-₉-])(%s)(?![\w'₀-₉])" % "|".join(sorted(map(re.escape, words), key=len, reverse=True)), lambda m: words[m[1]], text)


def turn(crate, fn, names):
    folder = "crates/%s/proofs/%s" % (crate, fn)
    with open(folder + "/Proof.antt", encoding="utf-8") as it:
        text = it.read()
    if " as tie" not in text:
        return ["%s: a walk by hand" % fn]
    t = Turned(crate, names)
    head, decls = declarations(text)
    comments = [l for l in head if l.startswith("--")]
    uses = [l for l in head if l.startswith("use ") and ".Statement." not in l and not l.endswith(" as tie") and not l.startswith("use borrow.Author.Rules.")]
    spec = decls[-1] if decls and re.match(r"(pub )?\S+[-_]spec :", decls[-1][0]) else None
    given = []
    if spec:
        decls = decls[:-1]
        given = [w for w in " ".join(spec).split("tie.spec")[-1].replace(")", " ").replace("(", " ").split() if w]
    goals = [w for w in given if not re.match(r"(invariant-|Inv-|decreases-|μ-)", w)]
    needs = names["needs"]
    by_place = dict(zip(goals, [n[1] for n in needs])) if len(goals) == len(needs) else {}
    by_name = {norm(o): n for o, n in needs}
    loops = {}
    for (old, new), live in names["loops"]:
        loops[norm(old)] = (new, live)
    changed = dict(zip([norm(l[0][0]) for l in names["loops"]], names["changed"]))
    invariants, answers, helpers = [], [], []
    dropped = 0
    for d in decls:
        m = re.match(r"(?:pub )?(?:abbrev )?(?:pub )?(\S+) : tie\.(\S+)(.*)", d[0])
        if not m:
            helpers.append(d)
            continue
        name, kind, more = m[1], m[2], m[3]
        k = re.match(r"(invariant|InvT|decreases|MeasureT)-(.+)", kind)
        if k:
            loop = norm(k[2])
            if loop not in loops:
                t.left.append("no loop for " + name)
                continue
            new, live = loops[loop]
            what = "invariant" if k[1] in ("invariant", "InvT") else "decreases"
            eq = "\n".join(d[1:])
            unfold = ""
            if eq.startswith("unfolding"):
                unfold, eq = eq.split("\n", 1)
                unfold += "\n"
            lhs, rhs = eq.split("=", 1)
            args = lhs.split()[1:]
            flags = changed.get(loop, [])
            words = {}
            if len(args) > len(live) + sum(flags):
                args = [a for a in args if a in live or not re.fullmatch(r"t\d+", a)]
            if len(args) == len(live) + sum(flags):
                for v, a, f in zip(live, args, flags):
                    words[a] = ("l.initial." if f else "l.") + v
                for v, a in zip([v for v, f in zip(live, flags) if f], args[len(live):]):
                    words[a] = "l." + v
            else:
                t.left.append("arguments of %s: %s against %s %s" % (name, args, live, flags))
            invariants.append("abbrev pub %s-%s : goal.%s-%s\n%s%s-%s l =%s" % (what, new, what, new, unfold, what, new, replaced(rhs, words)))
            continue
        suffix = norm(kind[5:]) if kind.startswith("Need-") else None
        if suffix is None:
            t.left.append("type of %s: tie.%s" % (name, kind))
            helpers.append(d)
            continue
        new = None
        for s in (suffix, norm(name), suffix.replace("overflow-", "", 1)):
            new = new or by_name.get(s)
        new = by_place.get(name) or new
        if not new:
            t.left.append("no goal for %s (tie.%s)" % (name, kind))
            new = name
        eq = "\n".join(d[1:])
        unfold = ""
        if eq.startswith("unfolding"):
            unfold, eq = eq.split("\n", 1)
            unfold += "\n"
        lhs, rhs = eq.split("=", 1)
        first = lhs.split()[0]
        if not unfold and rhs.strip() in ("search rules", "record { fits = search rules }", "omega arith"):
            dropped += 1
            continue
        body = tests(t.body(rhs))
        own = clause_names(crate, fn.split("/")[-1])
        if new.startswith("returns") and len(own) > 1:
            turned = as_record(body, own)
            if turned:
                body = turned
            else:
                t.left.append("%s: a record of %s is wanted" % (new, ", ".join(own)))
        tail = "\n".join([""]) if True else ""
        answers.append("pub %s : goal.%s\n%s%s c =%s" % (new, new, unfold, new, body))
    module = "Rattle.%s.proofs.%s" % (crate, fn.replace("/", "."))
    texts = {}
    extra = ["\n".join(h) for h in helpers]
    used = lambda ds: uses + ["use Rattle.std.proofs.Common.{rules}"]
    if invariants:
        inside = [h for h in extra if any(re.search(r"(?<![\w-])%s(?![\w-])" % re.escape(first_word(h)), i) for i in invariants)]
        extra = [h for h in extra if h not in inside]
        shared = [first_word(h) for h in inside]
        inside = [h if re.search(r"(^|\s)pub\s", h.split(":")[0]) else re.sub(r"^((?:abbrev |unfoldable )?)", r"\1pub ", h, count=1) for h in inside]
        inside = [re.sub(r"\n  (?=\w)", "\n  pub ", h) if re.match(r"(pub )?record", h) else h for h in inside]
        if shared:
            uses = uses + ["use %s.Invariants.{%s}" % (module, ", ".join(shared))]
        texts["Invariants.antt"] = "\n".join(comments + [u for u in uses if ".Invariants.{" not in u] + ["use %s.Given as goal" % module]) + "\n\n" + "\n\n".join(inside + invariants) + "\n"
    if answers or extra:
        texts["Answers.antt"] = "\n".join(comments + used(answers) + ["use %s.Goals as goal" % module]) + "\n\n" + "\n\n".join(extra + answers) + "\n"
    for f, x in texts.items():
        with open(folder + "/" + f, "w", encoding="utf-8") as it:
            it.write(x)
    os.remove(folder + "/Proof.antt")
    if not texts:
        os.rmdir(folder)
    return ["%s: %d answers, %d left out%s" % (fn, len(answers), dropped, "".join("\n    " + l for l in t.left))]


def main():
    crate, only = sys.argv[1], sys.argv[2:]
    with tempfile.TemporaryDirectory() as room:
        said = subprocess.run(["rt", "check", "--generated", room, "--old-names"], cwd="crates/" + crate, stdout=subprocess.PIPE, stderr=subprocess.STDOUT, text=True).stdout
        if not os.path.exists(room + "/names.json"):
            print("%s: no names; rt check says:\n%s" % (crate, "\n".join([l for l in said.split("\n") if "error" in l][:20])))
            return
        with open(room + "/names.json", encoding="utf-8") as it:
            names = json.load(it)
    for f in sorted(glob.glob("crates/%s/proofs/**/Proof.antt" % crate, recursive=True)):
        fn = os.path.relpath(os.path.dirname(f), "crates/%s/proofs" % crate)
        if only and fn not in only:
            continue
        key = "Rattle-%s-proofs.%s.Lts" % (crate, fn.replace("/", "."))
        if key not in names:
            print("%s: no names (%s)" % (fn, key))
            continue
        print("\n".join(turn(crate, fn, names[key])))


main()
