#!/usr/bin/env python3
"""Counts and lists the places of docs/DESIGN-PASS.md in the sources: forms.py [--list] [COMMIT]; without a commit the files as they stand.

1 enums    enums of the shape of Option (two cases, one without values) or of Result (two cases with values, or a case named as a refusal)
1 errors   of enums like these, those that are the error of a Result
1 flags    fields of structs that are a bool
1 numbers  constants of type u32, and cases of enums that carry a number first: a kind, an error, a refusal
2 twins    functions of five lines or more that are the same but for names, numbers and texts
3 loops    `while` and `loop`; of these, those whose body counts by one, up or down
4 by hand  casts by `as`, and `return true` or `return false`
5 facts    facts that stand in the `requires` of three or more functions; three parameters that four or more functions share
6 buffers  functions with a `&mut` slice and a place or a count beside it
7 steps    `match` with six or more arms
8 answers  answers in proofs/"""
import collections
import itertools
import re
import subprocess
import sys

REFUSALS = "TooLong|NotUtf8|NoMode|NoRoom|TooFew|Refused|Failed|Wrong|Alien|Back|Cut|Unwritten|NoNumber|NoExtent|UnknownChoice"
KEYWORDS = "if|else|match|while|for|in|loop|return|let|mut|true|false|as|Some|None|Ok|Err"


def git(*words):
    return subprocess.run(["git", *words], capture_output=True, text=True, check=True).stdout


def sources(commit, ending):
    names = git("ls-tree", "-r", "--name-only", commit, "crates") if commit else git("ls-files", "crates")
    for name in names.splitlines():
        if name.endswith(ending):
            yield name, git("show", f"{commit}:{name}") if commit else open(name, encoding="utf-8").read()


def enums(text):
    for it in re.finditer(r"(?m)^(?:pub(?:\(crate\))? )?enum (\w+) \{\n(.*?)^\}", text, re.S):
        body = re.sub(r"//[^\n]*", "", it[2])
        yield it[1], re.findall(r"(?m)^    (\w+)(\(|\s*\{)?", body)


def functions(text):
    head = r"(?m)^( *)(?:pub(?:\([a-z]+\))? )?fn (\w+)(?:<[^>]*>)?\(([^)]*)\)"
    for it in re.finditer(head + r"([^{;]*?)((?:\n *(?:requires|ensures)[^\n]*(?:\n +[×→(][^\n]*)*)*)\n? *\{\n(.*?)\n\1\}", text, re.S):
        yield it[2], [re.sub(r"\s+", " ", p.strip()) for p in it[3].split(",") if p.strip()], it[5], re.sub(r"//[^\n]*", "", it[6])


def shape(body):
    body = re.sub(r"b?\"[^\"]*\"", "S", body)
    body = re.sub(r"b'[^']*'", "N", body)
    body = re.sub(rf"\b(?!(?:{KEYWORDS})\b)[A-Za-z_]\w*(::\w+)*", "x", body)
    return re.sub(r"\s+", "", re.sub(r"\b\d\w*", "N", body))


def facts(head):
    for clause in re.findall(r"requires(?: \w+)? \{ (.*?) \}(?=\n|$)", head, re.S):
        for fact in clause.split(" × "):
            yield re.sub(r"\s+", " ", fact.strip().strip("()"))


def loops(text):
    for it in re.finditer(r"(?m)^( *)(?:'\w+: )?(?:while|loop)\b.*?\{\n(.*?)^\1\}", text, re.S):
        function = re.findall(r"(?m)^ *(?:pub(?:\([a-z]+\))? )?fn (\w+)", text[: it.start()])[-1]
        yield bool(re.search(r"\b[\w.]+ \+= 1;|\b[\w.]+ = [\w.]+ [+-] 1;", it[2])), function


def found(commit):
    told = collections.defaultdict(list)
    shapes, shared, threes = (collections.defaultdict(list) for _ in range(3))
    code = list(sources(commit, ".rt"))
    errors = {it for _, text in code for it in re.findall(r"\bResult<(?:[^<>]|<[^<>]*>)*, (?:\w+::)*(\w+)>", text)}
    for file, text in code:
        name = file.removeprefix("crates/")
        for enum, cases in enums(text):
            bare = [case for case, values in cases if not values]
            two = len(cases) == 2 and len(bare) < 2
            if two or any(re.fullmatch(REFUSALS, case) for case, _ in cases):
                told["1 errors" if enum in errors else "1 enums"].append(f"{name} {enum}")
        for it in re.finditer(r"(?m)^(?:pub(?:\(crate\))? )?struct (\w+)[^{;]*\{\n(.*?)^\}", text, re.S):
            told["1 flags"] += [f"{name} {it[1]}.{field}" for field in re.findall(r"(?m)^    (?:pub )?(\w+): bool,", it[2])]
        told["1 numbers"] += [f"{name} {it}" for it in re.findall(r"(?m)^(?:pub(?:\(crate\))? )?const (\w+): u32\b", text)]
        told["1 numbers"] += [f"{name} {it}" for it in re.findall(r"(?m)^    (\w+)\(u32, (?:u32|usize)", text)]
        for by_one, function in loops(text):
            told["3 loops"].append(f"{name} {function}")
            if by_one:
                told["3 loops by one"].append(f"{name} {function}")
        told["4 casts"] += [name for _ in re.findall(r" as (?:u8|u16|u32|u64|usize|i64)\b", text)]
        told["4 returns"] += [name for _ in re.findall(r"return (?:true|false);", text)]
        matches = re.finditer(r"(?m)^( *)(?:let .* = )?match [^\n]*\{\n(.*?)^\1\}", text, re.S)
        told["7 steps"] += [name for it in matches if len(re.findall(rf"(?m)^{it[1]}    \S.*=>", it[2])) >= 6]
        for function, parameters, head, body in functions(text):
            place = f"{name} {function}"
            if body.count("\n") >= 5:
                shapes[shape(body)].append(place)
            for fact in set(facts(head)):
                shared[fact].append(place)
            for three in itertools.combinations(parameters, 3):
                threes[three].append(place)
            lent = any("&mut [" in it for it in parameters)
            if lent and any(re.match(r"(at|free|len|count|used|w|n|items): usize", it) for it in parameters):
                told["6 buffers"].append(place)
    told["2 twins"] = [" = ".join(it) for it in shapes.values() if len(it) > 1]
    told["5 facts"] = [f"{fact}: {len(it)}" for fact, it in shared.items() if len(it) > 2]
    told["5 parameters"] = [f"{', '.join(three)}: {len(it)}" for three, it in threes.items() if len(it) > 3]
    for file, text in sources(commit, "Answers.antt"):
        told["8 answers"] += [f"{file} {it}" for it in re.findall(r"(?m)^pub (\S+) : goal\.", text)]
    return told


def main(words):
    listed = "--list" in words
    commit = next((it for it in words if it != "--list"), None)
    for point, places in sorted(found(commit).items()):
        print(f"{point}: {len(places)}")
        if listed:
            print("".join(f"    {it}\n" for it in places), end="")


main(sys.argv[1:])
