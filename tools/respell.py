#!/usr/bin/env python3
"""Brings the repository's own definitions and lemmas to the spelling of today's Rattle: words in snake case, a dash
only between a type or a definition and an operation of lists or numbers. Run once at the top, right after port.py;
functions of src/, strings, inputs and outputs keep their names. `respell.py --list` prints old and new names and
changes nothing."""
import glob
import re
import sys

SEP = r"[\s(){}\[\];,.:|«»\"`]"
DECLARED = re.compile(
    r"^\s*(?:(?:unfoldable|abbrev|pub|record|data)\s+)*"
    r"([^\s:(){}|,=.;]+(?:\s+[^\s:(){}|,=.;]+)*?)"
    r"(?:\s*(?:\{[^{}]*\}|\([^()]*\)))*\s+:\s")
# parts of lemma names that name an operation of lists or numbers
OPERATIONS = {"append", "nil", "cons", "zero", "suc", "add", "mul", "sub", "div", "length", "drop", "take", "set",
              "map", "cond", "not", "and", "or", "replicate", "slice", "get_or", "reverse"}


def lemma_files():
    return sorted(glob.glob("crates/*/specs/**/*.antt", recursive=True) + glob.glob("crates/*/proofs/*.antt"))


def ghost_files():
    return sorted(glob.glob("crates/*/specs/**/*.antt", recursive=True)
                  + glob.glob("crates/*/proofs/**/*.antt", recursive=True))


def declared():
    own, spec = set(), set()
    for path in lemma_files():
        for line in open(path, encoding="utf-8"):
            if line.lstrip().startswith("--"):
                continue
            found = DECLARED.match(line)
            if found:
                for name in found.group(1).split():
                    own.add(name)
                    if "/specs/" in path:
                        spec.add(name)
    return own, spec


def imported():
    """Names that some file takes from the library."""
    names = set()
    for path in ghost_files() + glob.glob("crates/*/src/**/*.rt", recursive=True):
        text = open(path, encoding="utf-8").read()
        for found in re.finditer(r"use\s+([^\s{;]+)\.\{([^}]*)\}", text):
            if found.group(1).startswith("Rattle.") and not found.group(1).startswith("Rattle.std"):
                continue
            for name in found.group(2).split(","):
                names.add(name.strip().split(" as ")[0])
    return names


def snake(name):
    """Camel case with a small first letter turned to snake case; a type's name, a single letter and what a dash joins stay."""
    parts = []
    for part in name.split("-"):
        if re.match(r"^[a-z]", part):
            part = re.sub(r"(?<=[a-z0-9])([A-Z])(?=[a-z])", lambda m: "_" + m.group(1).lower(), part)
        parts.append(part)
    return "-".join(parts)


def joined(name, names, operations, types):
    """A dash stays between a type or a definition and an operation of lists or numbers, and between two of these."""
    parts = name.split("-")
    if len(parts) == 1 or not all(parts):
        return name
    out = parts[0]
    for k in range(1, len(parts)):
        before, here = re.split("-", out)[-1], parts[k]
        kept = before in types or (here in operations and (before in operations or before in names))
        out += ("-" if kept else "_") + here
    return out


# single names that the rules don't reach
OTHERS = {"isT": "is_T", "isF": "is_F", "onT": "on_T", "onF": "on_F", "symbolT": "symbol_T", "symbolF": "symbol_F", "longC": "long_C",
          "root9T": "root9_T", "root9F": "root9_F", "root9T-fwd": "root9_T_fwd", "root9F-fwd": "root9_F_fwd", "root9T_fwd": "root9_T_fwd", "root9F_fwd": "root9_F_fwd",
          "F-no": "F_no", "areForms-append": "are_forms_append", "bu-sub": "bu_sub", "each-sub": "each_sub", "fold-sub": "fold_sub",
          "length-append-one": "length_append_one", "link-add": "link_add", "loop-sub": "loop_sub", "meets-cond": "meets_cond",
          "on-add": "on_add", "on-cond": "on_cond", "on-div": "on_div", "on-mul": "on_mul", "on-sub": "on_sub",
          "one-or-more": "one_or_more", "part-and-end": "part_and_end", "rep-length": "rep_length", "right-length": "right_length",
          "right-not": "right_not", "selector-zero": "selector_zero", "twice-not-ten": "twice_not_ten", "two-or-more": "two_or_more",
          "applyAll-sub": "apply_all_sub", "apply_all-sub": "apply_all_sub", "chain-sub": "chain_sub", "condition-sub": "condition_sub",
          "construct-sub": "construct_sub", "insert-sub": "insert_sub", "while-sub": "while_sub", "atom-not": "atom_not",
          "other-not": "other_not", "plain-not": "plain_not", "select-not": "select_not", "select-zero": "select_zero",
          "left-length": "left_length", "word-add": "word_add", "word-div": "word_div", "word-length": "word_length",
          "word-mul": "word_mul", "word-not": "word_not", "word-or": "word_or", "word-reverse": "word_reverse", "word-sub": "word_sub",
          "n-and-1": "n_and_1", "m-and-m-times-n": "m_and_m_times_n", "rep-nil": "rep_nil", "one-Cell": "one_cell", "one_Cell": "one_cell", "readAt": "read_at", "applyAll'": "apply_all'"}


def table():
    own, spec = declared()
    library = imported()
    types = {n for n in own if n[:1].isupper()}
    names = types | {snake(n) for n in own if "-" not in n}
    new = {}
    for name in sorted(own):
        if name in library:
            continue
        now = joined(snake(name), names, OPERATIONS, types)
        if now != name:
            new[name] = now
    new.update(OTHERS)
    return new, own, library


def tokens(text):
    return set(re.split(SEP + "+", text))


# lemmas in snake case that would fall together with a definition, by crate: they get `_lem`
LEMMAS = {"theorems": ["is_name", "none_left", "on_read", "run_call"], "lexer": ["spelled_at"], "nattglod": ["too_few"]}


def settle(new):
    """Names that fall together in some file: the definition keeps the plain name and a lemma gets `_lem`. Names of
    different modules that no file has both of may be alike."""
    files = {path: tokens(open(path, encoding="utf-8").read())
             for path in ghost_files() + glob.glob("crates/*/src/**/*.rt", recursive=True)}
    own, _ = declared()
    by_new = {}
    for name in own:
        by_new.setdefault(new.get(name, name), []).append(name)
    said = []
    for now, olds in sorted(by_new.items()):
        if len(olds) < 2:
            continue
        together = [p for p, t in files.items() if sum(o in t for o in olds) > 1]
        if not together:
            continue
        for old in olds:
            if old == "row-select-right":
                new.pop(old, None)
            elif "-" in old and old != "row-selectRight":
                new[old] = now + "_lem"
        said.append((now, olds, [(o, new.get(o, o)) for o in olds], together[:2]))
    return said


def turn(text, new):
    return re.sub(r"[^\s(){}\[\];,.:|«»\"`]+", lambda m: new.get(m.group(0), m.group(0)), text)


def turn_comment(text, new):
    camel = {o: n for o, n in new.items() if "-" not in o}
    return turn(text, camel)


def turn_antt(text, new):
    lines = []
    for line in text.split("\n"):
        if line.lstrip().startswith("--"):
            lines.append(turn_comment(line, new))
        else:
            lines.append(turn(line, new))
    return "\n".join(lines)


CLAUSE = re.compile(r"^\s*(?:pub\s+)?(?:ghost|requires|ensures|also_owns|also_shares|where)\b")


def turn_rt(text, new):
    """Ghost lines and clauses (which may go over several lines), and names in comments."""
    lines, depth, inside = [], 0, False
    for line in text.split("\n"):
        if inside or CLAUSE.match(line):
            lines.append(turn(line, new))
            depth += line.count("{") - line.count("}")
            inside = depth > 0
            if not inside:
                depth = 0
        elif line.lstrip().startswith("//"):
            lines.append(turn_comment(line, new))
        else:
            lines.append(line)
    return "\n".join(lines)


def turn_page(text, new):
    """Names between backquotes, and camel case names standing alone."""
    camel = {o: n for o, n in new.items() if "-" not in o}
    text = re.sub(r"`[^`\n]*`", lambda m: "`" + turn(m.group(0)[1:-1], new) + "`", text)
    return turn(text, camel)


def main():
    new, own, library = table()
    said = settle(new)
    if sys.argv[1:] == ["--list"]:
        for old, now in sorted(new.items()):
            print(old, now, "in the library" if now in library else "")
        for line in said:
            print("together:", *line)
        print(len(new), "names")
        return
    for path in ghost_files():
        here = dict(new)
        crate = path.split("/")[1]
        if crate in ("linker", "evaluator"):
            here["is-chain"] = "is_chain"  # a constructor; no file there has the definition of that name
        for name in LEMMAS.get(crate, []):
            if re.sub(r"_(.)", lambda m: m.group(1).upper(), name) in new:
                here[name] = name + "_lem"
        rewrite(path, lambda t: turn_antt(t, here))
    for path in glob.glob("crates/*/src/**/*.rt", recursive=True):
        rewrite(path, lambda t: turn_rt(t, new))
    for path in glob.glob("crates/*/must-fail/*.edit") + glob.glob("README.md") + glob.glob("docs/*.md"):
        rewrite(path, lambda t: turn_page(t, new))


def rewrite(path, turned):
    text = open(path, encoding="utf-8").read()
    now = turned(text)
    if now != text:
        open(path, "w", encoding="utf-8").write(now)


if __name__ == "__main__":
    main()
