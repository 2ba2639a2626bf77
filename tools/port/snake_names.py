#!/usr/bin/env python3
"""Respells the repository's own definitions and lemmas in snake case, as today's Rattle spells them.

usage: python3 tools/port/snake_names.py          at the top of the repository, once, right after port.py

Turned are the names that a file of specs/ or a file of lemmas (proofs/, but for the folders of single functions) declares and that have a
capital inside (endOfTime) or a dash (year-of-day): end_of_time, year_of_day. Types, modules, functions of src/, strings and names of a
library keep their spelling. The same names in clauses, comments, must-fail edits and the pages of docs/ are turned with them.
It prints each place where two names would fall together, and then turns nothing. An alias of a module may have a function's name.
"""
import glob
import os
import re
import sys

# own names that port.py itself turned, since a library has them: turned in pages and edits, which port.py leaves
PORTED = """
above-before above-no-nan above-zero add-done add-low after-one aheadOf all-held all-hold all-lines all-more all-read all-told 
allBelow allowed-of andThen answerOf any-order as-before as-it-was as-written ascends-back at-before at-byte at-least at-most 
at-most-one at-place at-zero before-on behind-more below-one below-or-not below-other below-top bits-fit bits-small bitsAt 
block-inside block-written blockOf blocks-more body-refused bodyAt bodyOf both-facts both-false both-meet both-true both-ways 
by-all by-answer by-bool by-end by-equal by-field by-key by-le by-length by-less by-number by-order by-place by-sign by-size 
by-tests byte-at bytes-same bytesOf call-fits callOf copy-told decimal-digit deep-is down-to either-way empty-of end-before 
end-is end-row end-short endOf entry-length entryAt enum-told every-back field-next fieldAt fields-fit first-below first-passes 
first-rows first-small firstOf fixed-told float-fits float-plain floatAt floatOf found-here foundAt four-bytes frameAt fromByte 
go-on goes-further goes-on goes-one half-le header-is held-back held-of held-on held-test high-fits in-all in-both in-order 
inTable is-call is-false is-finite is-none is-same isNone kept-at kept-by kept-free kept-more kept-of kept-off kept-whole kindOf 
known-over last-byte last-end last-line last-of last-on last-row last-turn lastOf lastOr late-of left-is left-out length-digits 
lengths-differ less-as less-none less-one less-upto less-zero lessBy let-go line-of line-refused line-step lineAt lineOf linesOf 
listed-small low-fits markOf missing-at moment-more more-room move-row move-taken moveOf moved-on movedTo movesOf mul-low 
next-field no-body no-bytes no-call no-change no-copy no-cover no-difference no-digit no-header no-items no-less no-line no-lines 
no-more no-nan no-number no-other no-room no-row no-rows no-second no-step no-text noMore none-above none-apart none-before 
none-below none-between none-equal none-from none-left none-open none-yet not-earlier not-finite not-is not-third not-yet 
nothing-left number-read number-short numberAt numbered-next odd-is of-c of-zero offsetOf one-answer one-byte one-ended one-float 
one-further one-kept one-left one-less one-line one-more one-place one-written only-if open-none or-left or-right orElse orderOf 
other-byte otherOf over-none own-value part-length parts-join partsOf place-inside place-of place-set placeIn plain-byte 
put-ended put-on ran-on read-all read-as read-back read-more read-none readOn refusal-is refused-end refused-none rest-below 
root-is root-told row-on row-small row-step rowIn rows-before rows-is rowsOf run-row runFrom same-bits same-block same-blocks 
same-byte same-bytes same-count same-end same-first same-float same-inputs same-length same-lines same-not same-number same-place 
same-rows same-self same-start same-sum same-test same-total second-below second-none seen-alike settingOf settle-other shut-open 
sideOf sightOf sightsOf signOf signedOf size-low sizeOf so so-far some-back some-byte some-size sound-more spanOf start-is 
startBy startIn startOf stateOf step-fits step-is step-keeps tableOf take-step textOf told-back too-large too-long too-short 
top-field turned-same two-digits u32At unitOf units-of until-front up-to upTo waiting-none waitsFor whole-is word-back word-in 
wordOf written-back zero-is
""".split()
TOKEN = re.compile(r"[^\s(){}\[\];,.:\"'`λ⟦⟧@|]+'*")
USE = re.compile(r"^\s*(?:pub )?(?:ghost )?use ([^\s{;]+?)(?:\.\{([^}]*)\})?(?: as (\S+?))?;?\s*$", re.M)
DECLARED = re.compile(r"^[ \t]*(?:(?:abbrev|unfoldable)\s+)?(?:pub\s+)?(?:(?:abbrev|unfoldable)\s+)?([^\s:(){}\[\].,;@\"]+)(?:\s*\{[^}]*\})?\s*:\s", re.M)
# lemmas that port.py gave, or left, the name of their function: they get _lem (the lemma's module and its name)
LEMMAS = [
    ("book_check", "Passing", "in_order"),
    ("book_series", "Turns", "last_turn"),
    ("gravity_stored", "Stored", "same_bits"),
    ("gravity_stored", "Stored", "kept_by"),
    ("repair_sort", "Looking", "goes_on"),
    ("repair_book", "Chosen", "kept_of"),
    ("repair_laws", "Twice", "no_change"),
    ("repair_laws", "Unchanged", "goes_on"),
    ("book", "Passing", "block_inside"),
]


def snake(name):
    name = name.replace("-", "_")
    if name[:1].islower():
        name = re.sub(r"(?<=[a-z0-9₀-₉])([A-Z]+)(?![a-z])", lambda m: "_" + m.group(1).lower(), name)
        name = re.sub(r"([A-Z]+)(?=[A-Z][a-z])", lambda m: "_" + m.group(1).lower(), name)
        name = re.sub(r"(?<=[a-z0-9₀-₉])([A-Z])", lambda m: "_" + m.group(1).lower(), name)
    return name


def read(path):
    with open(path, encoding="utf-8") as f:
        return f.read()


def main():
    own = [line.split(":")[0].split()[0] for line in open("crates.txt") if line.strip() and not line.startswith("#")]
    stated = [f for c in own for side in ("specs", "proofs") for f in sorted(glob.glob(f"crates/{c}/{side}/**/*.antt", recursive=True))]
    lemmas = [f for f in stated if os.path.basename(f) not in ("Proof.antt", "Answers.antt", "Invariants.antt")]
    library = set()
    for f in stated + [p for c in own for p in glob.glob(f"crates/{c}/src/**/*.rt", recursive=True)]:
        for m in USE.finditer(read(f)):
            parts = m.group(1).split(".")
            if not (parts[0] == "Rattle" and len(parts) > 1 and parts[1] in own):
                library |= {n.strip().split(" as ")[0] for n in (m.group(2) or "").split(",")}
    for crate, module, name in LEMMAS:
        for f in stated:
            text = read(f)
            if f == f"crates/{crate}/proofs/{module}.antt" or re.search(rf"use Rattle\.{crate}\.proofs\.{module}\.\{{[^}}]*(?<![\w-]){name}(?![\w-])", text):
                with open(f, "w", encoding="utf-8") as out:
                    out.write(re.sub(rf"(?<![\w.-]){name}(?![\w-])", name + "_lem", text))
    turn, aliases, declared = {}, set(), set()
    for f in lemmas:
        declared |= set(DECLARED.findall(read(f)))
        for name in DECLARED.findall(read(f)):
            new = snake(name)
            if new != name and name not in library and re.search("[a-z]", name) and "→" not in name and "◌" not in name:
                turn[name] = new
        for m in USE.finditer(read(f)):
            alias = m.group(3)
            if alias:
                aliases.add(alias)
            if alias and snake(alias) != alias:
                turn[alias] = snake(alias)
    for f in stated:
        for name in DECLARED.findall(re.sub(r"--.*", "", read(f))):
            if re.match(r"[a-z]\w*[A-Z]", name) and name not in library:
                turn[name] = snake(name)

    # rule 3 of the spelling: a lemma that would have its function's name gets _lem
    made = {}
    for name, new in turn.items():
        made.setdefault(new, []).append(name)
    for new, names in made.items():
        dashed = [n for n in names if "-" in n and n not in aliases]
        if dashed and (len(names) > 1 or new in declared):
            for n in dashed:
                turn[n] = new + "_lem"

    def turned(text):
        return TOKEN.sub(lambda m: turn.get(m.group(0), m.group(0)), text)

    bad = []
    for f in stated:
        text = USE.sub(lambda m: " ".join(n.strip().split(" as ")[-1] for n in (m.group(2) or "").split(",")), re.sub(r"--.*", "", read(f)))
        words = {m.group(0) for m in TOKEN.finditer(text) if text[m.start() - 1 : m.start()] != "."}
        made = {}
        for w in words - aliases:
            made.setdefault(turn.get(w, w), set()).add(w)
        bad += [f"{f}: {' and '.join(sorted(ws))} are both {new}" for new, ws in made.items() if len(ws) > 1]
    if bad:
        print("\n".join(bad))
        print(f"{len(bad)} names fall together: nothing was written")
        return 1
    done = 0
    pages = sorted(glob.glob("docs/**/*.md", recursive=True)) + ["README.md"]
    edits = [f for c in own for f in sorted(glob.glob(f"crates/{c}/must-fail/*.edit"))]
    source = [f for c in own for f in sorted(glob.glob(f"crates/{c}/src/**/*.rt", recursive=True))]
    for f in stated + source + edits + pages:
        text = read(f)
        if f.endswith((".md", ".edit")):
            turn.update({n: snake(n) for n in PORTED})
        if f.endswith(".md"):
            new = re.sub(r"`[^`\n]+`", lambda m: turned(m.group(0)), text)
        elif f.endswith(".rt") or f.endswith(".edit"):
            new = "".join(piece if i % 2 else turned(piece) for i, piece in enumerate(re.split(r'(b?"(?:[^"\\\n]|\\.)*")', text)))
        else:
            new = turned(text)
        if new != text:
            done += 1
            with open(f, "w", encoding="utf-8") as out:
                out.write(new)
    print(f"{len(turn)} names, {done} files")
    return 0


if __name__ == "__main__":
    sys.exit(main())
