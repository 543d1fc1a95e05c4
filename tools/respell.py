#!/usr/bin/env python3
"""Respells the repository's own definitions, lemmas, fields and local names from dashes to snake case.

Rattle's style has words in snake case, types and modules in camel case. The names that the checker makes
(goals and steps, such as `loop-i-preserved`) keep their dashes, as do the names of std.

    python3 tools/respell.py        at the top of the repository; it changes .antt and .rt files below crates/

It ran once, right behind the toolchain's own script for moving to a newer Rattle, and is kept to show what that move
renamed. It goes by text alone: where a name of ours and one of std's are alike but for the dash, as `fold-append`, a
later run would change both.
"""
import pathlib
import re
import sys

NAMES = set("""
Err-of None-of Ok-of Refused-by Some-of a-concat a-leaf all-fields amount-is amount-most amount-of
amount-refusal amount-same amount-says around-point at-l at-r at-shapes balanced-by bare-found before-digit
before-long behind-push below-zero blank-race blank-runner by-push child-before child-of comma-11 comma-3
comma-6 comma-8 concat-asks concat-counted concat-entry concat-fits concat-node concat-node-of concat-restarts
concat-shapes count-parentless counts-push cut-into cut-none cut-once cut-records cut-two deep-left deep-right
depth-number depth-of dollars-says draft-kept draft-nodes draft-shapes drafted-counts drafted-few
drafted-listed drafted-narrow drafted-small each-field each-fine each-length each-push end-beyond end-within
ends-over entry-push fault-of fault-once few-l few-r fields-from filled-joined fine-pool fine-race fine-runner
fine-terminal first-once flag-lists flags-at flags-concat flags-leaf fold-all fold-append fold-from fold-of
folded-append folded-push found-leaf found-met found-only found-says fraction-digits fraction-says
fraction-two front-is front-seven full-both get-asks grown-drafted grown-hangs grown-number grown-packed
grown-restarted grown-sealed grown-stands grown-under halved-depth halved-leaves halved-nodes hangs-concat
hangs-leaf hangs-size hangs-within has-parent has-parent-concat has-parent-push head-same holds-grown
holds-shape in-range intake-refusal is-node joined-fields joined-takes kept-concat kept-count kept-flag
kept-last kept-leaf kept-long kept-parentless kept-root last-kept last-node last-number last-put last-root
last-shape last-stands leaf-asks leaf-counted leaf-entry leaf-restarts leaf-shapes leaf-sizes leaves-for
left-before left-number left-of left-size length-shapes letter-of line-end line-refusal lines-of-few
listed-number listed-push long-left long-race long-right long-runner long-terminal long-y long-z mark-one
mark-other mark-past mark-same marked-flags narrow-push new-parentless new-unmarked newest-parentless
next-concat next-leaf no-end-more no-shape no-space no-x no-y not-front not-here number-after
number-after-push numbered-above numbered-number numbered-once occurs-over occurs-root occurs-within of-129
on-l on-left on-r on-right one-node open-asks or-false other-pool out-l out-r over-concat over-leaf over-push
pack-asks packed-129 packed-as packed-balanced packed-holds packed-narrow packed-shape packed-size packs-all
packs-concat packs-fit packs-fit-there packs-leaf packs-long packs-number parent-flags parts-of placed-level
placed-only placed-reads placed-within pool-row pool-same put-minus put-more put-none put-plain put-point
race-least race-most race-same reading-length reads-once reads-shows record-number refusal-row restarted-alike
restarted-depth restarted-from-0 restarted-like restarted-number restarted-occurs restarted-size
restarted-started restarted-widest restarts-both restarts-leaf restarts-root right-before right-digits
right-here right-less right-long right-number right-says right-size right-still right-still-node
root-at-most-once root-balanced root-end root-l root-once root-r root-size row-0 row-1 row-2 row-3 row-4
runner-least runner-most runner-same said-digits said-fraction said-fraction-digits said-front said-point
said-six said-some said-value same-cents same-fronts same-letter same-pool same-pool-is says-few says-found
says-once seal-asks sealed-small sealed-some seven-deep seven-refused seven-root shape-set shapes-behind
shapes-lists shapes-push sign-bytes signed-size six-deep six-root six-sealed sizes-over sizes-size sofar-all
sofar-bad sofar-fine sofar-more sofar-next sofar-none sound-at sound-listed sound-listed-push sound-push
stands-append stands-depth stands-in stands-kept stands-left stands-only stands-right stands-root stands-shape
stands-size stands-sound started-end started-reading started-whole sum-assoc sum-replicate sum-right tail-same
terminal-least terminal-most terminal-same text-long top-append top-full top-node total-push tree-grown
tree-nodes turned-away unmarked-like unmarked-push unpadded-once unsigned-once whole-digits whole-six
whole-size whole-some widest-top with-header with-last with-leaf with-race with-runner with-terminal
worked-amounts written-reads zeros-digits zeros-number
""".split())

# names that an import gives to something else: variants, and a definition that the toolchain's script had respelled
OTHERS = {
    "number_of_lem": "number_of",
    "Refused-by": "refused_by",
    "Some-of": "some_of",
    "None-of": "none_of",
    "Ok-of": "ok_of",
    "Err-of": "err_of",
    "elements-of": "elements_of",
}

# what separates the words of a clause or a definition
WORD = re.compile(r"[^\s(){}\[\];,.|`\"λ→×∷]+")


def new_name(match):
    word = match.group()
    if word in OTHERS:
        return OTHERS[word]
    return word.replace("-", "_") if word in NAMES else word


def respelled(text):
    """The text with new names; in an import from std only what stands behind `as` is ours."""
    lines = []
    for line in text.split("\n"):
        if line.startswith("use Rattle.std."):
            lines.append(re.sub(r"(?<= as )[^\s,}]+", new_name, line))
        else:
            lines.append(WORD.sub(new_name, line))
    return "\n".join(lines)


def main():
    top = pathlib.Path(__file__).resolve().parent.parent / "crates"
    files = sorted(path for kind in ("*.antt", "*.rt") for path in top.rglob(kind) if "out" not in path.parts)
    words = set()
    for path in files:
        words |= set(WORD.findall(path.read_text(encoding="utf-8")))
    for name in sorted(NAMES):
        spelled = OTHERS.get(name, name.replace("-", "_"))
        if spelled in words and name in words:
            print(f"look: {name} falls together with {spelled}", file=sys.stderr)
    changed = 0
    for path in files:
        old = path.read_text(encoding="utf-8")
        new = respelled(old)
        if new != old:
            path.write_text(new, encoding="utf-8")
            changed += 1
    print(f"{changed} files changed")


if __name__ == "__main__":
    main()
