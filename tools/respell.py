#!/usr/bin/env python3
"""Brings the names of definitions and lemmas to the spelling of today's Rattle: snake case, and a dash where it joins two names.

usage: tools/respell.py [FOLDER]     once, after /opt/rattle/port/port.py; FOLDER (default: this repository) has crates/

It turns whole words of .antt files, and of the clauses, ghost items and comments of .rt files; texts in quotes and Rust code keep theirs.
It stops before it writes where a new name is a word of the same crate already. docs/PORT.md says what it was run for.
"""

import os
import re
import sys

# Names by kind; each turns into snake case as a whole: camelCase is taken apart, and a dash becomes an underscore.
PLAIN = """
allWithin bookLine centreOps columnLine countsIn countsOf endsOps entryNumber figureAt figuresAt figuresIn figuresOf fileLength fileNumber
fileOf fileRefusedLine fitIn fitOf fitWithin grantedLine halfWidth headerBytes headerOf kindBy lengthAgrees lineIn linesAfter minusProduct
noneLine numberBytes numbersBytes offerBytes offerIn offerLength offerNumber offerNumbers offerOf offerWithin offersAt offersOf plusProduct
quotientUp refusedLine rightLengths rowWithin rowsAt rowsIn rowsWithin shownAt singleBytes singleText triangleLength wholeDiagonal workArea
centreRecord endsRecord fileRefused eachOffer entriesFit entryNumbers figureNumbers figuresFit
δ-after row-sum full-rank first-row
S-below S-is S-past S-small allWithin-ends allWithin-more difference-answer dot-fits high-high high-in high-low image-is image-none image-small
image-turn low-high low-in low-low means-proper minus-exact mul-add plus-exact point-products product-answer radii-small s-length s-small
sum-answer times-product w-length w-small wholeDiagonal-ends wholeDiagonal-more x-length x-small made-from
A-past Aᵀ-apart X̂-y X̂ᵀ-apart X̂ᵀ-image X̂ᵀ-size X̂ᵀX̂-y difference-in-E difference-in-δ form-value image-distance insert-value into-value
made-exactly max-one means-x means-y merge-value min-one misfit-step one-y one-y-size outward-product outward-proper point-product-in-δ
product-about product-in-E product-in-δ product-of product-sizes rounded-covers rounded-narrow rounded-small spread-widths squares-step
sum-in-E sum-in-δ times-value u-image vanishes-value y-size zero-square
*ℤ-assoc *ℤ-distl *ℤ-distr *ℤ-exchange *ℤ-left-comm +ℤ-left-comm ≤ℤ-trans
above-left added-same subtracted-same after-ends allWithin-at bits64-is byte-short byte-then ceiled-is ceiling-of floored-is floor-of truncated-is
centre-rules ends-rules corners-above corners-below corners-of count-back count-short dot-adjoint dot-assoc dot-comm dot-cong dot-extend
dot-minus dot-scale dot-size dot-unit dot-within down-mul up-mul file-small greatest-above greatest-one least-below least-one grown-failed
half-fits half-kept header-back integer-back largest-above largest-below largest-cong largest-least largest-more least-squares line-more
line-room line-some means-facts means-ordered mul-anti mul-nonneg natAbs-above natAbs-add natAbs-below natAbs-positive natAbs-zero
numbers-back numbers-long offer-at offer-back one-reading one-sided part-more pasted-more pasted-whole place-within product-fits product-size
product-within products-apart proper-facts proper-from read-once rowsWithin-at said-back same-counts signed-short squares-minus
squares-natural squares-scale squares-zero sum-within wholeDiagonal-at
∑-add ∑-cong ∑-front ∑-more ∑-scale ∑-size ∑ℕ-above ∑ℕ-cong ∑ℕ-mono ∑ℕ-more ∑ℕ-scale ∑ℕ-size
""".split()

# Names of two names keep their dash; some words have another spelling in today's library.
OTHERS = {
    "-pos": "neg",
    "clear-decimal": "Clear-decimal",
    "clear-signed": "Clear-signed",
    "clear-spelled": "Clear-spelled",
    "getD-chunked": "get_or-chunked",
    "minus-one-*ℤ": "minus_one-*ℤ",
    "number-at": "number_at_bytes",
    "orZero-proper": "or_zero-proper",
    "orZero-same": "or_zero_same",
    "sameList-decides": "same_list-Decides",
}

# Fields, methods and functions of src/ that have the new name: names of another kind, which a specification may share.
SHARED = "all_within figures_at file_length file_refused least_squares offer_length offers_at rows_at whole_diagonal".split()

WORD = re.compile(r"[^\s(){}.;,:@\"«»`]+")
QUOTED = re.compile(r'"(?:[^"\\\n]|\\.)*"')


def snake(name):
    apart = re.sub(r"([a-z0-9])([A-Z])(?=[a-z])", lambda m: m[1] + "_" + m[2].lower(), name)
    return apart.replace("-", "_")


def texts(crate):
    for folder, dirs, files in os.walk(crate):
        dirs[:] = sorted(d for d in dirs if d != "out")
        for f in sorted(files):
            if f.endswith((".antt", ".rt")):
                yield os.path.join(folder, f)


def between(text, change):
    """The text with what stands outside quotes changed."""
    out, at = [], 0
    for m in QUOTED.finditer(text):
        out += [change(text[at : m.start()]), m[0]]
        at = m.end()
    return "".join(out + [change(text[at:])])


def main(root):
    table = {n: snake(n) for n in PLAIN} | OTHERS
    found, bad = {}, []
    crates = os.path.join(root, "crates")
    for crate in sorted(os.listdir(crates)):
        read = {}
        for path in texts(os.path.join(crates, crate)):
            with open(path, encoding="utf-8") as f:
                read[path] = f.read()
        words = set()
        for path, text in read.items():
            if path.endswith(".antt"):
                words |= set(WORD.findall(re.sub(r"--.*", "", text)))
        bad += [f"{crate}: {new} stands beside {old}" for old, new in sorted(table.items()) if old in words and new in words and new not in SHARED]
        found |= read
    if bad:
        print("\n".join(bad))
        return 1
    turned = 0
    for path, text in found.items():
        new = between(text, lambda t: WORD.sub(lambda m: table.get(m[0], m[0]), t))
        if new != text:
            turned += 1
            with open(path, "w", encoding="utf-8") as f:
                f.write(new)
    print(f"respell: {len(table)} names, {turned} files changed")
    return 0


if __name__ == "__main__":
    raise SystemExit(main(sys.argv[1] if len(sys.argv) > 1 else os.path.join(os.path.dirname(os.path.realpath(__file__)), "..")))
