#!/usr/bin/env python3
"""Respells the names of this repository's definitions, fields and lemmas as the toolchain spells its own.

usage: python3 tools/respell.py        at the top, once, after the toolchain's own script for older repositories

Functions, lemmas and fields are in snake case, types in upper camel case: `bit-of` becomes `bit_of`, `In-time` becomes
`InTime`. It goes over specs/ and proofs/ (comments aside) and over the clauses and ghost lines of src/. The names are
listed, and not found by a pattern, so that names of the library, which may hold a dash, stay as they are.
"""

import os
import re

NAMES = """
    Closed-below In-time Keeps-bound None-before One-distance One-of after-all after-all-not after-all-onward
    after-all-placed after-link after-piece all-nth and-true answered-early answered-none applied-all applied-more
    applied-none applied-part as-kind ascending-placed back-to-lower before-apart before-first before-skipped
    begins-indexed begun-entry begun-rough behind-filled behind-minus behind-set between-kinds beyond-limits bit-lt
    bit-of bit-of-lt bit-read bit-take bits-agree bits-same bits-same-at bound-drawn-in bound-kept bound-narrows
    bound-put bound-row bound-row-item bound-said bound-with bound-with-below by-items by-others by-test byte-bits
    byte-same card-lawful card-meaning card-size closed-distances closed-feasible closes-all closes-first
    closes-more compiled-early count-cued count-few count-field count-fixed count-front count-more count-some
    count-uncued count-x count-y counted-append counted-map cue-at cue-number diagonal-before digit-out digit-yes
    digits-after digits-end digits-none digits-past distances-left distances-of div-one drawn-below drawn-ended
    drawn-in drawn-in-reach drawn-out-of-reach drawn-with drop-at-none drop-at-some drop-kept drop-replicated
    due-apart due-before due-keys due-more due-none due-of due-skipped due-total earliest-for early-by-items
    early-items early-limits early-refusal early-tables edition-field edition-number end-above end-given
    end-in-reach end-tidy ends-back ends-in-reach entry-set-same entry-unbounded err-not-ok fault-number field-byte
    field-front field-kept field-more field-none field-of-bits field-part field-same field-split field-take
    field-written filled-entry filled-same filling-all filling-more filling-none first-high first-spoiled fits-same
    fits-timetable fixed-first flip-other flip-same found-kept fresh-open from-apart from-leader from-none
    from-skipped front-map gap-to getD-filled group-one-less group-other group-past group-same group-table
    grouped-same groups-all groups-few groups-first groups-left groups-more groups-out grown-as grown-by-option
    grown-by-push grown-from-none grown-more grown-none grown-same handed-early has-end-moved header-as header-bits
    header-bits-same header-bytes header-from header-line header-put header-start held-links holds-back
    hopeless-infeasible in-q in-r in-time indexed-cued indexed-fixed indexed-plain indexed-same is-blank is-card
    is-leader is-least is-set-at item-at item-made job-said joined-lawful joined-meaning k-in kept-as kept-between
    kept-both kept-by-gap kept-found kept-none kept-wider kept-within kind-word kinds-apart leader-first
    leader-found leader-kept leader-new leader-not-above least-count least-link least-onto leaves-distances
    left-first left-more left-none length-items length-listed length-placed line-text line-words lines-all
    link-before link-count link-keys link-line link-lines link-table link-total links-all links-between links-from
    links-in links-in-table links-left links-of links-out listed-is listing-text lo-fits look-answer loose-end
    lower-field lower-present-field lowered-either lowered-narrows lowered-set made-back made-bound made-in-reach
    made-out-of-reach made-with mapped-none margin-lawful margin-meaning mark-back mark-lt mark-same means-job
    mem-placed minus-digits most-above most-below most-bits most-count most-items most-link most-signed-bits
    most-steps most-time near-line no-entry no-group no-link no-spoiled no-such-place no-such-step none-before-all
    none-before-placed none-by none-from-err none-from-test none-narrows none-ways not-before-first not-both
    not-empty nth-append-left nth-append-right nth-items nth-listed nth-map nth-take nth-within number-up-to of-job
    offset-above ok-mapped one-distance one-leader one-wait-less onward-earlier open-after-link open-applied
    open-group open-narrowed open-number open-refusal open-start opened-all opened-more opened-none opened-or
    opened-read others-all others-before own-onto own-part p-in p-leads past-most pieces-cut place-apart place-by
    place-more place-within placed-ascends placed-behind placed-front placed-holds placed-rest placed-strictly
    placed-used plain-group plain-link possible-same pow-up power-other power-same present-at q-in q-leads
    read-append-left read-append-right read-counted read-end read-err read-item read-lawful read-map read-map-err
    read-map-ok read-no-item read-row readable-all record-bits record-bytes refusal-number refusal-outcome
    refusal-text refusal-ways refused-early refused-spoiled refused-with refuted-hopeless replicate-read rest-onward
    rest-shorter rewrite-refusal rigid-back rigid-onward rough-lowered rough-row row-bits row-item row-item-back
    row-take row-timetable row-with rows-from rows-lawful rows-meaning rows-read says-bound says-neither says-steps
    scan-all scan-end scan-found scan-more second-high self-card signed-at signed-congruent signed-in-range
    signed-negative signed-only signed-stands signed-unsigned sizes-after-link sizes-applied sizes-one-less some-by
    some-from-cond some-from-ok some-from-test span-at spanned-part spans-first spans-more spare-field
    spoiled-clears spoiled-not-bound stage-closed stage-more stage-same stays-behind steps-field steps-said
    still-covered stop-place strictly-ascends strictly-placed suits-counted sum-constant sum-front sum-plus sum-swap
    sum-tests sum-zero table-held target-open the-job tidy-back timetable-fits to-field to-leader told-open
    told-rewrite told-spoiled told-write total-by-keys trimmed-by unbounded-cases unbounded-far unbounded-in-time
    unbounded-range unbounded-same unbounded-start uncued-count unsigned-congruent unsigned-lt upper-end upper-field
    upper-present-field wait-number waits-after-link waits-applied waits-at waits-few waits-first waits-least
    waits-most waits-one-less when-by when-left when-map where-false-is where-true where-true-back where-true-both
    where-true-is which-kind window-for with-cue with-fewer-waits with-group with-in-reach with-more with-now
    with-out-of-reach words-by words-none words-say words-some write-refusal writing-all writing-none wrong-header
    wrote-card wrote-flip xor-bit zeroed-same
""".split()


def respelled(name):
    if name[0].isupper():
        return "".join(part[:1].upper() + part[1:] for part in name.split("-"))
    return name.replace("-", "_")


LETTER = r"[A-Za-z0-9_'\u2124\u2115\u00b7\u25cc+-]"
WORD = re.compile(LETTER + "+")
TO = {name: respelled(name) for name in NAMES}


def turned(text):
    return WORD.sub(lambda m: TO.get(m.group(0), m.group(0)), text)


def of_antt(text):
    def line(l):
        code, mark, comment = l.partition("--") if l.lstrip().startswith("--") else (l, "", "")
        return turned(code) + mark + comment

    return "".join(line(l) for l in text.splitlines(keepends=True))


def of_rt(text):
    # a clause or a ghost line goes on to the end of its braces, or to its semicolon
    out, depth, inside = [], 0, False
    for l in text.splitlines(keepends=True):
        if not inside and re.match(r"\s*(pub )?(ghost|requires|ensures)\b", l):
            inside, depth = True, 0
        if inside:
            out.append(turned(l))
            depth += l.count("{") - l.count("}")
            inside = depth > 0
        else:
            out.append(l)
    return "".join(out)


def main():
    changed = 0
    for folder, dirs, files in os.walk("crates"):
        dirs[:] = sorted(d for d in dirs if d not in ("out", "must-fail"))
        for name in sorted(files):
            turn = of_antt if name.endswith(".antt") else of_rt if name.endswith(".rt") else None
            if turn is None:
                continue
            path = os.path.join(folder, name)
            with open(path, encoding="utf-8") as f:
                old = f.read()
            new = turn(old)
            if new != old:
                changed += 1
                with open(path, "w", encoding="utf-8") as f:
                    f.write(new)
    print(f"respell: {changed} files")


if __name__ == "__main__":
    main()
