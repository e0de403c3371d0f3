#!/usr/bin/env python3
"""Spells this repository's own definitions and lemmas in snake case, in specs/, proofs/ and clauses.

usage: tools/respell.py        at the top of the repository, once, after the kit's port.py

It turns whole words alone, in .antt and .rt files below crates/, and no string and no comment. Functions of src/, labels that
Rattle makes of the source, strings, inputs and outputs keep their names. `bit-and` and `bit-or` stay: a dash joins two names there,
and the library has `bit_and` and `bit_or`.
"""

import os
import re

NAMES = """
above-gap above-n above-push above-take action-at action-index action-is action-name acts-moved added-one added-rows adds-are adds-known
adds-under after-action after-grows and-digit and-false and-true are-parts are-places at-place-is at-places-are atom-name back-state
bank-price bare-spelled base-known base-steps base-unknown before-is below-gap below-under bench-bottom bench-row bit-none bit-one bit-op
bit-suc bit-top bit-zero built-sound by-row-known by-row-new by-row-none by-row-old by-row-split by-row-under can-strike can-strike-from
can-strike-late can-strike-only cents-amounts cents-plain cents-sum charge-append charge-cons clash-is clash-under clinic-price count-le
credits-after credits-since cut-one decides-by deletes-are deletes-known deletes-under drop-call drop-leaves drop-step edit-is either-T
ends-down ends-up few-actions few-atoms finally-push first-height first-known first-unknown flat-bottom flat-task fold-call fold-form
fold-leaves fold-solves fold-steps full-bottom full-row goal-is goal-missed goal-under greatest-none greatest-some has-at has-inserted
has-made has-past has-under held-since held-trims higher-low higher-up highest-at initial-is initial-under is-accepted is-kind is-place
is-trim joined-adds joined-append joined-credit joined-deletes joined-needed joined-needs joined-state judged-decides judged-edited
judged-from judged-good judged-means judged-more kind-is kind-known kind-unknown known-without lacks-at lacks-none lacks-some lacks-tells
last-adds last-below last-loaded leads-first leads-last leads-on left-shorter left-worth load-call loads-exact loads-row lowest-at
lowest-empty lowest-is lowest-none lowest-some lowest-tells lowest-under macro-base macro-lawful macro-lower macro-pile macro-room macro-row
macro-row-decides macro-task macros-sound mark-all mark-is mark-lawful mark-next mark-task marked-high marked-known marked-low marked-no
marked-same marked-state marked-under marked-yes marked-⊆ marks-by marks-from marks-known marks-of marks-split means-from minutes-plain
minutes-sum minutes-visits missing-under needs-are needs-known needs-under new-state no-macro no-marks no-more-often no-plan no-rule
none-beyond none-under not-here not-true nothing-to-strike old-state on-ok one-for ones-count only-atom opened-leaves or-digit or-false
or-none part-known part-long parts-base parts-lower parts-of parts-unknown parts-worth passed-more placed-down placed-from placed-up
places-are plain-sum plan-good possible-drop predecessor-iff predecessor-known predecessor-marks provides-down provides-up quote-of
reached-early reached-last reaches-append reaches-at reaches-goal reaches-index refused-fails regress-from regress-to rest-iff rest-not
rest-reaches rising-push row-after row-clash row-free row-known rule-from rule-iff rule-pile rule-row rule-row-decides rule-sound rule-task
run-term runs-push same-cents same-spread same-visits same-worth second-known set-at-under splice-length splice-worth spread-append
spread-based spread-iff spread-known state-before step-as step-holds step-known strict-not strike-here strike-never strike-none
strike-solves successor-iff successor-known successor-marks swap-call swap-leaves swap-solves swap-steps swap-worth taken-or test-is
times-total total-append trailing-lowest tried-form tried-is trim-at trim-by trim-call trim-idle trim-means trim-plan trim-shorter
trim-solves trim-spare trim-worth trimmed-last trims-accepted trims-plan two-for under-false unfold-call unfold-form unfold-is unfold-leaves
unfold-solves unfold-step unfolded-based unfolded-known union-under unless-clash visits-amounts visits-plain visits-sum wanted-before
wanted-cons wanted-decides wanted-more wants-first wants-more wide-bottom with-plan word-part
""".split()

TURNED = {it: it.replace("-", "_") for it in NAMES}
# A type.
TURNED["Of-known"] = "OfKnown"

WORD = re.compile(r'"(?:[^"\\\n]|\\.)*"|(?:(?<=\s)|^)(?:--|//)\s[^\n]*|[^\s(){}.;,@"«»]+', re.M)


def turn(text):
    return WORD.sub(lambda m: TURNED.get(m.group(), m.group()), text)


def main():
    top = os.path.join(os.path.dirname(os.path.abspath(__file__)), "..", "crates")
    for folder, dirs, files in os.walk(top):
        dirs[:] = [it for it in dirs if it not in ("out", "target")]
        for name in files:
            if not name.endswith((".antt", ".rt")):
                continue
            path = os.path.join(folder, name)
            with open(path, encoding="utf-8") as file:
                text = file.read()
            new = turn(text)
            if new != text:
                with open(path, "w", encoding="utf-8") as file:
                    file.write(new)


main()
