#!/usr/bin/env python3
"""Respells the repository's own definitions, lemmas, fields and variables in today's spelling: words in snake case.

usage: tools/respell.py     at the top of the repository, once, after the kit's port.py

Each name below stands in specs/ or proofs/ of this repository and has a dash between words; the dash becomes `_`.
Names that the kit makes (goals, steps) and names of its library keep their dashes.
"""

import os
import re

NAMES = """
a-is accept-backup accept-guarantee accept-next accept-route accept-trace added-err added-ok after-right all-right?
all-unbroken-more all-written answer-line answered-err answered-guarantee answered-ok answers-right answers-short
any-calls any-more as-map-fault asked-ok at-attributes at-ends at-line-0 at-risk at-risk-limits at-t attributes-in
b-is back-two backed-guarantee backup-at-destination backup-carried backup-exists backup-fits backup-follows
backup-kept backup-one backup-refused backup-short backup-value backup-written be16-in be32-fits be32-in best-beyond
best-exists best-fits best-held best-is-prop best-label best-offer best-one best-own best-prop best-value-exists
blank-is booked-limits bound-more broken-off by-delay by-room by-words byte-zero cases-right cause-code chain-count
chain-grow chain-over chain-value claim-right claims-first claims-right common-bit completes-last completes-none
cons-has count-chain count-labels count-lawful count-tight cut-byte delay-answers delay-laws done-fits draft-code
drop-entries due-down due-more e-long either-not empty-end empty-heap empty-here empty-more empty-next end-at end-ok
ends-in err-one every-at f-is failed-risks failure-reaches fed-none few-nodes few-places fewer-due filled-only
first-at first-bound first-bytes first-covers first-delay first-empty first-end first-none first-only first-owned
first-sound first-start firsts-none fit-now fit-prop full-or-room getD-in given-lawful given-via guarantee-answered
guarantee-backed guarantee-carried guarantee-exists guarantee-fits guarantee-follows guarantee-held guarantee-history
guarantee-kept guarantee-one guarantee-promised guarantee-refused guarantee-right has-cons has-node has-none
heaped-none held-from held-right held-route held-route-exists held-short held-value holds-inside hop-holds hop-inside
hop-short hopped-none hopped-some hopping-down hopping-none hopping-some hopping-start i-in idle-via in-fits
in-layer-2 in-range in-service index-end index-layer index-none index-some index-start indexing-some into-hit
is-digits is-latest is-letter is-over is-selected j-in l-long label-best label-bound label-fit label-fits label-none
label-steps labels-answer labels-are-best labels-exist labels-over labels-tight last-back last-number later-right
later-short layer-at layer-held layer-route layers-right? leads-byte leads-line leads-more leads-none leads-on
leads-to left-child length-emptied length-entries length-one-more less-4 letter-ok lift-begins lift-rests lift-steps
lift-tops limits-prop limits-right link-4 link-back link-byte link-count link-fault link-of links-back links-into
links-open long-line low-node made-from made-to made-via main-next map-bytes map-code map-fault map-length mapped-fits
mapped-limits mark-here mark-there measure-letter measure-named measure-short meeting-test met-fits more-to-write
near-more near-one near-spares near-there network-of never-better never-empty newest-first next-answered
next-at-destination next-away next-bound next-covers next-follows next-kept next-label next-link next-nodes
next-number next-owned next-refused next-right nexts-are-right nexts-exist nexts-found nexts-over no-fault
no-guarantee no-guarantee-right no-plan no-recovery no-route-prop no-size-fault no-space no-worse node-count node-read
nodes-back none-at-t none-back none-empty none-held none-if-ok none-or-at not-both not-both-links nothing-there
number-back number-grows numeral-2 of-empty of-link offered-all offered-fit offered-none offered-one offered-some
offering-down offering-none offering-some offering-start ok-err ok-one old-behind one-back one-cut one-destination
one-if-none one-is one-lines open-less opening-answers opening-line or-memory or-zero own-guarantee pair-traced
past-start paste-entries paste-entry paste-two place-back place-cleared place-emptied place-filled place-past
place-set-other place-set-same plain-best plain-exists plain-found plain-labels plain-lawful plain-next plain-nexts
plain-value-fits plain-values plan-apart-restore plan-apart-withdraw plan-carried plan-fits plan-follows plan-kept
plan-right plan-told planner-code pop-entries pop-first pop-held pop-keeps pop-only pop-order popped-inside
protected-value push-entries push-holds push-keeps push-only push-order put-after put-here put-there read-from
read-holds read-unset read-value reading-accepted reading-refused reads-accepted reads-back recovered-at
recovered-fitting recovered-more recoveries-lawful recovery-exists recovery-fits recovery-held recovery-one
recovery-right refusal-line refusal-none refused-rightly refused-told replay-more restore-apart-withdraw
restore-carried restore-fits restore-follows restore-kept restore-right restore-told rewrite-fault rewritten-from
right-at risk-apart risk-same risk-shared route-carried route-fits route-follows route-held route-history route-kept
route-layer route-no-room route-over route-promised route-refused route-value route-written same-calls same-link
same-marks same-plan same-right same-to scale-laws searching-end searching-settle searching-skip searching-start
sentence-ok service-limits settle-less settle-room share-group sheet-labels sheet-nexts short-line size-fault
sizes-none sizes-right solve-all solve-layers some-and some-and-at some-and-from some-there sound-dialogue sound-push
sound-tried sound-turn sound-unless spared-more spelled-one spelled-two start-best start-idle starts-at starts-fitting
starts-lawful steps-exist steps-held steps-here steps-label steps-one steps-value still-idle table-right tail-value
taken-place tally-few tally-front tally-hit tally-more tally-none tally-split tally-step tally-up the-lines tight-from
tight-labels tight-links tight-right tight-to trace-accepted trace-answered trace-arrived trace-denied trace-fits
trace-follows trace-group-carried trace-history trace-is-guaranteed trace-kept trace-link-carried trace-no-room
trace-no-room-after trace-promised trace-refused trace-turned traced-all-right traced-all? traced-from traced-more
traced-one traced-right traced-route traced-short traced-tight traced-turn traced-value tried-right turn-bound
turn-whole unbroken-more under-delay under-delay-shared under-delay-shared-withdrawn under-delay-withdrawn under-width
under-width-shared under-width-shared-withdrawn under-width-withdrawn undone-less undone-same undone-some unless-empty
unplanned-right value-chain value-computed value-fits value-more value-one value-over value-protected value-right
value-route value-steps value-total via-any via-fits via-idle via-made via-of via-one walking-end walking-settle
well-formed width-answers width-laws with-command withdraw-carried withdraw-fits withdraw-follows withdraw-kept
withdraw-refused withdraw-right withdraw-told withdrawn-and-planned withdrawn-limits without-limits words-in
worse-fits worse-keeps worse-least worse-left worse-one worse-right worst-best worst-exists worst-found worst-keeps
worst-labels worst-lawful worst-never-better worst-next worst-nexts worst-value worst-values worst-via writable-byte
writable-map writable-ok wrote-all wrote-more zero-steps
"""

TURNED = {name: name.replace("-", "_") for name in NAMES.split()}
TURNED["None-between"] = "NoneBetween"
WORD = re.compile(r"[\w'?!-]+")


def texts():
    for folder, dirs, files in os.walk("crates"):
        dirs[:] = sorted(d for d in dirs if d != "out")
        for file in sorted(files):
            if file.endswith((".rt", ".antt", ".edit")):
                yield os.path.join(folder, file)


def main():
    for path in texts():
        with open(path, encoding="utf-8") as file:
            old = file.read()
        new = WORD.sub(lambda word: TURNED.get(word.group(), word.group()), old)
        if new != old:
            with open(path, "w", encoding="utf-8") as file:
                file.write(new)


main()
