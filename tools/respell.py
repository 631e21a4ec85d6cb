#!/usr/bin/env python3
"""Respells the names of this repository's definitions and lemmas to today's rules, once, after port.py.

Words are in snake case. A dash stays where it joins two names, as in `length-hex` (the length of `hex`).
Run at the top of the repository. What it renames is listed below; generated names (goals, steps) are not touched.
"""
import glob
import re
import sys

# a dash that joins two names stays; the rest of the name is respelled
JOINED = """
after-after bits-append lacks-append lacks-cons over-append rounds-append rounds-fold bits-big-endian:bits-big_endian
length-behind length-bits length-constants length-grow length-grown length-hex length-left length-line
length-pending length-placed length-recordings length-words length-line-of:length-line_of
length-record-line:length-record_line length-inventory:length-inventory_text folded-append:fold-append
joined-append:concat-append length-joined:length-concat getD-recordings:get_or-recordings
"""

# names that would fall together with a function of src/, or that a word of today stands for
OWN = """
outcome-word:word_of_outcome fault-words:words_of_fault joined-from:concat_from joined-more:concat_more
maj-is:maj_is ch-is:ch_is not-X:not_x Ch:ch Maj:maj T1:t_1 T2:t_2
"""

SNAKE = """
a-line a-same a-vector add-order alike-checked alike-malformed all-big-endian all-padded all-zeros as-well at-end
b-same bad-form bad-hex bad-repeat behind-end behind-next behind-told below-2 bits-inj bits-parts bits-zeros blocks-law
blocks-split both-checked both-next c-same chain-law checkable-back checked-line constants-law counted-outcome
cut-found cut-from cut-recordings cut-shorter d-same digest-back digest-bytes digest-forth digest-means digest-of
digest-read digit-over e-same each-made eight-bytes eight-more entries-end entries-same entries-told entry-fields
entry-line entry-lines entry-shorter entry-told fed-means few-recordings field-count field-decimal field-hex field-text
filling-bad filling-begin filling-end filling-full filling-next finding-line fnv-basis fnv-from fnv-prime fnv-step
fnv-value form-lacks form-word four-told from-none good-five good-only-long grow-follows grow-front grow-keeps grow-step
grown-follows grown-front grown-keeps grown-next has-bytes hash-lacks hash-width hash-word hex-end hex-lacks hex-next
hex-text-lacks how-many initial-law initial-words inventory-text is-different is-hex-only is-malformed is-repeat-only
lacks-no lacks-tail lacks-test lane-high last-fields last-lacks last-told left-block left-of left-short
length-behind-next length-entries-next length-first length-fnv length-line-parts length-of length-of-hex length-parts
length-recording length-sha length-wrote lengths-rest library-line line-answered line-none line-parts line-told long-hex
long-repeat long-state long-text low-is malformed-line means-back means-forth message-field message-lacks name-lacks
next-four-is no-count no-digest no-fault no-first no-form no-hex no-message no-remark no-rest no-tab none-counted
none-small number-of-bytes numeral-lacks numeral-of one-cut one-fault one-field-fault one-finding one-five one-hex
one-made one-meaning one-message one-modulus one-outcome one-reading one-report one-saying one-trace one-vector
one-wrong only-bits only-bytes only-cut only-entry only-long padded-bits padded-bytes padded-is padding-law
padding-wraps part-is passed-of past-remark pending-after placed-front placed-more placed-none placed-step primes-from
reads-are record-line record-line-at recording-line refused-fields repeat-field round-step rounds-are rounds-done
rounds-law same-below same-cut same-digit same-hash same-hex same-parse same-record schedule-is schedule-law sha-from
short-rest short-state sixty-four size-end size-next small-recordings so-far some-text state-sum stop-behind tally-law
tally-line tested-bad tested-begin tested-end tested-next to-come unended-alike whole-recordings window-is window-words
with-records writing-begin writing-done wrong-none zero-bytes σ1-zero over-block over-short
"""


def table():
    names = {}
    for entry in (JOINED + OWN).split():
        old, _, new = entry.partition(":")
        names[old] = new or old
    for old in SNAKE.split():
        names[old] = old.replace("-", "_")
    return {old: new for old, new in names.items() if old != new}


TOKEN = re.compile(r"[^\s(){}\[\].,;:=→λ`∷◌]+")
SHARED = {"Ch", "Maj", "T1", "T2"}  # only where SHA-256 is defined


def respelled(text, names, sha):
    def one(match):
        word = match.group()
        if word in SHARED and not sha:
            return word
        return names.get(word, word)

    lines = []
    for line in text.splitlines(keepends=True):
        code, dashes, comment = line.partition("-- ") if line.lstrip().startswith("-- ") else (line, "", "")
        lines.append(TOKEN.sub(one, code) + dashes + comment)
    return "".join(lines)


def ghost_lines(text, names, sha):
    """Of a source file: imports and clauses of proofs alone, never code, strings or comments."""
    lines = []
    for line in text.splitlines(keepends=True):
        bare = line.lstrip()
        ghost = re.match(r"ghost |requires|ensures", bare)
        lines.append(respelled(line, names, sha) if ghost else line)
    return "".join(lines)


def main():
    names = table()
    taken = set(names.values())
    if len(taken) != len(names):
        seen = {}
        for old, new in names.items():
            seen.setdefault(new, []).append(old)
        sys.exit("two names would become one: %s" % [v for v in seen.values() if len(v) > 1])
    for path in sorted(glob.glob("crates/*/specs/**/*.antt", recursive=True) + glob.glob("crates/*/proofs/**/*.antt", recursive=True)):
        text = open(path).read()
        new = respelled(text, names, path.startswith("crates/sha256/"))
        if new != text:
            open(path, "w").write(new)
    for path in sorted(glob.glob("crates/*/src/**/*.rt", recursive=True)):
        text = open(path).read()
        new = ghost_lines(text, names, path.startswith("crates/sha256/"))
        if new != text:
            open(path, "w").write(new)


main()
