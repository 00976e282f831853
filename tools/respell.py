#!/usr/bin/env python3
"""Brings the repository's own definitions and lemmas to snake case: parityBits and data-bounds become parity_bits and data_bounds.

It is run once, at the top of a checkout, right after the kit's own port.py, which leaves most of these names as they were. It goes over
specs/*.antt and the lemma files of proofs/*.antt (every name there that no other library gives), over the names that a proof of a
function imports from those files, and over the contracts in src/. Names of the code, strings, comments of src/, inputs and outputs stay.
Types and modules keep their capitals. It prints each name that it turns, and those that fall together with another one.

Usage: tools/respell.py
"""
import re
import sys
from pathlib import Path

ROOT = Path(__file__).resolve().parent.parent / 'crates'
NAME = re.compile(r"[^\s(){}\[\];,.\"@`]+")
TURNED = re.compile(r"[a-z][\w']*(?:-[\w']+)*(?:-[^\w\s'-]+)?")
# where the plain spelling is that of another name of the same crate or of the library
SPECIAL = {
    'bit-and': 'bit_and_lem',
    'bit-or': 'bit_or_lem',
    'data-bits': 'data_bits_law',
    'parity-bit': 'parity_bit_law',
    'first-line': 'first_line_lem',
    'goes_on': 'goes_on_lem',
    'isr-read': 'isr_read_lem',
    'plain-spot': 'plain_spot_lem',
    'set-up-by': 'set_up_by_lem',
    'with-bit': 'with_bit_lem',
    'write-above': 'write_above_lem',
}
USE = re.compile(r'^(?:ghost )?use ([\w.]+)\.\{([^}]*)\}', re.M)


def turned(name):
    """The new spelling of a name, or None if it has none."""
    if name in SPECIAL:
        return SPECIAL[name]
    if not TURNED.fullmatch(name):
        return None
    body, end = re.fullmatch(r"(.*?)((?:-[^\w\s'-]+)?)", name).groups()
    body = body.replace('-', '_')
    body = re.sub(r'(?<=[a-z0-9])([A-Z])', r'_\1', body).lower()
    return None if body + end == name else body + end


def words(part):
    """The name that an import brings in: what stands after 'as', if that is there."""
    return [w.split() for w in part.split(',') if w.strip()]


def split(text, antt):
    """The text in pieces, each with whether it is to be turned: no comments, and in src/ no strings."""
    pattern = r'--(?=\s)[^\n]*' if antt else r'//[^\n]*|b?"(?:\\.|[^"\\])*"'
    at = 0
    for m in re.finditer(pattern, text):
        yield text[at:m.start()], True
        yield m[0], False
        at = m.end()
    yield text[at:], True


def main():
    own = re.compile(r'Rattle\.(?:' + '|'.join(sorted(c.name for c in ROOT.iterdir())) + r')\.')
    texts = {p: p.read_text(encoding='utf-8') for p in sorted(ROOT.rglob('*')) if p.suffix in ('.antt', '.rt') and 'out' not in p.parts}
    lemma_files = [p for p in texts if p.suffix == '.antt' and (p.parent.name == 'specs' or p.parent.name == 'proofs')]
    # the spellings, from the lemma files
    spelling, known = {}, set()
    for p in lemma_files:
        plain = ''.join(t for t, code in split(texts[p], True) if code)
        foreign = set()
        for m in USE.finditer(plain):
            if not own.match(m[1] + '.'):
                foreign |= {w[-1] for w in words(m[2])}
        for m in NAME.finditer(plain):
            known.add(m[0])
            if m[0] not in foreign and turned(m[0]):
                spelling[m[0]] = turned(m[0])
        known |= foreign
    # a name that another library gives somewhere is left alone everywhere
    for p, text in texts.items():
        for m in USE.finditer(text):
            if not own.match(m[1] + '.'):
                for w in words(m[2]):
                    spelling.pop(w[0], None)

    def replaced(text, antt, which):
        out = []
        for t, code in split(text, antt):
            out.append(NAME.sub(lambda m: which.get(m[0], m[0]), t) if code else t)
        return ''.join(out)

    for p, text in texts.items():
        if p in lemma_files or p.suffix == '.rt':
            which = spelling if p.suffix == '.antt' else {o: n for o, n in spelling.items() if '-' not in o}
        else:
            names = {w[0] for m in USE.finditer(text) if own.match(m[1] + '.') for w in words(m[2])}
            which = {o: n for o, n in spelling.items() if o in names}
        new = replaced(text, p.suffix == '.antt', which)
        if new != text:
            p.write_text(new, encoding='utf-8')
    for old, new in sorted(spelling.items()):
        print(f'{old} -> {new}')
    back = {}
    for old, new in spelling.items():
        back.setdefault(new, [new] if new in known and new not in spelling else []).append(old)
    together = {new: olds for new, olds in back.items() if len(olds) > 1}
    for new, olds in sorted(together.items()):
        print(f'fall together: {", ".join(olds)}')
    return 1 if together else 0


if __name__ == '__main__':
    sys.exit(main())
