#!/usr/bin/env python3
"""Turns the repository's own names of definitions and lemmas to today's spelling: words in snake case.

    tools/respell.py        at the top of the repository, once, directly after the kit's port.py

tools/respell.tsv has a row for each name: old, a tab, new. A lemma that would get the name of the definition that it is about
ends in _law. What turns: names in specs/ and proofs/, names of specs/ and proofs/ that a .rt file imports, texts of must-fail
edits, code spans of pages. A name that a file imports from a library stays, and so does the name of a goal."""
import glob
import os
import re

HERE = os.path.dirname(os.path.abspath(__file__))
TOP = os.path.dirname(HERE)
WORD = re.compile(r"[^\s(){}\[\].;,@\"«»\\`|/]+")
USE = re.compile(r"^((?:pub )?(?:ghost )?use )(\S+?)(\.\{[^}]*\}| as \S+|)(;?)$", re.M)
GOAL = re.compile(r"^([a-z][^\s(){}.;,:]*) : (?:tie|goal|given)\.", re.M)
GENERATED = re.compile(r"\.(declared|contracts|Statement|Tie|Goals|Given|Reads|Code|Kinds)\b")


def table():
    with open(os.path.join(HERE, 'respell.tsv'), encoding='utf-8') as rows:
        return dict(row.rstrip('\n').split('\t') for row in rows)


def crates():
    return {name for name in os.listdir(os.path.join(TOP, 'crates')) if os.path.isdir(os.path.join(TOP, 'crates', name, 'src'))}


def is_own(path, own):
    return path.split('.')[0] == 'Rattle' and path.split('.')[1] in own and not GENERATED.search(path)


def turned(text, names, kept=()):
    """Each whole word of text that names has, but for those kept."""
    return WORD.sub(lambda it: names.get(it[0], it[0]) if it[0] not in kept else it[0], text)


def of_items(items, names, own):
    """The items of a 'use' line: what is named anew by 'as' turns, and what is imported turns if it is the repository's own."""
    def item(it):
        before, old, new = it[1], it[2], it[4]
        old = names.get(old, old) if own else old
        return before + old + (f' as {names.get(new, new)}' if new and names.get(new, new) != old else '')
    return re.sub(r"([{,]\s*)([^\s,{}]+)( as ([^\s,{}]+))?", item, items)


def antt(text, names, own):
    """A file of specs/ or proofs/."""
    kept = set(GOAL.findall(text))
    for _, path, items, _ in USE.findall(text):
        if not is_own(path, own):
            kept |= {it for it in re.findall(r"[{,]\s*([^\s,{}]+)(?=\s*[,}])", items)}

    def line(it):
        head, path, items, end = it.groups()
        if items.startswith('.{'):
            return head + path + of_items(items, names, is_own(path, own)) + end
        return head + path + turned(items, names) + end
    out, at = [], 0
    for it in USE.finditer(text):
        out += [turned(text[at:it.start()], names, kept), line(it)]
        at = it.end()
    return ''.join(out) + turned(text[at:], names, kept)


def rt(text, names, own):
    """A file of src/: what 'ghost use' imports, there and in clauses."""
    used = {}
    for _, path, items, _ in USE.findall(text):
        if is_own(path, own):
            used |= {it: names[it] for it in re.findall(r"[^\s,{}.]+", items) if it in names}
    used |= {it: new for it, new in names.items() if re.search('[a-z][A-Z]', it)}
    code = re.compile(r"\"(?:\\.|[^\"\\])*\"|(?<![\w'-])[A-Za-z][\w'-]*")
    return code.sub(lambda it: used.get(it[0], it[0]), text)


def edit(text, names):
    """A must-fail edit: its texts and the facts by which they fail."""
    def line(it):
        head, rest = it[1], it[2]
        if head in ('fails: ', 'proved: '):
            return head + re.sub(r"(?<=\.antt:)\S+", lambda name: names.get(name[0], name[0]), rest)
        return head + turned(rest, names)
    return re.sub(r"^(old: |new: |fails: |proved: )(.*)$", line, text, flags=re.M)


def page(text, names):
    spans = re.compile(r"```.*?```|`[^`\n]*`", re.S)
    return spans.sub(lambda it: it[0] if it[0].startswith('```') else turned(it[0], names), text)


def main():
    names, own = table(), crates()
    turns = [
        ('crates/*/specs/**/*.antt', lambda text: antt(text, names, own)),
        ('crates/*/proofs/**/*.antt', lambda text: antt(text, names, own)),
        ('crates/*/src/**/*.rt', lambda text: rt(text, names, own)),
        ('crates/*/must-fail/*.edit', lambda text: edit(text, names)),
        ('README.md', lambda text: page(text, names)),
        ('docs/**/*.md', lambda text: page(text, names)),
    ]
    for pattern, turn in turns:
        for path in sorted(glob.glob(os.path.join(TOP, pattern), recursive=True)):
            if os.path.basename(path) == 'PORT.md':
                continue
            with open(path, encoding='utf-8') as old:
                text = old.read()
            new = turn(text)
            if new != text:
                with open(path, 'w', encoding='utf-8') as out:
                    out.write(new)


if __name__ == '__main__':
    main()
