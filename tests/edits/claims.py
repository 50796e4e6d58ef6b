"""Which declarations of a crate's proofs are proofs of a claim, and which are lemmas. specs/ and proofs/ are read as
text."""
import re

COMMENT = re.compile(r'--.*')
DECLARATION = re.compile(r'(?:(?:pub|abbrev|unfoldable) +)*([^\s:;=(){}]+) : ')
RECORD = re.compile(r'(?:pub +)?record ([^\s{]+)')
VALUE = re.compile(r'\brecord \{')
GIVEN = re.compile(r'\s*([^\s;=(){}]+) =\s*(?:λ[^.]*\.\s+)*\(*([^\s;(){}]*)')
INFIX = re.compile(r'[^\w\s.(){}⊥⊤]+')


def pieces(text, between):
    """The pieces of a text between occurrences of a mark that stand in no parentheses."""
    found, depth = [''], 0
    for c in text:
        depth += (c in '([{') - (c in ')]}')
        if c == between and depth == 0:
            found.append('')
        else:
            found[-1] += c
    return found


def head_of(of):
    """The name that the result of a type starts with; '' where the result is not that name with its arguments."""
    result = pieces(COMMENT.sub('', of), '→')[-1].strip()
    outside = re.sub(r'\([^()]*\)', '', re.sub(r'\([^()]*\)', '', re.sub(r'\{[^{}]*\}', '', result))).split()
    alone = not any(INFIX.fullmatch(word) for word in outside)
    return result.split()[0] if alone and result else ''


def blocks(text):
    """Each line of a file from its first word on, with the lines behind it that stand further in."""
    lines = [line for line in COMMENT.sub('', text).split('\n') if line.strip()]
    depths = [len(line) - len(line.lstrip()) for line in lines]
    found = []
    for at, depth in enumerate(depths):
        end = next((k for k in range(at + 1, len(lines)) if depths[k] <= depth), len(lines))
        found.append('\n'.join(lines[at:end]).lstrip())
    return found


def declarations(text):
    """The type of each declaration of a file."""
    found = [(DECLARATION.match(block), block) for block in blocks(text)]
    return {m.group(1): block[m.end():] for m, block in found if m}


def specs_of(texts):
    return [text for file, text in texts.items() if file.startswith('specs/')]


def records_of(text):
    """The names of the records of a file, each with the names of its fields."""
    found = [(RECORD.match(block), block) for block in blocks(text)]
    return {m.group(1): frozenset(declarations('\n'.join(block.split('\n')[1:]))) for m, block in found if m}


def claims_of(texts):
    """The claims of a crate's specs/: its records, and what has the result Type 0."""
    found = set()
    for text in specs_of(texts):
        found |= {name for name, of in declarations(text).items() if pieces(of, '→')[-1].strip() == 'Type 0'}
        found |= set(records_of(text))
    return found


def end_of_braces(text, start):
    depth = 1
    for m in re.compile(r'[{}]').finditer(text, start):
        depth += 1 if m.group() == '{' else -1
        if depth == 0:
            return m.start()
    return len(text)


def fields_given(text):
    """The fields that each record expression of a file gives, with the name that each value starts with."""
    bodies = [text[m.end():end_of_braces(text, m.end())] for m in VALUE.finditer(text)]
    return [dict(m.groups() for m in map(GIVEN.match, pieces(body, ';')) if m) for body in bodies]


def field_values(texts):
    """The names that stand as the value of a field of a record of specs/, anywhere in proofs/."""
    records, found = {fields for text in specs_of(texts) for fields in records_of(text).values()}, set()
    for file, text in texts.items():
        given = fields_given(COMMENT.sub('', text)) if file.startswith('proofs/') else []
        found |= {value for fields in given if frozenset(fields) in records for value in fields.values()}
    return found


def is_lemma(texts, file, name):
    """Is this declaration of a file of proofs neither the proof of a claim nor the value of a field of one?"""
    of = declarations(texts.get('proofs/' + file, '')).get(name, '')
    return head_of(of) not in claims_of(texts) and name not in field_values(texts)
