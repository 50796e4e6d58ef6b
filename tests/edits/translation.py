"""The crates' sources as Rust: Rattle without its contracts, over rust/kit.rs in the place of its std. A function with
wrong lines has a body for each of them beside its own and takes the one whose number `wrong::line` tells; a constant
with wrong lines becomes such a function. Every item is public, so that a witness reaches it."""
import collections
import re

from edits import functions_of

GHOST = re.compile(r'^[ \t]*ghost use [^;]*;\n', re.M)
CLAUSE = re.compile(r'^[ \t]*(?:requires|ensures)\b[^{\n]*(?=\{)', re.M)
ATTRIBUTE = re.compile(r'^[ \t]*#!?\[(?:tactic|cycle|unsafe\(no_mangle)\b[^\]]*\]\n+', re.M)
GHOST_MEMBER = re.compile(r'^[ \t]*(?:pub )?ghost \w+(?:: | = )(?=\{)', re.M)
OF_A_TRAIT = re.compile(r'^impl(?:<[^>]*>)? [^{]* for [^{]*(?=\{)', re.M)
COLLECT = re.compile(r'\.collect\((?=\w)')
COLLECTED = 'use kit::alloc::Collected;\n'
MODEL = re.compile(r'^impl(?:<[^>]*>)? Model for [^{]*(?=\{)', re.M)
EXPORT = re.compile(r'\bextern "C" (?=fn\b)')
STD = re.compile(r'\bstd::(?=(?:alloc|io|num)\b)')
HANDLE = re.compile(r'\bHostRuntime\b')
PRIVATE = re.compile(r'^([ \t]*)(?:pub\(crate\) )?(?=(?:fn|struct|enum|mod|const) )', re.M)
TYPE = re.compile(r'^(?:#\[derive\(([^)]*)\)\]\n)?((?:#\[repr[^\n]*\n)?pub (?:struct|enum) )', re.M)
STRUCT = re.compile(r'^pub struct \w+(?:<[^>]*>)? \{\n.*?^\}', re.M | re.S)
FIELD = re.compile(r'^( +)(?=\w+: )', re.M)
CONSTANT = re.compile(r'^[ \t]*(?:pub )?const (\w+): ([^=]*) = (.*?);$', re.M | re.S)
DERIVED = '#[derive(Debug, Clone, Copy, PartialEq)]\n'
# A type that is not copied may hold what Rust compares and prints, and no more is needed of it.
HELD = '#[derive(Debug)]\n'


def end_of_braces(text, start):
    """Where the braces that open at `start` are closed."""
    depth = 0
    for m in re.compile(r'[{}]').finditer(text, start):
        depth += 1 if m.group() == '{' else -1
        if depth == 0:
            return m.end()
    raise ValueError(f'braces are not closed: {text[start:start + 60]}')


def without_contracts(text):
    clause = CLAUSE.search(text)
    while clause:
        text = text[:clause.start()] + text[end_of_braces(text, clause.end()):].lstrip('\n')
        clause = CLAUSE.search(text)
    return text


def without_blocks(text, begin):
    """The text without what begins so and goes to the end of its braces, with the comma or semicolon behind it."""
    found = begin.search(text)
    while found:
        rest = text[end_of_braces(text, found.end()):].lstrip(',;')
        text = text[:found.start()] + rest.lstrip('\n')
        found = begin.search(text)
    return text


def without_visibility(text):
    """The text with the functions of the impls of traits as the traits have them."""
    for found in reversed(list(OF_A_TRAIT.finditer(text))):
        end = end_of_braces(text, found.end())
        text = text[:found.end()] + re.sub(r'^( +)pub (?=fn )', r'\1', text[found.end():end], flags=re.M) + text[end:]
    return text


def collected(text):
    """The text with what collects on an allocator."""
    return COLLECTED + COLLECT.sub('.collect_in(', text) if COLLECT.search(text) else text


def derived(found):
    """The head of a type with what it derives in Rust."""
    copied = found.group(1) is None or 'Copy' in found.group(1)
    return (DERIVED if copied else HELD) + found.group(2)


def as_rust(text):
    """A text of Rattle, as Rust."""
    text = without_blocks(without_blocks(GHOST.sub('', without_contracts(text)), MODEL), GHOST_MEMBER)
    text = PRIVATE.sub(lambda m: m.group(1) + 'pub ', EXPORT.sub('', ATTRIBUTE.sub('', text)))
    text = STRUCT.sub(lambda m: FIELD.sub(r'\1pub ', m.group()), TYPE.sub(derived, text))
    text = collected(without_visibility(text))
    return HANDLE.sub('kit::HostRuntime', STD.sub('kit::', text).replace('Vec::new(rt.alloc())', 'Vec::new()'))


def with_pairs(text, pairs):
    """The text with the new texts of a wrong line's pairs."""
    for pair in pairs:
        if text.count(pair.old) != 1:
            raise ValueError(f'{pair.file}, line {pair.line} of the edit: its old text is not once in its function')
        text = text.replace(pair.old, pair.new)
    return text


def chosen(right, wrong):
    """An expression that is one of these blocks, by the number of the wrong line."""
    arms = ''.join(f'{number} => {block}\n' for number, block in wrong)
    return '{ match wrong::line() {\n' + arms + f'_ => {right}\n' + '} }'


def head_and_body(text):
    """A function's signature and its body, without its contracts."""
    head, brace, body = without_contracts(text).partition('{')
    return head, brace + body


def with_bodies(text, lines):
    """A function with its own body and those of its wrong lines, each with its number."""
    head, body = head_and_body(text)
    return head + chosen(body, [(number, head_and_body(with_pairs(text, line.pairs))[1]) for number, line in lines])


def as_function(declaration, lines):
    """A constant as a function that gives its own value or that of a wrong line."""
    name, of, value = CONSTANT.search(declaration).groups()
    values = [(number, CONSTANT.search(with_pairs(declaration, line.pairs)).group(3)) for number, line in lines]
    return f'pub fn {name}() -> {of} ' + chosen(f'{{ {value} }}', [(number, f'{{ {v} }}') for number, v in values])


def place_of(texts, pair):
    """Where the function or the constant of a pair stands in its file."""
    text = texts[pair.file]
    spans = [(start, stop) for name, start, stop in functions_of(texts, pair.file) if name == pair.function]
    spans = spans or [m.span() for m in CONSTANT.finditer(text) if pair.old in m.group()]
    if len(spans) != 1:
        raise ValueError(f'{pair.file}, line {pair.line} of the edit: it stands in no function and no constant')
    return spans[0]


def by_place(texts, numbered):
    """Wrong lines by where their function or constant stands."""
    groups = collections.defaultdict(list)
    for number, line in numbered:
        groups[place_of(texts, line.pairs[0])].append((number, line))
    return groups


def with_wrong_lines(texts, file, numbered):
    """A source file with the bodies of its wrong lines."""
    text = texts[file]
    for (start, stop), lines in sorted(by_place(texts, numbered).items(), reverse=True):
        make = with_bodies if lines[0][1].pairs[0].function else as_function
        text = text[:start] + make(text[start:stop], lines) + text[stop:]
    return text


def constants_of(texts):
    """The names of a crate's constants."""
    return {m.group(1) for file in texts if file.endswith('.rt') for m in CONSTANT.finditer(texts[file])}


def wrong_constants(texts, numbered):
    """The names of the constants that have wrong lines."""
    pairs = [line.pairs[0] for _, line in numbered if not line.pairs[0].function]
    return {CONSTANT.search(texts[pair.file][slice(*place_of(texts, pair))]).group(1) for pair in pairs}


def with_calls(text, constants):
    """The text with calls for the constants that became functions; a `use` has the name alone."""
    if not constants:
        return text
    name = re.compile(r'(?<!fn )\b(' + '|'.join(sorted(constants)) + r')\b(?!\()')
    lines = text.split('\n')
    return '\n'.join(line if re.match(r'(?:pub )?use ', line) else name.sub(r'\1()', line) for line in lines)


def witnesses_of(line):
    return [expression for pair in line.pairs for expression in pair.witnesses]


def witness_names(number, line):
    """The names of the functions of a wrong line's witnesses."""
    return [f'witness_{number}_{at}' for at in range(len(witnesses_of(line)))]


def with_witnesses(text, numbered):
    """The text with a function for each witness of its wrong lines."""
    for number, line in numbered:
        named = zip(witness_names(number, line), witnesses_of(line))
        text += ''.join(f'\npub fn {name}() -> bool {{\n    {expression}\n}}\n' for name, expression in named)
    return text


def translate(texts, numbered, constants, helpers):
    """The Rust sources of a crate by file, with its wrong lines and their witnesses."""
    sources = {}
    for file in (file for file in texts if file.endswith('.rt')):
        here = [(number, line) for number, line in numbered if line.pairs[0].file == file]
        text = as_rust(with_wrong_lines(texts, file, here))
        sources[file.removesuffix('.rt') + '.rs'] = with_calls(with_witnesses(text, here), constants)
    root = next(file for file in sources if file in ('src/lib.rs', 'src/main.rs'))
    sources[root] += f'\npub mod witness {{\n#[allow(unused_imports)] use super::*;\n{helpers}\n}}\n' if helpers else ''
    return sources
