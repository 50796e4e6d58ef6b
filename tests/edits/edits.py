"""Must-fail edits: their pairs of old and new text, the wrong lines that these make, and the code they stand in."""
import collections
import dataclasses
import os
import re

PARTS = ('src', 'specs', 'proofs')
FUNCTION = re.compile(r'^([ \t]*)(?:pub(?:\(\w+\))? +)?(?:extern +"C" +)?fn +(\w+)', re.M)
OWNER = re.compile(r'^impl(?:<[^>]*>)? +(\w+)', re.M)
TYPE = re.compile(r'^(?:pub(?:\(\w+\))? +)?(?:struct|enum) +(\w+)', re.M)
OFFERED = re.compile(r'^pub use (\w+)::(\w+);', re.M)
CONSTANT = re.compile(r'\bconst +(\w+)')


@dataclasses.dataclass
class Pair:
    """An old text, its new text, and the line of the edit where they stand."""
    line: int
    file: str
    old: str
    new: str
    names: list
    proved: list
    witnesses: list
    function: str = ''
    replaces: bool = False
    problem: str = ''


@dataclasses.dataclass
class Edit:
    """An edit, and the files of its crate before and after it."""
    name: str
    pairs: list
    before: dict
    after: dict
    problem: str = ''

    @property
    def of_code(self):
        return all(pair.file.startswith('src/') for pair in self.pairs)


@dataclasses.dataclass
class WrongLine:
    """One pair, or the pairs of a function in which lines change places; and the facts that it names."""
    pairs: list
    claims: list
    touches: set
    problem: str = ''


def read(path):
    with open(path, encoding='utf-8', errors='replace') as f:
        return f.read()


def files_of(folder):
    """The texts of a crate's files, by their path in the crate."""
    texts = {}
    for part in PARTS:
        for place, _, names in os.walk(os.path.join(folder, part)):
            for name in names:
                path = os.path.join(place, name)
                texts[os.path.relpath(path, folder)] = read(path)
    return texts


def read_edit(path):
    """The pairs of an edit, and what is wrong with its lines."""
    pairs, file, old, problem = [], '', '', ''
    for at, line in enumerate(read(path).split('\n'), 1):
        word, _, rest = line.partition(':')
        rest = rest.removeprefix(' ')
        if word == 'file':
            file = rest
        elif word == 'old':
            old = rest
        elif word == 'new':
            pairs.append(Pair(at, file, old, rest, [], [], []))
            old = ''
        elif word in ('fails', 'proved') and pairs and not old:
            of = pairs[-1].names if word == 'fails' else pairs[-1].proved
            of += rest.replace(',', ' ').split()
        elif word == 'witness' and pairs and not old:
            pairs[-1].witnesses.append(rest)
        elif word in ('fails', 'proved', 'witness'):
            problem = f'line {at}: a `{word}:` line stands behind no pair'
    return pairs, problem or problem_of_pairs(pairs)


def problem_of_pairs(pairs):
    """What is wrong with the pairs of an edit, or ''."""
    if not pairs:
        return 'it has no pair of old and new text'
    wrong = {pair.file.partition('/')[0] for pair in pairs if not pair.proved}
    if 'proofs' in wrong:
        return 'it changes proofs: an adapted proof stands beside a wrong definition and has a `proved:` line'
    if len(wrong) > 1:
        return 'it changes code and definitions'
    if any(pair.proved for pair in pairs) and wrong != {'specs'}:
        return 'a `proved:` line stands behind a pair that has no wrong definition beside it'
    if any(pair.proved and pair.file.startswith('specs/') for pair in pairs):
        return 'a `proved:` line stands behind a definition'
    return ''


def module_of(file):
    """The module of a source file as the log writes it: calls:: for src/calls.rt, nothing for src/lib.rt."""
    names = file.removeprefix('src/').removesuffix('.rt').split('/')
    return ''.join(name + '::' for name in names if name not in ('lib', 'main', 'mod'))


def types_of(texts):
    """The module of each type that the crate declares."""
    return {name: module_of(file) for file in texts if file.endswith('.rt') for name in TYPE.findall(texts[file])}


def functions_of(texts, file):
    """The functions of a source file: name as the log has it, and where signature and body begin and end."""
    text, found, types = texts[file], [], types_of(texts)
    for m in FUNCTION.finditer(text) if file.endswith('.rt') else []:
        close = re.compile('^' + m.group(1) + r'\}', re.M).search(text, m.end())
        owners = OWNER.findall(text, 0, m.start()) if m.group(1) else []
        prefix = types.get(owners[-1], '') + owners[-1] + '::' if owners else module_of(file)
        found.append((prefix + m.group(2), m.start(), close.end() if close else len(text)))
    return found


def is_exported(before):
    """Does a function with this text before it have the attribute of an export?"""
    return '#[unsafe(no_mangle)]' in re.search(r'(?:^#\[.*\]\n)*\Z', before, re.M).group()


def offered_of(texts):
    """The functions that a crate offers: exported to C, named by lib.rt, or public methods of a public type."""
    lib, names = texts.get('src/lib.rt', ''), set()
    named = {module + '::' + name for module, name in OFFERED.findall(lib)}
    for file in (file for file in texts if file.endswith('.rt')):
        for name, start, _ in functions_of(texts, file):
            line = texts[file][start:texts[file].index('\n', start)]
            public = line.lstrip().startswith('pub fn') and (file == 'src/lib.rt' or line.startswith(' '))
            if public or name in named or is_exported(texts[file][:start]):
                names.add(name)
    return names


def put_in(pair, texts, spans):
    """Puts one pair's new text in the place of the old one. `spans` has, for each file, where pairs put texts."""
    text = texts.get(pair.file, '')
    if not pair.old or text.count(pair.old) != 1:
        pair.problem = f'its old text stands {text.count(pair.old) if pair.old else 0} times in {pair.file}'
        return
    at = text.index(pair.old)
    end, more = at + len(pair.old), len(pair.new) - len(pair.old)
    pair.function = next((name for name, start, stop in functions_of(texts, pair.file) if start <= at < stop), '')
    pair.replaces = any(start < end and at < stop for start, stop in spans[pair.file])
    apart = [(start, stop) for start, stop in spans[pair.file] if stop <= at or end <= start]
    spans[pair.file] = [(a, b) if b <= at else (a + more, b + more) for a, b in apart] + [(at, at + len(pair.new))]
    texts[pair.file] = text[:at] + pair.new + text[end:]


def put_all_in(pairs, before):
    """The files of a crate after these pairs."""
    after, spans = dict(before), collections.defaultdict(list)
    for pair in pairs:
        put_in(pair, after, spans)
    return after


def make_edit(folder, path):
    before = files_of(folder)
    pairs, problem = read_edit(path)
    return Edit(os.path.basename(path).removesuffix('.edit'), pairs, before, put_all_in(pairs, before), problem)


def with_lines(edit, lines):
    """The files of an edit's crate with these of its wrong lines alone."""
    pairs = [dataclasses.replace(pair) for line in lines for pair in line.pairs]
    return put_all_in(sorted(pairs, key=lambda pair: pair.line), edit.before)


def words_of(texts, file, function):
    text = ' '.join(texts[file][a:b] for name, a, b in functions_of(texts, file) if name == function)
    return sorted(re.findall(r'\w+|\S', text))


def claim_of(name):
    """A name of a `fails:` line as what fails (a function, or a file of proofs) and the fact, '' for any."""
    of, fact = re.fullmatch(r'(.*?)(?:(?<!:):(?!:)([^:]+))?', name).groups()
    return of, fact or ''


def users_of(edit, constant):
    """The functions that use a constant."""
    word = re.compile(r'\b' + constant + r'\b')
    return {
        name
        for file in edit.after if file.endswith('.rt')
        for name, start, stop in functions_of(edit.after, file) if word.search(edit.after[file], start, stop)
    }


def wrong_line(edit, pairs):
    """The wrong line that these pairs make: what it names, and the functions that it can reach."""
    function, file = pairs[0].function, pairs[0].file
    claims = [claim_of(name) for pair in pairs for name in pair.names] or [(function, '')]
    constants = [name for pair in pairs if not function for name in CONSTANT.findall(pair.old)]
    touches = {function} if function else set().union(*[users_of(edit, name) for name in constants])
    problem = next((pair.problem for pair in pairs if pair.problem), '')
    kept = function and words_of(edit.before, file, function) == words_of(edit.after, file, function)
    if len(pairs) > 1 and not kept:
        problem = problem or f'a text is replaced twice in {function or file}, and its words are not those before'
    if not function and not any(pair.names for pair in pairs):
        problem = problem or 'it stands in no function and has no `fails:` line'
    if function and function not in [of for of, _ in claims]:
        problem = problem or f'its `fails:` line names no fact of {function}'
    return WrongLine(pairs, claims, touches, problem)


def wrong_lines(edit):
    """Every pair in one wrong line: a pair for itself, or all pairs of a function in which lines change places."""
    exchanged = {(pair.file, pair.function) for pair in edit.pairs if pair.replaces}
    groups = collections.defaultdict(list)
    for pair in (pair for pair in edit.pairs if not pair.proved):
        place = (pair.file, pair.function)
        groups[place if place in exchanged else pair.line].append(pair)
    return [wrong_line(edit, pairs) for pairs in groups.values()]


def edits_of(folder):
    place = os.path.join(folder, 'must-fail')
    return sorted(name for name in os.listdir(place) if name.endswith('.edit')) if os.path.isdir(place) else []


def is_judged(folder):
    """Has the crate edits, or is it a library with a contract?"""
    texts = files_of(folder)
    contracts = any('ensures' in text for file, text in texts.items() if file.endswith('.rt'))
    return bool(edits_of(folder)) or (contracts and 'src/lib.rt' in texts)


def crates_below(root):
    """The crates of crates.txt in its order, each with those that it names. A static library is told so behind its
    name."""
    lines = [line.partition('#')[0].partition(':') for line in read(os.path.join(root, 'crates.txt')).split('\n')]
    return {head.split()[0]: below.split() for head, colon, below in lines if colon}


def crates_of(root):
    """The crates to judge, in the order of crates.txt."""
    return [name for name in crates_below(root) if is_judged(os.path.join(root, 'crates', name))]
