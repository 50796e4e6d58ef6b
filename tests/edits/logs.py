"""What rt says of an edit: which functions are not proved, and which facts fail; and whether that is what the edit's
wrong lines say."""
import collections
import dataclasses
import re

from claims import declarations, is_lemma, records_of
from edits import CONSTANT, claim_of, users_of, with_lines, wrong_lines
from tries import with_names

NO_FACT = ('not admitted', 'cannot be checked', 'can be named from here')
NO_FIELD = 'record `'
# What is said of a proof that names what the code no longer has.
MISFIT = re.compile(r'record `[^`]*` has no field|.*: module `[^`]*` has no |`[^`]*` is not in scope')
FUNCTION = re.compile(r'fn \w+::(\S+): (proved$|not proved|no proof)(.*)')
UNCLOSED = re.compile(r'`search` did not prove (`[^;]*`)')
OPEN = re.compile(r'note: \S+:\d+:\d+: it is not proved that .*\(`([^`]+)`\)')
ERROR = re.compile(r'(?:\S*/)?(?:proofs|specs)/(\S+\.antt):\d+:\d+: error: `([^`]*)`: (.*)')


@dataclasses.dataclass
class Log:
    """Whether rt came to a verdict; functions that are not proved, those that are, and what fails: facts by function,
    goals without an answer too, declarations by file. What rests on them is not admitted either. Of a function that
    waits for another one's proof not all facts were tried. A misfit is a function of which an answer does not fit the
    code's shape, or a file of which a declaration does not: that answer shows nothing, and neither do the function's
    goals without one, or the file."""
    ended: bool = False
    refused: bool = False
    unproved: set = dataclasses.field(default_factory=set)
    proved: set = dataclasses.field(default_factory=set)
    waiting: set = dataclasses.field(default_factory=set)
    facts: dict = dataclasses.field(default_factory=lambda: collections.defaultdict(set))
    open: dict = dataclasses.field(default_factory=lambda: collections.defaultdict(set))
    resting: dict = dataclasses.field(default_factory=lambda: collections.defaultdict(set))
    misfits: set = dataclasses.field(default_factory=set)


def owner_of(file):
    """What the facts of a file of proofs are told of: the function in whose folder it stands, else the file."""
    folder, _, _ = file.rpartition('/')
    return folder.replace('/', '::') or file


def read_function(line, log, open_facts):
    """Reads the line that tells of a function whether it is proved. Before it stand its facts that have no answer."""
    name, told, more = FUNCTION.match(line).groups()
    if told == 'proved':
        log.proved.add(name)
        return
    log.unproved.add(name)
    if 'it calls `' in more:
        log.waiting.add(name)
    for closed in UNCLOSED.findall(more):
        open_facts |= set(re.findall(r'`([^`]+)`', closed))
    log.open[name] |= open_facts


def read_error(line, log):
    """Reads the line that tells what is wrong in a file of proofs."""
    file, name, why = ERROR.match(line).groups()
    of = owner_of(file)
    fits = not MISFIT.match(why)
    rests = any(words in why for words in NO_FACT)
    (log.facts if fits and not rests else log.resting)[of].add(name)
    if not fits and ('/' in file or why.startswith(NO_FIELD)):
        log.misfits.add(of)


def read_log(said):
    log, open_facts = Log(), set()
    for line in said.split('\n'):
        log.ended |= line.startswith('logic=')
        log.refused |= line.startswith('logic=not-proved')
        if OPEN.match(line):
            open_facts.add(OPEN.match(line).group(1))
        if FUNCTION.match(line):
            read_function(line, log, open_facts)
            open_facts = set()
        if ERROR.match(line):
            read_error(line, log)
    for of in log.open.keys() - log.misfits:
        log.facts[of] |= log.open[of]
    for of in (of for of in log.misfits if of.endswith('.antt')):
        log.facts[of] = set()
    return log


def is_of(fact, named):
    """Is this the fact of that name, or a clause of it?"""
    return fact == named or fact.startswith(named + '-clause-')


def may_be_one(fact, other):
    """May two names be of one fact? No name is that of any."""
    return not fact or not other or is_of(fact, other) or is_of(other, fact)


def does_not_fail(claim, log):
    """Why this is not seen to fail, or ''."""
    of, fact = claim
    if not of.endswith('.antt') and of not in log.unproved:
        return f'{of} is proved all the same'
    if not log.facts.get(of):
        return f'{of} fails by no fact of its own'
    if fact and not any(is_of(each, fact) for each in log.facts[of]):
        return f'{of} does not fail by {fact}, but by {" ".join(sorted(log.facts[of]))}'
    return ''


def shares(line, others):
    """Which fact this wrong line could owe to another one of the edit, or ''."""
    for of, fact in line.claims:
        for other in others:
            if not fact and of in other.touches:
                return f'{of} is reached by the wrong line {other.pairs[0].line} too: name a fact of each'
            if any(of == also and may_be_one(fact, also_fact) for also, also_fact in other.claims):
                return f'the wrong line {other.pairs[0].line} rests on the same fact of {of}'
    return ''


def does_not_follow(pair, edit, log):
    """Why this pair is not code that follows a wrong definition, nor an adapted proof; or ''."""
    proof = pair.file.startswith('proofs/')
    why = pair.problem or (is_not_adapted(pair, edit, log) if proof else is_not_proved(pair, edit, log))
    return f'line {pair.line}: {why}' if why else ''


def is_not_proved(pair, edit, log):
    """Why this pair is not code that follows a wrong definition, or ''. Of a constant the functions that use it follow."""
    unproved = [name for name in pair.proved if name not in log.proved]
    constants = [] if pair.function else CONSTANT.findall(pair.old)
    follow = {pair.function} if pair.function else set().union(*(users_of(edit, name) for name in constants))
    if not follow or not follow <= set(pair.proved):
        return 'its `proved:` line names another function than its own'
    return f'{unproved[0]} is not proved, so not a law alone refuses the definition' if unproved else ''


def is_not_adapted(pair, edit, log):
    """Why this pair is not an adapted proof, or ''."""
    file = pair.file.removeprefix('proofs/')
    text = edit.after[pair.file]
    own = {f'{file}:{name}' for name in [*declarations(text), *records_of(text)]}
    other = [name for name in pair.proved if name not in own]
    if other:
        return f'its `proved:` line names {other[0]}, which is no declaration of {file}'
    of, names = owner_of(file), {claim_of(name)[1] for name in pair.proved}
    failing = log.facts.get(of, set()) | log.resting.get(of, set())
    fails = of in log.misfits or (failing if '/' in file else failing & names)
    return f'the adapted proof {file} fails, so not a law alone refuses the definition' if fails else ''


def fails_too(edit, log):
    """What fails by a fact beside what the edit's `fails:` lines name, where proofs are adapted; or ''."""
    named = {claim_of(name) for pair in edit.pairs for name in pair.names}
    failing = {(of, fact) for of in log.facts for fact in log.facts[of]} | {(of, '') for of in log.misfits}
    more = sorted(of + ':' * bool(fact) + fact for of, fact in failing if not {(of, ''), (of, fact)} & named)
    adapted = any(pair.file.startswith('proofs/') for pair in edit.pairs)
    return f'{" ".join(more)} fails too, so not a law alone refuses the definition' if adapted and more else ''


def names_a_lemma(line, edit):
    """Which name of a wrong definition's `fails:` line is neither a contract nor the proof of a claim, or ''."""
    for of, fact in line.claims if line.pairs[0].file.startswith('specs/') else []:
        if of.endswith('.antt') and is_lemma(edit.before, of, fact):
            return f'{of}:{fact} is a lemma; name a field of a law record, a case or a contract'
    return ''


def tried(crate, texts, tries, claims):
    """What rt says of a crate with these texts, or None where it comes to no verdict. Names that the texts' code has in
    the place of others are turned in its proofs, and facts are told by those that the crate has as it stands."""
    log = read_log(tries.said(crate, texts))
    unknown = {claim[0] for claim in claims if claim[1] and does_not_fail(claim, log)} & log.unproved
    others = tries.other_names(crate, texts, log.misfits | unknown) if log.misfits | unknown else {}
    log = read_log(tries.said(crate, with_names(texts, others)))
    for of, words in others.items():
        back = {new: old for old, new in words.items()}
        log.facts[of] = {back.get(fact, fact) for fact in log.facts.get(of, ())}
    return log if log.ended else None


def why_not(line, lines, edit, log):
    """Why a wrong line is not seen to fail, or ''."""
    fails = [does_not_fail(claim, log) for claim in line.claims]
    why = line.problem or next((f for f in fails if f), '') or shares(line, [o for o in lines if o is not line])
    return why or names_a_lemma(line, edit)


def judge_lines(crate, edit, lines, tries):
    """The problem of an edit, or ''; and why each wrong line is not seen to fail, or ''. Lines whose function waits for
    the proof of another one are tried again without those that are seen to fail."""
    whys, left = {}, lines
    while left:
        claims = [claim for line in left for claim in line.claims]
        log = tried(crate, with_lines(edit, left) if whys else edit.after, tries, claims)
        problem = problem_of_log(edit, log) if not whys else '' if log else 'rt came to no verdict'
        if problem:
            return problem, []
        found = {id(line): why_not(line, lines, edit, log) for line in left}
        waits = [line for line in left if found[id(line)] and {of for of, _ in line.claims} & log.waiting]
        whys |= found
        # A definition has what rests on it as its facts, and no line less.
        left = waits if len(waits) < len(left) and edit.of_code else []
    return '', [(line, whys[id(line)]) for line in lines]


def problem_of_log(edit, log):
    """What is wrong with what rt says of a whole edit, or ''."""
    if not log:
        return 'rt came to no verdict'
    follows = [does_not_follow(pair, edit, log) for pair in edit.pairs if pair.proved] + [fails_too(edit, log)]
    return next((why for why in follows if why), '' if log.refused else 'the prover did not refuse it')


def judge(crate, edit, tries):
    """Why the edit cannot be judged, or ''; and each wrong line with '' where it is seen to fail, else why not."""
    lines = wrong_lines(edit)
    if edit.problem:
        return edit.problem, [(line, edit.problem) for line in lines]
    if any(line.problem.startswith('its old text') for line in lines):
        return '', [(line, line.problem or 'another pair is not in its file') for line in lines]
    problem, verdicts = judge_lines(crate, edit, lines, tries)
    return problem, [(line, problem) for line in lines] if problem else verdicts
