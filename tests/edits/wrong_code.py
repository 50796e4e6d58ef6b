"""Is a wrong line of code wrong? The crates are translated to Rust once, with all their wrong lines, and run with one
of them at a time:

- A case shows it where a program of the repository writes something else than its file stdout, panics or does not end.
- A witness shows it: a line `witness: EXPRESSION` behind the pair, of type bool, true of the right code and not true of
  the wrong one. It stands in the module of the pair's file, and what tests/edits/witness/CRATE.rs has is in its crate's
  module `witness`. Its author sees to it that the function's contract says that it is true, and that the inputs are
  ones that the `requires` of the functions called allow.

The right code has to write each file stdout byte by byte, or the translation is not to be trusted."""
import concurrent.futures
import dataclasses
import os
import resource
import signal
import subprocess

from edits import crates_below, edits_of, files_of, make_edit, module_of, read, wrong_lines
from translation import constants_of, translate, witness_names, wrong_constants

RUST = os.path.join(os.path.dirname(os.path.abspath(__file__)), 'rust')
KIT = ('wrong', 'kit')
OPTIONS = ['--edition=2024', '-Copt-level=1', '-Coverflow-checks=on', '-Cdebuginfo=0', '--cap-lints=allow']
# Of the processor, not of the clock, for a run that takes tenths of one: what else runs does not matter.
MOST_SECONDS = 3
STACK_BYTES = 1 << 28
# What the status of a run says, and what that says of a witness.
ENDS = {0: '', 1: 'differs', 101: 'panics', -signal.SIGKILL: 'does not end', -signal.SIGXCPU: 'does not end'}
SAYS = {'': 'is true', 'differs': 'is false'}


@dataclasses.dataclass
class Crate:
    """A crate to translate: its files, the crates that it names, and its wrong lines of code, each with its number."""
    name: str
    texts: dict
    below: list
    numbered: list
    helpers: str
    constants: set


@dataclasses.dataclass
class Shown:
    """How a wrong line of code is shown to be wrong: 'case', 'witness' or ''; and what is wrong with its witness."""
    by: str
    problem: str = ''


def key_of(crate, edit, line):
    return crate, edit.name, line.pairs[0].line


def code_lines(folder, name):
    """The wrong lines of code of an edit that can be put in, with their keys."""
    edit = make_edit(folder, os.path.join(folder, 'must-fail', name))
    lines = [] if edit.problem else wrong_lines(edit)
    code = [line for line in lines if line.pairs[0].file.startswith('src/')]
    fits = [line for line in code if not any(pair.problem for pair in line.pairs)]
    return {key_of(os.path.basename(folder), edit, line): line for line in fits}


def read_crates(root):
    """The crates of a repository with their wrong lines, and the number of each wrong line by its key."""
    crates, numbers = {}, {}
    for name, below in crates_below(root).items():
        folder = os.path.join(root, 'crates', name)
        lines = {key: line for edit in edits_of(folder) for key, line in code_lines(folder, edit).items()}
        numbers |= {key: at for at, key in enumerate(lines, len(numbers) + 1)}
        helpers = os.path.join(root, 'tests/edits/witness', name + '.rs')
        known = [crate for crate in below if crate in crates]
        texts, numbered = files_of(folder), [(numbers[key], line) for key, line in lines.items()]
        inherited = set().union(*(crates[crate].constants for crate in known)) - constants_of(texts)
        constants = wrong_constants(texts, numbered) | inherited
        crates[name] = Crate(name, texts, known, numbered, read(helpers) if os.path.exists(helpers) else '', constants)
    return crates, numbers


def write(path, text):
    """Writes a file, unless it has this text."""
    if os.path.exists(path) and read(path) == text:
        return
    os.makedirs(os.path.dirname(path), exist_ok=True)
    with open(path, 'w', encoding='utf-8') as f:
        f.write(text)


def is_newer(out, inputs):
    times = [os.stat(path).st_mtime_ns for path in inputs + [os.path.abspath(__file__)]]
    return os.path.exists(out) and max(times) < os.stat(out).st_mtime_ns


def compile_rust(place, name, sources, below, kind='rlib'):
    """Compiles one crate, whose first source names the others, unless it and those that it names are as they were."""
    out = os.path.join(place, name if kind == 'bin' else f'lib{name}.rlib')
    libraries = {crate: os.path.join(place, f'lib{crate}.rlib') for crate in below}
    if is_newer(out, sources + list(libraries.values())):
        return
    externs = [word for crate, path in libraries.items() for word in ('--extern', f'{crate}={path}')]
    what = [sources[0], '--crate-name', name, '--crate-type', kind, '-L', place, '-o', out]
    ran = subprocess.run(['rustc'] + what + OPTIONS + externs, capture_output=True, text=True)
    if ran.returncode:
        raise SystemExit(f'rustc refuses the translation of {name}:\n{ran.stderr}')


def is_program(crate):
    return 'src/main.rt' in crate.texts


def compile_kit(place):
    """Compiles what stands for Rattle's std, and what tells which wrong line runs."""
    os.makedirs(place, exist_ok=True)
    for name in KIT:
        compile_rust(place, name, [os.path.join(RUST, name + '.rs')], [])


def compile_crate(place, crate):
    """Translates and compiles one crate of the repository."""
    sources = translate(crate.texts, crate.numbered, crate.constants, crate.helpers)
    paths = {file: os.path.join(place, crate.name, file) for file in sources}
    for file, text in sources.items():
        write(paths[file], text)
    first = paths['src/main.rs' if is_program(crate) else 'src/lib.rs']
    compile_rust(place, crate.name, [first] + list(paths.values()), list(KIT) + crate.below)


def build(root, crates):
    """Compiles all crates and the program that runs their cases and witnesses; gives its path."""
    place, run_source = os.path.join(root, 'target/wrong-code'), os.path.join(root, 'target/wrong-code/run.rs')
    compile_kit(place)
    for crate in crates.values():
        compile_crate(place, crate)
    write(run_source, program_text(root, crates))
    files = [path for crate in crates.values() if is_program(crate) for path in case_files(root, crate) if path]
    compile_rust(place, 'run', [run_source] + files, ['kit'] + list(crates), 'bin')
    return os.path.join(place, 'run')


def program_text(root, crates):
    """The program that runs one program of the repository, or one witness."""
    arms = ''.join(case_arm(root, crate) for crate in crates.values() if is_program(crate))
    arms += ''.join(witness_arms(crate) for crate in crates.values())
    return f'''fn run(word: &str) -> bool {{
    match word {{
{arms}        _ => panic!(),
    }}
}}

fn main() {{
    let words: Vec<String> = std::env::args().skip(1).collect();
    let all = move || words.iter().all(|word| run(word));
    let held = std::thread::Builder::new().stack_size({STACK_BYTES}).spawn(all).unwrap().join();
    std::process::exit(match held {{
        Ok(true) => 0,
        Ok(false) => 1,
        Err(_) => 101,
    }});
}}
'''


def case_files(root, crate):
    """The files stdin and stdout of a program, '' for one that it does not have."""
    paths = [os.path.join(root, 'crates', crate.name, file) for file in ('stdin', 'stdout')]
    return [path if os.path.exists(path) else '' for path in paths]


def case_arm(root, crate):
    """The arm that runs a program, with its files stdin and stdout."""
    given, expected = (f'include_bytes!("{path}")' if path else 'b""' for path in case_files(root, crate))
    run = f'{crate.name}::main(kit::begin({given}, {expected})).unwrap(); kit::end(); true'
    return f'        "{crate.name}" => {{ {run} }}\n'


def witness_arms(crate):
    """An arm for each witness of a crate's wrong lines."""
    modules = [(module_of(line.pairs[0].file), witness_names(number, line)) for number, line in crate.numbered]
    places = [(f'{crate.name}::{module}{word}', word) for module, words in modules for word in words]
    return ''.join(f'        "{word}" => {place}(),\n' for place, word in places)


def run(program, number, words):
    """How the program ends: '' where all is as it must be."""
    environment = dict(os.environ, WRONG_LINE=str(number), RUST_BACKTRACE='0')
    limited = ['bash', '-c', f'ulimit -t {MOST_SECONDS}; exec "$@"', 'bash', program] + words
    ran = subprocess.run(limited, env=environment, capture_output=True)
    return ENDS.get(ran.returncode, f'ends with status {ran.returncode}')


def witness_problem(program, number, words):
    """What is wrong with the witnesses of a wrong line, or ''."""
    for word in words:
        right, wrong = (SAYS.get(ends, ends) for ends in (run(program, 0, [word]), run(program, number, [word])))
        if right != 'is true' or wrong == 'is true':
            return f'with the right code its witness {right}, with the wrong one it {wrong}'
    return ''


def show(program, cases, number, line):
    """Runs one wrong line: its witnesses, and where it has none the programs."""
    words = witness_names(number, line)
    if words:
        problem = witness_problem(program, number, words)
        return Shown('' if problem else 'witness', problem)
    return Shown('case' if run(program, number, cases) else '')


def show_all(root):
    """How each wrong line of code is shown to be wrong, by its key, and the processor seconds that it took."""
    root = os.path.abspath(root)
    crates, numbers = read_crates(root)
    program = build(root, crates)
    cases = [crate.name for crate in crates.values() if is_program(crate)]
    for name in cases:
        ends = run(program, 0, [name])
        if ends:
            raise SystemExit(f'the translation of {name} {ends}, where it should write its file stdout')
    lines = {number: line for crate in crates.values() for number, line in crate.numbered}
    with concurrent.futures.ThreadPoolExecutor(2) as pool:
        shown = dict(zip(lines, pool.map(lambda number: show(program, cases, number, lines[number]), lines)))
    used = resource.getrusage(resource.RUSAGE_CHILDREN)
    return {key: shown[number] for key, number in numbers.items()}, used.ru_utime + used.ru_stime
