"""The test of every_line_fails, on a small crate with seven edits."""
import os
import subprocess
import sys
import tempfile
import unittest

sys.dont_write_bytecode = True

from edits import make_edit
from logs import judge
from tries import Tries

PROGRAM = os.path.join(os.path.dirname(os.path.abspath(__file__)), 'every_line_fails')

CODE = '''#![tactic(auto)]

ghost use Rattle.std.specs.Prelude.{◌≡◌};
ghost use Rattle.small.specs.Numbers.{told, few};

const MOST: usize = 9;

pub(crate) fn most() -> usize
    ensures { result ≡ 9 }
{
    MOST
}

pub(crate) fn seven() -> usize
    ensures { result ≡ 7 }
{
    7
}

pub(crate) fn first(a: usize, b: usize) -> usize
    ensures { result ≡ a }
{
    let _other = b;
    a
}

pub(crate) fn tell(flag: bool) -> usize
    ensures { result ≡ told flag }
{
    if flag {
        return 1;
    }
    2
}

pub(crate) fn ask(flag: bool, _again: bool) -> usize
    ensures { result ≡ told flag }
{
    tell(flag)
}

pub(crate) fn are_few(n: usize) -> bool
    ensures { result ≡ few n }
{
    if n > 3 {
        return false;
    }
    true
}
'''

SPECS = '''use Rattle.std.specs.Prelude.{◌≡◌, Bool, true, false, cond, ℕ, nat_lt}

unfoldable pub told : Bool → ℕ
told flag = cond flag 1 2

unfoldable pub few : ℕ → Bool
few n = nat_lt n 4

pub record ToldLaws : Type 0 where
  pub one : told true ≡ 1
  pub two : told false ≡ 2

abbrev pub FirstTold : (n : ℕ) → Type 0
FirstTold n = told true ≡ n
'''

TELL = '''use Rattle.std.proofs.Common.{refl}
use Rattle.small.specs.Numbers.{told}
use Rattle.small.proofs.tell.Goals as goal

pub returns-then-flag : goal.returns-then-flag
unfolding told
returns-then-flag c = rw c.if-flag.true refl

pub returns : goal.returns
unfolding told
returns c = rw c.if-flag.false refl
'''

ARE_FEW = '''use Rattle.std.proofs.Common.{rules}
use Rattle.small.specs.Numbers.{few}
use Rattle.small.proofs.are_few.Goals as goal

pub returns-then-n-gt3 : goal.returns-then-n-gt3
unfolding few
returns-then-n-gt3 c = search rules

pub returns : goal.returns
unfolding few
returns c = search rules
'''

LAWS = '''use mathlib.Core.Path.{◌≡◌, refl}
use mathlib.Core.Bool.{true, false}
use Rattle.small.specs.Numbers.{told, ToldLaws, FirstTold}

told_one : told true ≡ 1
unfolding told
told_one = refl

told_two : told false ≡ 2
unfolding told
told_two = refl

pub told_laws : ToldLaws
told_laws = record { one = told_one; two = told_two }

pub first_told : FirstTold 1
unfolding told
first_told = refl
'''

# A lemma that no law rests on.
LEMMAS = '''use mathlib.Core.Path.{◌≡◌, refl}
use mathlib.Core.Bool.{true}
use Rattle.small.specs.Numbers.{told}

pub told_first : told true ≡ 1
unfolding told
told_first = refl
'''

# A constant, a number, an argument, and two numbers that change places: all are wrong.
ALL_WRONG = '''file: src/lib.rt
old: const MOST: usize = 9;
new: const MOST: usize = 8;
fails: most
witness: most() == 9
old:     7
new:     8
witness: seven() == crate::witness::SEVEN
old:     a
new:     b
witness: first(1, 2) == 1
old: return 1;
new: return 90;
old:     2
new:     1
old: return 90;
new: return 2;
witness: tell(true) == 1
'''

# The first pair is harmless, the others are wrong, the last two in one function.
ONE_HARMLESS = '''file: src/lib.rt
old: let _other = b;
new: let _other = a;
old:     7
new:     8
witness: seven() == 7
old: return 1;
new: return 3;
fails: tell:returns-then-flag
witness: tell(true) == 1
old:     2
new:     4
fails: tell:returns
witness: tell(false) == 2
'''

DEFINITION = '''file: specs/Numbers.antt
old: told flag = cond flag 1 2
new: told flag = cond flag 2 1
fails: tell
'''

# Definition and code are wrong alike: the function is proved, and a law refuses them.
BOTH_WRONG = '''file: specs/Numbers.antt
old: told flag = cond flag 1 2
new: told flag = cond flag 3 2
fails: Laws.antt:told_one
file: src/lib.rt
old: return 1;
new: return 3;
proved: tell
'''

# A lemma is adapted besides, and the proof of the function, so that only the laws refuse them.
ADAPTED = BOTH_WRONG.replace('told_one', 'told_one Laws.antt:first_told') + '''file: proofs/Lemmas.antt
old: pub told_first : told true ≡ 1
new: pub told_first : told true ≡ 3
proved: Lemmas.antt:told_first
file: proofs/tell/Answers.antt
old: returns c = rw c.if-flag.false refl
new: returns c = rw c.if-flag.false (refl)
proved: tell/Answers.antt:returns
'''

# The proof of `ask` waits for that of `tell`. Both answer with the wrong flag.
CALLED = '''file: src/lib.rt
old: if flag {
new: if !flag {
witness: tell(true) == 1
old: tell(flag)
new: tell(_again)
witness: ask(true, false) == 1
'''

# The goals of `are_few` have other names than in the right code.
RENAMED = '''file: src/lib.rt
old: if n > 3 {
new: if n >= 3 {
fails: are_few:returns-then-n-gt3
witness: are_few(3)
'''

# A program that the small repository has in some tests, and what it writes.
PROGRAM_CODE = '''#![tactic(auto)]

use std::io;
use std::io::Write;

fn main(rt: HostRuntime) -> io::Result<()> {
    let mut out = io::writer(&rt);
    let most = small::most();
    write!(out, "{most}\\n")
}
'''

FILES = {
    'crates.txt': 'small:\n',
    'crates/small/src/lib.rt': CODE,
    'crates/small/specs/Lib.antt': 'pub mod Numbers\n',
    'crates/small/specs/Numbers.antt': SPECS,
    'crates/small/proofs/tell/Answers.antt': TELL,
    'crates/small/proofs/are_few/Answers.antt': ARE_FEW,
    'crates/small/proofs/Lib.antt': 'pub mod Laws\npub mod Lemmas\n',
    'crates/small/proofs/Laws.antt': LAWS,
    'crates/small/proofs/Lemmas.antt': LEMMAS,
    'tests/edits/witness/small.rs': 'pub const SEVEN: usize = 7;\n',
}


def without(word, edit):
    """The edit without its lines of this kind."""
    return ''.join(line for line in edit.splitlines(True) if not line.startswith(word))


def without_fails(edit):
    return without('fails:', edit)


class EveryLineFails(unittest.TestCase):
    @classmethod
    def setUpClass(cls):
        cls.folder = tempfile.TemporaryDirectory()
        cls.root = cls.folder.name
        for path, text in FILES.items():
            cls.write(path, text)
        edits = dict(all_wrong=ALL_WRONG, one_harmless=ONE_HARMLESS, definition=DEFINITION, both_wrong=BOTH_WRONG)
        cls.put_edits(adapted=ADAPTED, called=CALLED, renamed=RENAMED, **edits)
        cls.rt = subprocess.run(['rt', 'must-fail'], cwd=cls.root, capture_output=True, text=True)

    @classmethod
    def tearDownClass(cls):
        cls.folder.cleanup()

    @classmethod
    def write(cls, path, text):
        full = os.path.join(cls.root, path)
        os.makedirs(os.path.dirname(full), exist_ok=True)
        with open(full, 'w', encoding='utf-8') as f:
            f.write(text)

    @classmethod
    def put_edits(cls, **edits):
        folder = os.path.join(cls.root, 'crates/small/must-fail')
        for name in os.listdir(folder) if os.path.isdir(folder) else []:
            os.remove(os.path.join(folder, name))
        for name, text in edits.items():
            cls.write(f'crates/small/must-fail/{name}.edit', text)

    def judge(self, **edits):
        """The exit status and the printed lines, over these edits."""
        self.put_edits(**edits)
        ran = subprocess.run([sys.executable, PROGRAM, self.root], capture_output=True, text=True)
        self.assertEqual(ran.stderr, '')
        return ran.returncode, [line for line in ran.stdout.splitlines() if 'processor seconds' not in line]

    def assert_told(self, expected, **edits):
        """Each expected text stands in a line of details of its own, and there are no other ones."""
        status, lines = self.judge(**edits)
        details = [line for line in lines if line.startswith('  ')]
        self.assertEqual(status, 1)
        self.assertEqual(len(details), len(expected), lines)
        for text, line in zip(expected, details):
            self.assertIn(text, line)

    def assert_good(self, **edits):
        status, lines = self.judge(**edits)
        self.assertEqual(status, 0, lines)
        self.assertEqual([line for line in lines if line.startswith('  ')], [])

    def test_rt_is_content(self):
        self.assertEqual(self.rt.returncode, 0, self.rt.stdout)
        self.assertEqual(self.rt.stdout.count('edit: refused, as it must be'), 7, self.rt.stdout)

    def test_all_wrong(self):
        counts = '2 edits, 5 wrong lines seen to fail (0 by a case, 4 by a witness, 1 in definitions)'
        self.assertEqual(self.judge(all_wrong=ALL_WRONG, definition=DEFINITION), (0, [
            'small: ' + counts,
            'the proof no longer fits: 0',
            counts + '; 0 not',
        ]))

    def test_code_that_follows_a_wrong_definition(self):
        self.assert_good(both_wrong=BOTH_WRONG)
        self.assert_told(['it changes code and definitions'], both_wrong=BOTH_WRONG.replace('proved: tell\n', ''))
        self.assert_told(['names another function'], both_wrong=BOTH_WRONG.replace('proved: tell', 'proved: first'))
        self.assert_told(['none is not proved'], both_wrong=BOTH_WRONG.replace('proved: tell', 'proved: tell none'))
        self.assert_told(['no wrong definition'], definition=DEFINITION.replace('fails: tell', 'proved: tell'))
        self.assert_told(['behind a definition'], both_wrong=BOTH_WRONG + DEFINITION.replace('fails', 'proved'))

    def test_a_harmless_line(self):
        counts = '1 edits, 3 wrong lines seen to fail (0 by a case, 3 by a witness, 0 in definitions); 1 not'
        self.assertEqual(self.judge(one_harmless=ONE_HARMLESS), (1, [
            'small: ' + counts,
            '  one_harmless: line 3: first is proved all the same: let _other = a;',
            'the proof no longer fits: 0',
            counts,
        ]))

    def test_a_definition_or_a_constant_without_its_fact(self):
        told = 'it stands in no function and has no `fails:` line'
        self.assert_told([told], definition=without_fails(DEFINITION))
        self.assert_told([told], all_wrong=without_fails(ALL_WRONG))

    def test_a_fact_that_does_not_fail(self):
        other = ALL_WRONG.replace('fails: most', 'fails: most:returns-2')
        self.assert_told(['most does not fail by returns-2'], all_wrong=other)
        self.assert_told(['first is proved all the same'], definition=DEFINITION.replace(': tell', ': first'))

    def test_a_fact_of_another_line(self):
        told = ['rests on the same fact of seven', 'rests on the same fact of seven']
        self.assert_told(told, all_wrong=ALL_WRONG.replace('fails: most', 'fails: seven:returns'))

    def test_two_wrong_lines_in_a_function(self):
        told = ['first is proved', 'tell is reached by', 'tell is reached by']
        self.assert_told(told, one_harmless=without_fails(ONE_HARMLESS))

    def test_an_exchange_of_other_words(self):
        told = ['a text is replaced twice in tell']
        self.assert_told(told, all_wrong=ALL_WRONG.replace('new: return 2;', 'new: return 5;'))

    def test_a_function_whose_callee_is_not_proved(self):
        self.assert_good(called=CALLED)
        harmless = CALLED.replace('new: tell(_again)', 'new: tell(flag)').replace('old: tell(flag)', 'old:     tell(flag)')
        self.assert_told(['ask is proved all the same'], called=harmless.replace('new: tell', 'new:     tell'))

    def test_names_that_are_made_of_the_code(self):
        self.assert_good(renamed=RENAMED)
        self.assert_told(['are_few does not fail by returns'], renamed=RENAMED.replace('-then-n-gt3', ''))

    def test_a_function_offered_with_one_wrong_line(self):
        path = 'crates/small/src/lib.rt'
        self.write(path, CODE.replace('pub(crate) fn tell', 'pub fn tell'))
        self.assert_told(['tell: 1 wrong lines, and two are asked for'], all_wrong=ALL_WRONG)
        self.write(path, CODE)

    def test_a_library_without_edits(self):
        path = 'crates/small/src/lib.rt'
        self.write(path, CODE.replace('pub(crate) fn tell', 'pub fn tell'))
        self.assert_told(['tell: 0 wrong lines, and two are asked for'])
        os.rmdir(os.path.join(self.root, 'crates/small/must-fail'))
        self.assert_told(['tell: 0 wrong lines, and two are asked for'])
        self.write(path, CODE)

    def test_an_edit_that_cannot_be_judged(self):
        self.assert_told(['it changes code and definitions'], all_wrong=ALL_WRONG + DEFINITION)
        self.assert_told(['a `fails:` line stands behind no pair'], all_wrong='fails: most\n' + ALL_WRONG)
        self.assert_told(['it has no pair'], all_wrong='# nothing\n')
        told = ['its old text stands 0 times', 'another pair', 'another pair', 'another pair']
        self.assert_told(told, one_harmless=ONE_HARMLESS.replace('_other = b', '_other = c'))

    def test_code_of_which_nothing_shows_that_it_is_wrong(self):
        counts = '2 edits, 4 wrong lines seen to fail (0 by a case, 3 by a witness, 1 in definitions)'
        unshown = ALL_WRONG.replace('witness: first(1, 2) == 1\n', '')
        self.assertEqual(self.judge(all_wrong=unshown, definition=DEFINITION), (0, [
            'small: ' + counts + '; the proof no longer fits: 1',
            '  all_wrong: line 10: the proof no longer fits: b',
            'the proof no longer fits: 1',
            counts + '; 0 not',
        ]))

    def test_code_that_a_case_shows(self):
        self.write('crates.txt', 'small:\nsay: small\n')
        self.write('crates/say/src/main.rt', PROGRAM_CODE)
        self.write('crates/say/stdout', '9\n')
        _, lines = self.judge(all_wrong=without('witness: most', ALL_WRONG))
        counts = '1 edits, 4 wrong lines seen to fail (1 by a case, 3 by a witness, 0 in definitions)'
        self.assertIn('small: ' + counts, lines)
        self.write('crates/say/stdout', '8\n')
        ran = subprocess.run([sys.executable, PROGRAM, self.root], capture_output=True, text=True)
        self.assertIn('the translation of say differs, where it should write its file stdout', ran.stderr)
        self.assertEqual(ran.returncode, 1)
        self.write('crates.txt', 'small:\n')

    def test_a_witness_that_shows_nothing(self):
        told = 'with the right code its witness is false, with the wrong one it is true'
        self.assert_told([told], all_wrong=ALL_WRONG.replace('most() == 9', 'most() == 8'))
        told = 'with the right code its witness is true, with the wrong one it is true'
        self.assert_told([told], all_wrong=ALL_WRONG.replace('most() == 9', 'most() < 10'))
        told = 'with the right code its witness panics, with the wrong one it is true'
        self.assert_told([told], all_wrong=ALL_WRONG.replace('most() == 9', '7 / (9 - most()) == 7'))
        self.assert_told(['a `witness:` line stands behind no pair'], all_wrong='witness: true\n' + ALL_WRONG)

    def test_a_witness_of_wrong_code_that_panics_or_does_not_end(self):
        self.assert_good(all_wrong=ALL_WRONG.replace('most() == 9', '7 / (most() - 8) == 7'))
        self.assert_good(all_wrong=ALL_WRONG.replace('most() == 9', '{ while most() == 8 {} true }'))

    def test_a_lemma(self):
        told = 'Lemmas.antt:told_first is a lemma; name a field of a law record, a case or a contract'
        self.assert_told([told], definition=DEFINITION.replace(': tell', ': Lemmas.antt:told_first'))
        self.assert_good(definition=DEFINITION.replace(': tell', ': Laws.antt:told_one'))
        self.assert_good(definition=DEFINITION.replace(': tell', ': Laws.antt:first_told'))

    def test_a_changed_proof(self):
        alone = ''.join(ADAPTED.partition('file: proofs/')[1:])
        self.assert_told(['it changes proofs'], adapted=without('proved:', alone))
        self.assert_told(['has no wrong definition beside it'], adapted=alone)
        self.assert_told(['it changes proofs'], adapted=without('proved: Lemmas', ADAPTED))
        self.assert_told(['it changes proofs'], adapted=without('proved: tell/', ADAPTED))

    def test_an_adapted_proof(self):
        self.assert_good(adapted=ADAPTED)
        told = 'names Lemmas.antt:none, which is no declaration of Lemmas.antt'
        self.assert_told([told], adapted=ADAPTED.replace('Lemmas.antt:told_first', 'Lemmas.antt:none'))
        told = 'names Laws.antt:told_one, which is no declaration of Lemmas.antt'
        self.assert_told([told], adapted=ADAPTED.replace('Lemmas.antt:told_first', 'Laws.antt:told_one'))
        told = 'Laws.antt:first_told fails too, so not a law alone refuses'
        self.assert_told([told], adapted=ADAPTED.replace(' Laws.antt:first_told', ''))

    def said_of_adapted(self):
        """What rt says of the adapted edit."""
        with Tries(self.root) as tries:
            return tries.said('small', self.adapted().after)

    def adapted(self):
        self.put_edits(adapted=ADAPTED)
        return make_edit(os.path.join(self.root, 'crates/small'), os.path.join(self.root, 'crates/small/must-fail/adapted.edit'))

    def test_an_adapted_proof_that_fails(self):
        said = self.said_of_adapted()
        whys = ['3 and 4 differ', '`told_one` was not admitted, so this cannot be checked']
        places = [('Lemmas.antt', 'told_first'), ('tell/Answers.antt', 'returns')]
        for file, name, why in [(*place, why) for place in places for why in whys]:
            problem, _ = judge('small', self.adapted(), Said(f'./proofs/{file}:6:1: error: `{name}`: {why}\n' + said))
            self.assertIn(f'the adapted proof {file} fails', problem)

    def test_a_law_that_fails_beside_an_adapted_proof(self):
        said = './proofs/Lemmas.antt:9:1: error: `other`: 3 and 4 differ\n' + self.said_of_adapted()
        problem, _ = judge('small', self.adapted(), Said(said))
        self.assertIn('Lemmas.antt:other fails too', problem)

    def test_a_crate_that_is_not_proved(self):
        path = 'crates/small/src/lib.rt'
        self.write(path, CODE.replace('    7\n', '    8\n'))
        self.put_edits(definition=DEFINITION)
        ran = subprocess.run([sys.executable, PROGRAM, self.root], capture_output=True, text=True)
        self.assertEqual((ran.returncode, ran.stdout), (1, ''))
        self.assertIn('not proved as they stand, so that their edits show nothing: small', ran.stderr)
        self.write(path, CODE)


class Said:
    """In the place of tries: rt says the same of all texts."""

    def __init__(self, text):
        self.text = text

    def said(self, _crate, _texts):
        return self.text

    def other_names(self, _crate, _texts, _functions):
        return {}


if __name__ == '__main__':
    unittest.main()
