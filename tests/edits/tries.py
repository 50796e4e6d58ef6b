"""What rt says of a crate with other texts: tried on copies of the repository, as many at a time as there are
processors and memory. What rt said is kept in target/must-fail, by a sum of all that it was said of, and not asked
again."""
import concurrent.futures
import contextlib
import hashlib
import json
import os
import queue
import re
import shutil
import subprocess
import tempfile

from edits import PARTS, crates_below, files_of, read

CHECK_BYTES = 3 << 30
WORD = re.compile(r'[^\s(){}\[\].;,@"`]+')


def lanes():
    """How many checks run at a time."""
    memory = int(re.search(r'MemAvailable:\s+(\d+)', read('/proc/meminfo')).group(1)) << 10
    return max(1, min(len(os.sched_getaffinity(0)), memory // CHECK_BYTES))


def write(path, text):
    os.makedirs(os.path.dirname(path), exist_ok=True)
    with open(path, 'w', encoding='utf-8') as f:
        f.write(text)


def put(folder, texts, others):
    """Puts texts where those others stand."""
    for file in others.keys() - texts.keys():
        os.remove(os.path.join(folder, file))
    for file in (file for file in texts if others.get(file) != texts[file]):
        write(os.path.join(folder, file), texts[file])


class Tries:
    """The crates of a repository, copies of them to try texts on, and what rt said."""

    def __init__(self, root):
        self.root, self.below = root, crates_below(root)
        self.texts = {name: files_of(os.path.join(root, 'crates', name)) for name in self.below}
        self.kit = subprocess.run(['rt', 'version'], capture_output=True, text=True, check=True).stdout
        self.copies, self.lanes, self.room = queue.Queue(), lanes(), tempfile.TemporaryDirectory(prefix='edits-')
        for number in range(self.lanes):
            self.copies.put(self.copy(os.path.join(self.room.name, str(number))))

    def __enter__(self):
        return self

    def __exit__(self, *_):
        self.room.cleanup()

    def copy(self, folder):
        os.makedirs(folder)
        shutil.copy(os.path.join(self.root, 'crates.txt'), folder)
        for name, texts in self.texts.items():
            put(os.path.join(folder, 'crates', name), texts, {})
        return folder

    def each(self, call, items):
        """What the call gives of each item, side by side."""
        with concurrent.futures.ThreadPoolExecutor(self.lanes) as pool:
            return list(pool.map(call, items))

    def all_below(self, crate):
        below = [name for name in self.below[crate] if name in self.below]
        return sorted({crate, *(deep for name in below for deep in self.all_below(name))})

    def place(self, crate, texts, ending):
        """The file in which it is kept what rt says of a crate with these texts."""
        read_too = [(name, self.below[name], sorted(self.texts[name].items())) for name in self.all_below(crate)]
        sum_of = hashlib.sha256(repr((self.kit, read_too, sorted(texts.items()))).encode()).hexdigest()
        return os.path.join(self.root, 'target/must-fail', crate, sum_of[:32] + ending)

    @contextlib.contextmanager
    def put_in(self, crate, texts):
        """A copy's folder of the crate, with these texts."""
        copy = self.copies.get()
        folder = os.path.join(copy, 'crates', crate)
        try:
            put(folder, texts, self.texts[crate])
            yield folder
        finally:
            put(folder, self.texts[crate], texts)
            self.copies.put(copy)

    def said(self, crate, texts):
        """What `rt check` says, without what it says on the way; '' where it comes to no verdict."""
        kept = self.place(crate, texts, '.log')
        if os.path.exists(kept):
            return read(kept)
        with self.put_in(crate, texts) as folder:
            ran = subprocess.run(['rt', 'check', '--jobs', '1'], cwd=folder, capture_output=True, text=True)
        said = ''.join(line for line in ran.stdout.splitlines(True) if not line.startswith(('so far: ', 'checked ')))
        if not re.search(r'^logic=', said, re.M):
            return ''
        write(kept, said)
        return said

    def names(self, crate, texts):
        """The names that proofs cite, by function and by the place in its code."""
        kept = self.place(crate, texts, '.names')
        if not os.path.exists(kept):
            with self.put_in(crate, texts) as folder, tempfile.TemporaryDirectory() as out:
                ran = subprocess.run(['rt', 'names', out], cwd=folder, capture_output=True, text=True)
                listed = os.path.join(out, 'names.json')
                if ran.returncode or not os.path.exists(listed):
                    return {}
                write(kept, json.dumps(places_named(json.loads(read(listed)))))
        return json.loads(read(kept))

    def other_names(self, crate, texts, functions):
        """What differs of the names in these functions with these texts: the new name by that of the crate as it stands."""
        was, now = self.names(crate, self.texts[crate]), self.names(crate, texts)
        both = {function: (was.get(function, {}), now.get(function, {})) for function in functions}
        return {
            function: {old[place]: new[place] for place in old if place in new and old[place] != new[place]}
            for function, (old, new) in both.items()
        }


def with_names(texts, others):
    """The texts with the names in the proofs of these functions turned to the other ones."""
    turned = dict(texts)
    for function, words in others.items():
        folder = 'proofs/' + function.replace('::', '/') + '/'
        for file in (file for file in texts if file.startswith(folder)):
            turned[file] = WORD.sub(lambda m: words.get(m.group(), m.group()), texts[file])
    return turned


def places_named(listed):
    """The names of goals, steps and places by function; each by what the place is called without regard to the code."""
    found = {}
    for module, of in listed.items():
        function = re.fullmatch(r'Rattle-\w+-proofs\.(.*)\.Lts', module)
        if function and 'needs' in of:
            named = {'goal ' + place: name for place, name in of['needs']}
            for (place, _, (step, name), *_), place_name, arm in zip(of['places'], of['places_by_name'], of['arms']):
                named |= {'step ' + step: name, 'place ' + place: place_name} | names_of_arm(place, arm)
            found[function.group(1).replace('.', '::')] = named
    return found


def names_of_arm(place, arm):
    """The names of a place that is the arm of a match: the arm's own, and that of the other arms' fact that it is not
    this one."""
    if not arm:
        return {}
    name, _, fields = arm
    own = {f'field {place} {at}': field[0] for at, field in enumerate(fields)}
    return {'arm ' + place: name, 'not ' + place: name.replace('in-', 'not-', 1)} | own
