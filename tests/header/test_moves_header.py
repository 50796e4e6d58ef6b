#!/usr/bin/env python3
"""The test of include/moves_header: the header that is stored, and each kind of input that is refused."""
import pathlib
import re
import subprocess
import sys
import tempfile
import unittest

ROOT = pathlib.Path(__file__).resolve().parents[2]
PROGRAM = ROOT / 'include/moves_header'
HEADER = ROOT / 'include/streterva_moves.h'
PRINTED = (ROOT / 'crates/moves/stdout').read_bytes()  # by the program moves


def run(text, *arguments):
    """Exit status, standard output and standard error for this input."""
    ran = subprocess.run([sys.executable, PROGRAM, *arguments], input=text, capture_output=True, check=False)
    return ran.returncode, ran.stdout, ran.stderr.decode()


def with_line(number, line):
    """The input with another line, or with none where it is None."""
    lines = PRINTED.splitlines(keepends=True)
    lines[number - 1:number] = [] if line is None else [line]
    return b''.join(lines)


class Printed(unittest.TestCase):
    def test_header_is_stored(self):
        self.assertEqual(run(PRINTED), (0, HEADER.read_bytes(), ''))

    def test_numbers_stand_behind_their_pairs(self):
        table = HEADER.read_text().split('] = {\n')[1].split('};')[0]
        pairs = [[int(word) for word in re.findall(r'\d+', pair)] for pair in table.split('/*')[1:]]
        self.assertEqual([tuple(pair[:2]) for pair in pairs],
                         [(m, disks - m) for disks in range(2, 17) for m in range(1, disks)])
        self.assertEqual([len(pair) - 2 for pair in pairs], [m * n for m, n, *_ in pairs])
        self.assertEqual([entry for pair in pairs for entry in pair[2:]], [int(line) for line in PRINTED.split()])

    def test_lines_have_at_most_120_columns(self):
        self.assertLessEqual(max(map(len, HEADER.read_text().splitlines())), 120)

    def test_other_entries_are_printed_too(self):
        status, header, _ = run(with_line(1, b'15\n'))
        self.assertEqual((status, header), (0, HEADER.read_bytes().replace(b'/* 1, 1 */ 1,', b'/* 1, 1 */ 15,')))


class Refused(unittest.TestCase):
    def refused(self, text, sentence):
        self.assertEqual(run(text), (1, b'', f'moves_header: {sentence}\n'))

    def test_a_line_is_no_number(self):
        for line in (b'', b'0', b'16', b'01', b'+1', b'-1', b' 1', b'1 ', b'1\r', b'\t1', b'1.', b'0x1', b'x', b'100',
                     b'1\x00', b'\xff', '１'.encode(), '¹'.encode()):
            for number in (1, 1000, 3060):
                self.refused(with_line(number, line + b'\n'), f'line {number} is not a decimal number from 1 to 15.')

    def test_lines_are_missing(self):
        self.refused(b'', 'line 1 is missing; the table has 3,060 lines.')
        self.refused(with_line(17, None), 'line 3060 is missing; the table has 3,060 lines.')

    def test_the_last_line_does_not_end(self):
        self.refused(PRINTED[:-1], 'line 3060 does not end in 0x0A.')
        self.refused(b'1', 'line 1 does not end in 0x0A.')

    def test_there_is_more(self):
        for more in (b'1\n', b'\n', b'1', b' ', b'\x00'):
            self.refused(PRINTED + more, 'line 3061 is too much; the table has 3,060 lines.')

    def test_arguments(self):
        for arguments in (['--help'], ['-'], ['one', 'two']):
            status, header, sentence = run(PRINTED, *arguments)
            self.assertEqual((status, header), (2, b''))
            self.assertRegex(sentence, r'\Ausage: .*\n\Z')


class Written(unittest.TestCase):
    def setUp(self):
        folder = tempfile.TemporaryDirectory()
        self.addCleanup(folder.cleanup)
        self.folder = pathlib.Path(folder.name)
        self.file = self.folder / 'moves.h'

    def names(self):
        return [path.name for path in self.folder.iterdir()]

    def test_file_is_written_whole(self):
        for before in (None, b'old'):
            if before:
                self.file.write_bytes(before)
            self.assertEqual(run(PRINTED, self.file), (0, b'', ''))
            self.assertEqual(self.file.read_bytes(), HEADER.read_bytes())
            self.assertEqual(self.names(), ['moves.h'])

    def test_refused_input_leaves_the_file(self):
        self.file.write_bytes(b'old')
        for text in (b'', PRINTED[:-1], PRINTED + b'1\n', with_line(5, b'16\n')):
            status, header, sentence = run(text, self.file)
            self.assertEqual((status, header), (1, b''))
            self.assertRegex(sentence, r'\Amoves_header: line .*\n\Z')
            self.assertEqual(self.file.read_bytes(), b'old')
            self.assertEqual(self.names(), ['moves.h'])

    def test_file_that_cannot_be_written(self):
        (self.folder / 'moves.h').mkdir()
        for path in (self.file, self.folder / 'none' / 'moves.h'):
            status, header, sentence = run(PRINTED, path)
            self.assertEqual((status, header), (1, b''))
            self.assertRegex(sentence, r'\Amoves_header: the header cannot be written: .*\.\n\Z')
        self.assertEqual(self.names(), ['moves.h'])


if __name__ == '__main__':
    unittest.main()
