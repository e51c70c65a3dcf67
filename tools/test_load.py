#!/usr/bin/env python3
"""Tests of tools/load: `python3 tools/test_load.py`. A program that writes its input in hexadecimal stands in for `load`, in a copy of tools/; the last test runs
the proved program itself."""
import os
import shutil
import subprocess
import tempfile
import unittest

TOOLS = os.path.dirname(os.path.abspath(__file__))
HEX = '#!/bin/sh\nod -An -v -tx1 | tr -d " \\n"\n'


def run(tools, *words):
    return subprocess.run([os.path.join(tools, 'load'), *words], capture_output=True, check=False)


class Load(unittest.TestCase):
    def setUp(self):
        holder = tempfile.TemporaryDirectory()
        self.addCleanup(holder.cleanup)
        self.tools = os.path.join(holder.name, 'tools')
        os.makedirs(self.tools)
        for name in ('programs.py', 'load'):
            shutil.copy(os.path.join(TOOLS, name), self.tools)
        self.program = os.path.join(holder.name, 'crates', 'load', 'out', 'load')
        os.makedirs(os.path.dirname(self.program))
        self.stand_in(HEX)

    def stand_in(self, script):
        with open(self.program, 'w') as f:
            f.write(script)
        os.chmod(self.program, 0o755)

    def test_the_seed_low_byte_first_and_the_list(self):
        for words, given in [
            (['0'], b'0000000000'),
            (['0', '--definitions'], b'0000000001'),
            (['--definitions', '258'], b'0201000001'),
            (['2147483648'], b'0000008000'),
            (['4294967295'], b'ffffffff00'),
            (['0' * 20 + '7'], b'0700000000'),
        ]:
            r = run(self.tools, *words)
            self.assertEqual((r.returncode, r.stdout, r.stderr), (0, given, b''), words)

    def test_no_seed(self):
        for words in (['4294967296'], ['9' * 5000], ['-1'], ['x'], ['1.5'], ['\u0661'], ['']):
            r = run(self.tools, *words)
            self.assertEqual((r.returncode, r.stdout), (2, b''), words)
            self.assertIn(b'is no seed', r.stderr)

    def test_other_words(self):
        for words in ([], ['1', '2'], ['--definitions'], ['1', '--definitions', '--definitions'], ['1', '--document'], ['--help']):
            r = run(self.tools, *words)
            self.assertEqual((r.returncode, r.stdout), (2, b''), words)
            self.assertIn(b'use: ', r.stderr)

    def test_the_program_fails(self):
        self.stand_in('#!/bin/sh\ncat > /dev/null\necho half\nexit 3\n')
        r = run(self.tools, '0')
        self.assertEqual((r.returncode, r.stdout), (1, b''))
        self.assertIn(b'status 3', r.stderr)

    def test_the_proved_program(self):
        for words, wanted in [
            (['0'], b'#x\n#x.#raw(x)  #x.#let y = x\n#x #x.#link("u")[t] #raw(x) '),
            (['0', '--definitions'],
             b'#let x = "10"\n, (a:)"\\q""\\q"(a:#let d = #let x = "10"\n"\\q"(a:none"\\q")"\\q"'),
            (['66044'], b'#x.#raw(x)#x.'),
        ]:
            r = run(TOOLS, *words)
            self.assertEqual((r.returncode, r.stdout), (0, wanted), r.stderr)


if __name__ == '__main__':
    unittest.main()
