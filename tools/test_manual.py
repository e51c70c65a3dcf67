#!/usr/bin/env python3
"""Tests of tools/manual: `python3 tools/test_manual.py`. A program that answers as told stands in for `manual`, in a copy of tools/."""
import os
import shutil
import subprocess
import tempfile
import unittest

TOOLS = os.path.dirname(os.path.abspath(__file__))
ECHO = '#!/bin/sh\nwc -c | tr -d " "\nexit 0\n'
PROGRAM = 'crates/manual/out/manual'
SOURCES = ('crates.txt', 'crates', 'crates/a', 'crates/a/src', 'crates/a/src/lib', 'crates/manual')


class Manual(unittest.TestCase):
    def setUp(self):
        holder = tempfile.TemporaryDirectory()
        self.addCleanup(holder.cleanup)
        self.root = holder.name
        self.folder = os.path.join(self.root, 'folder')
        os.makedirs(os.path.join(self.root, 'tools'))
        os.makedirs(os.path.join(self.root, 'bin'))
        os.makedirs(os.path.join(self.root, 'crates', 'manual'))
        for name in ('pack', 'programs.py', 'manual'):
            shutil.copy(os.path.join(TOOLS, name), os.path.join(self.root, 'tools', name))
        self.put('folder/main.typ', 'ten\n')

    def put(self, path, content, mode=0o644):
        path = os.path.join(self.root, path)
        os.makedirs(os.path.dirname(path), exist_ok=True)
        with open(path, 'wb') as f:
            f.write(content.encode())
        os.chmod(path, mode)

    def program(self, script):
        self.put(PROGRAM, script, 0o755)

    def run_manual(self):
        path = os.path.join(self.root, 'bin') + os.pathsep + os.environ['PATH']
        words = [os.path.join(self.root, 'tools', 'manual'), self.folder]
        return subprocess.run(words, capture_output=True, check=False, env={**os.environ, 'PATH': path})

    def test_output_of_the_packed_folder(self):
        self.program(ECHO)
        r = self.run_manual()
        self.assertEqual((r.returncode, r.stdout, r.stderr), (0, b'18\n', b''))

    def test_every_number_has_its_meaning(self):
        for n in range(1, 12):
            self.program(f'#!/bin/sh\ncat > /dev/null\necho refused {n}\n')
            r = self.run_manual()
            self.assertEqual((r.returncode, r.stdout), (1, b''))
            self.assertTrue(r.stderr.startswith(b'manual: refused %d: ' % n), r.stderr)

    def test_two_tells_the_length(self):
        self.put('folder/long', 'x' * 60000)
        self.put('folder/longer', 'x' * 65535)
        self.program('#!/bin/sh\nhead -c 16385 > /dev/null\necho refused 2\n')
        r = self.run_manual()
        self.assertIn(b'16,384 bytes', r.stderr)
        self.assertIn(b'this folder packs to 125,571 bytes', r.stderr)

    def test_six_tells_the_place(self):
        self.put('folder/a/b.typ', 'x\n\u00b5V\n')
        self.program('#!/bin/sh\ncat > /dev/null\necho refused 6\n')
        self.assertIn(b'a/b.typ line 2', self.run_manual().stderr)

    def test_other_words_are_a_manual(self):
        for text in ('refused 12', 'refused 5 times', 'refused 0'):
            self.program(f'#!/bin/sh\ncat > /dev/null\necho {text}\n')
            r = self.run_manual()
            self.assertEqual((r.returncode, r.stdout), (0, text.encode() + b'\n'))

    def test_the_packer_refuses(self):
        self.program(ECHO)
        self.put('folder/a b', '')
        r = self.run_manual()
        self.assertEqual((r.returncode, r.stdout), (1, b''))
        self.assertIn(b'a b: ', r.stderr)

    def rt(self, ends=0, then=':'):
        """Stands in for rt: `rt run` in crates/manual makes a program that answers as ECHO, and a line in `runs`."""
        self.put('echo', ECHO, 0o755)
        made = 'mkdir -p out && cp ../../echo out/manual && echo ran >> ../../runs'
        at = f'[ "$(pwd -P)" = "{os.path.realpath(self.root)}/crates/manual" ]'
        self.put('bin/rt', f'#!/bin/sh\n[ "$*" = "run" ] && {at} && {made} && {then}\nexit {ends}\n', 0o755)

    def runs(self):
        path = os.path.join(self.root, 'runs')
        if not os.path.exists(path):
            return 0
        with open(path) as f:
            return len(f.readlines())

    def at(self, time, *paths):
        for path in paths:
            os.utime(os.path.join(self.root, path), (time, time))

    def built_before(self):
        """Sources of the time 100, and a program that answers otherwise than what rt builds."""
        self.rt()
        self.put('crates/a/src/lib', 'x')
        os.makedirs(os.path.join(self.root, 'crates', 'a', 'out'), exist_ok=True)
        self.put('crates.txt', 'a:')
        self.program('#!/bin/sh\ncat > /dev/null\necho old\n')
        self.at(100, *SOURCES)

    def test_the_program_is_built_where_it_is_absent(self):
        self.rt()
        r = self.run_manual()
        self.assertEqual((r.returncode, r.stdout), (0, b'18\n'))
        self.assertIn(b'`rt run` in crates/manual', r.stderr)

    def test_the_program_is_kept_where_it_is_as_new_as_its_sources(self):
        self.built_before()
        for time in (100, 101):
            self.at(time, PROGRAM)
            r = self.run_manual()
            self.assertEqual((r.returncode, r.stdout, r.stderr), (0, b'old\n', b''))
        self.assertEqual(self.runs(), 0)

    def test_the_program_is_built_once_where_a_source_is_newer(self):
        for n, path in enumerate(SOURCES):
            self.built_before()
            self.at(101, PROGRAM)
            self.at(102, path)
            r = self.run_manual()
            self.assertEqual((r.returncode, r.stdout), (0, b'18\n'), path)
            self.assertIn(b'older than its sources', r.stderr)
            self.assertEqual((self.run_manual().stderr, self.runs()), (b'', n + 1))

    def test_what_rt_makes_is_no_source(self):
        self.built_before()
        os.rmdir(os.path.join(self.root, 'crates', 'a', 'out'))
        self.rt(then='mkdir -p ../a/out && echo y > ../a/out/made')
        self.at(99, PROGRAM)
        self.assertIn(b'older than its sources', self.run_manual().stderr)
        self.assertEqual((self.run_manual().stderr, self.runs()), (b'', 1))

    def test_a_source_that_changes_during_the_check_is_newer(self):
        self.built_before()
        self.rt(then='echo y > ../a/src/lib')
        self.at(99, PROGRAM)
        self.run_manual()
        self.assertIn(b'older than its sources', self.run_manual().stderr)

    def test_an_older_program_is_not_run_where_the_check_fails(self):
        self.built_before()
        self.rt(ends=1)
        self.at(99, PROGRAM)
        r = self.run_manual()
        self.assertEqual((r.returncode, r.stdout), (1, b''))
        self.assertIn(b'not proved', r.stderr)

    def test_the_program_cannot_be_built(self):
        self.put('bin/rt', '#!/bin/sh\necho no; exit 1\n', 0o755)
        r = self.run_manual()
        self.assertEqual((r.returncode, r.stdout), (1, b''))

    def test_the_program_fails(self):
        self.program('#!/bin/sh\ncat > /dev/null\necho half\nexit 3\n')
        r = self.run_manual()
        self.assertEqual((r.returncode, r.stdout), (1, b''))
        self.assertIn(b'status 3', r.stderr)


if __name__ == '__main__':
    unittest.main()
