#!/usr/bin/env python3
"""Tests of tools/pack: `python3 tools/test_pack.py`. Bundles are read back by a reader of its own, written from document 01's words."""
import os
import re
import subprocess
import tempfile
import unittest

PACK = os.path.join(os.path.dirname(os.path.abspath(__file__)), 'pack')


def read_back(bundle):
    """Section 1, byte by byte: a list of (path, content). Fails where a rule is broken."""
    at = 2
    entries = []
    for _ in range(bundle[0] + 256 * bundle[1]):
        bits = bundle[at]
        assert bits in (2, 3, 6, 7), f'map byte {bits}'
        at += 1
        parts = []
        for here in (bits % 2 == 1, True):
            if here:
                n = bundle[at]
                parts.append(bundle[at + 1:at + 1 + n])
                assert n >= 1 and len(parts[-1]) == n
                at += 1 + n
        assert b'/' not in parts[-1]
        content = b''
        if bits >= 4:
            n = bundle[at] + 256 * bundle[at + 1]
            content = bundle[at + 2:at + 2 + n]
            assert n >= 1 and len(content) == n
            at += 2 + n
        entries.append((b'/'.join(parts), content))
    assert at == len(bundle), 'bytes behind the last entry'
    paths = [path for path, _ in entries]
    assert all(re.fullmatch(rb'(?!\.{1,2}(/|$))[\w.-]+(/(?!\.{1,2}(/|$))[\w.-]+)*', p) and len(p) <= 255 for p in paths)
    assert all(p < q for p, q in zip(paths, paths[1:]))
    assert not any(q.startswith(p + b'/') for p in paths for q in paths)
    return entries


def read_back_paths(bundle):
    """The paths of a bundle whose files are all empty."""
    paths, at = [], 2
    while at < len(bundle):
        n = bundle[at + 1]
        m = bundle[at + 2 + n]
        paths.append(bundle[at + 2:at + 2 + n] + b'/' + bundle[at + 3 + n:at + 3 + n + m])
        at += 3 + n + m
    assert len(paths) == bundle[0] + 256 * bundle[1] and at == len(bundle)
    return paths


class Pack(unittest.TestCase):
    def setUp(self):
        holder = tempfile.TemporaryDirectory()
        self.addCleanup(holder.cleanup)
        self.top = os.fsencode(holder.name)

    def put(self, path, content=b''):
        host = os.path.join(self.top, path)
        os.makedirs(os.path.dirname(host), exist_ok=True)
        with open(host, 'wb') as f:
            f.write(content)

    def run_pack(self, *words, given=b''):
        return subprocess.run([PACK, *words], input=given, capture_output=True, check=False)

    def packed(self, *words):
        r = self.run_pack(*words, self.top)
        self.assertEqual((r.returncode, r.stderr), (0, b''))
        return r.stdout

    def refused(self, *parts):
        """Status 1, nothing on standard output, each part in the message."""
        r = self.run_pack(self.top)
        self.assertEqual((r.returncode, r.stdout), (1, b''))
        for part in parts:
            self.assertIn(part, r.stderr)

    def test_bytes(self):
        self.assertEqual(self.packed(), b'\x00\x00')
        self.put(b'z')
        self.put(b'a/b/c', b'hi')
        self.assertEqual(self.packed(), b'\x02\x00\x07\x03a/b\x01c\x02\x00hi\x02\x01z')

    def test_order_is_by_whole_paths(self):
        self.put(b'a/b', b'2')
        self.put(b'a-b/c', b'1')
        self.assertEqual(read_back(self.packed()), [(b'a-b/c', b'1'), (b'a/b', b'2')])

    def test_any_content(self):
        contents = {b'all': bytes(range(256)), b'd/empty': b'', b'd/full': b'x' * 65535, b'nl': b'\r\n\n'}
        for path, content in contents.items():
            self.put(path, content)
        self.assertEqual(read_back(self.packed()), sorted(contents.items()))

    def test_content_too_long(self):
        self.put(b'ok', b'x')
        self.put(b'd/long', b'x' * 65536)
        self.refused(b'd/long: ', b'65,535 bytes')

    def test_path_bytes(self):
        self.put(b'a b')
        self.put(b'\xc3\xa9')
        self.put(b'n\nl')
        self.refused(b'a b: ', b'byte 20', '\u00e9: '.encode(), b'byte C3', b'n\\nl: ', b'byte 0A')

    def test_path_length(self):
        folder = b'f' * 200
        self.put(folder + b'/' + b'n' * 54)
        self.assertEqual(read_back(self.packed()), [(folder + b'/' + b'n' * 54, b'')])
        self.put(folder + b'/' + b'm' * 55)
        self.refused(b'm: a path has 1 to 255 bytes, and this one has 256')

    def test_hidden(self):
        self.put(b'.git/config', b'x')
        self.put(b'd/.a', b'y')
        self.put(b'd/b', b'z')
        r = self.run_pack(self.top)
        self.assertEqual((r.returncode, read_back(r.stdout)), (0, [(b'd/b', b'z')]))
        self.assertEqual(r.stderr, b'pack: left out: .git: hidden\npack: left out: d/.a: hidden\n')
        self.assertEqual(read_back(self.packed('--hidden')), [(b'.git/config', b'x'), (b'd/.a', b'y'), (b'd/b', b'z')])

    def test_empty_folder(self):
        os.mkdir(os.path.join(self.top, b'e'))
        r = self.run_pack(self.top)
        self.assertEqual((r.returncode, r.stdout, r.stderr), (0, b'\x00\x00', b'pack: left out: e: an empty folder\n'))

    def test_links(self):
        self.put(b'd/a', b'A')
        os.symlink(b'd/a', os.path.join(self.top, b'file'))
        os.symlink(b'd', os.path.join(self.top, b'twice'))
        self.assertEqual(read_back(self.packed()), [(b'd/a', b'A'), (b'file', b'A'), (b'twice/a', b'A')])

    def test_too_many_files(self):
        for i in range(257):
            self.put(b'd/%d' % i)
        for i in range(254):
            os.symlink(b'd', os.path.join(self.top, b'd%d' % i))
        self.assertEqual(len(read_back_paths(self.packed())), 255 * 257)
        self.put(b'one-more')
        self.refused(b'at most 65,535 files, and here are 65,536')

    def test_links_that_lead_nowhere(self):
        self.put(b'd/a', b'A')
        os.symlink(b'..', os.path.join(self.top, b'd', b'up'))
        os.symlink(b'gone', os.path.join(self.top, b'broken'))
        os.symlink(b'itself', os.path.join(self.top, b'itself'))
        self.refused(b'd/up: a symbolic link leads back', b'broken: cannot be read', b'itself: cannot be read')

    def test_neither_file_nor_folder(self):
        os.mkfifo(os.path.join(self.top, b'pipe'))
        self.refused(b'pipe: neither a file nor a folder')

    def test_wrong_words(self):
        self.assertEqual(self.run_pack().returncode, 2)
        self.assertEqual(self.run_pack('--what', self.top).returncode, 2)
        r = self.run_pack(os.path.join(self.top, b'n'))
        self.assertEqual((r.returncode, r.stdout), (1, b''))
        self.assertIn(b'not a folder', r.stderr)

    def test_list(self):
        self.put(b'd/a', b'four')
        self.put(b'b')
        r = self.run_pack('--list', given=self.packed())
        self.assertEqual((r.returncode, r.stdout), (0, b'     0 b\n     4 d/a\n'))

    def test_list_refuses_what_breaks_the_layout(self):
        broken = [
            b'', b'\x01', b'\x01\x00', b'\x00\x00\x00', b'\x01\x00\x02\x00', b'\x01\x00\x01\x01a', b'\x01\x00\x0a\x01a',
            b'\x01\x00\x02\x03a/b', b'\x01\x00\x02\x01.', b'\x01\x00\x02\x01 ', b'\x01\x00\x03\x01/\x01a', b'\x01\x00\x06\x01a\x00\x00',
            b'\x01\x00\x06\x01a\x02\x00b', b'\x02\x00\x02\x01b\x02\x01a', b'\x02\x00\x02\x01a\x02\x01a',
            b'\x03\x00\x02\x01a\x02\x03a-b\x03\x01a\x01c',
        ]
        for bundle in broken:
            r = self.run_pack('--list', given=bundle)
            self.assertEqual((r.returncode, r.stdout), (1, b''), bundle)
            self.assertIn(b'not a bundle', r.stderr)


if __name__ == '__main__':
    unittest.main()
