"""Files: what is there, what isn't, who has it, and what fails."""

import errno
import os
import subprocess
import sys
import tempfile
import threading
import unittest
import warnings

import envy


class FileTest(unittest.TestCase):
    def setUp(self):
        self.folder = tempfile.TemporaryDirectory()
        self.addCleanup(self.folder.cleanup)
        self.path = os.path.join(self.folder.name, "words.envy")

    def make(self, words=1000):
        with envy.open(self.path, words) as m:
            m[5] = 7

    def change(self, at, byte):
        with open(self.path, "r+b") as it:
            it.seek(at)
            it.write(bytes([byte]))

    def refused(self, kind, code, *words, **options):
        with self.assertRaises(kind) as found:
            envy.open(self.path, *words, **options)
        self.assertEqual(found.exception.code, code)
        return found.exception

    def test_there_is_no_file(self):
        error = self.refused(FileNotFoundError, 1000)
        self.assertEqual((type(error), error.filename), (envy.MissingError, self.path))
        self.assertRaises(FileNotFoundError, envy.shape, self.path)
        self.assertRaises(FileNotFoundError, envy.open, self.path + "/none/x", 10)
        self.assertFalse(os.path.exists(self.path))
        self.assertRaises(OSError, envy.open, self.folder.name, 10)
        self.assertRaises(ValueError, envy.open, "a\0b", 10)
        self.assertRaises(TypeError, envy.open, 5, 10)

    def test_many_read_while_none_writes(self):
        for options in ({}, {"words": 10}):
            self.refused(envy.MissingError, 1000, readonly=True, **options)
        open(self.path, "w").close()
        self.refused(envy.FormatError, 72, words=10, readonly=True)
        self.assertEqual(os.path.getsize(self.path), 0)
        os.remove(self.path)
        self.make()
        self.refused(envy.FormatError, 20, 1025, readonly=True)
        self.assertRaises(TypeError, envy.open, self.path, readonly=True, bytewise=True)
        os.chmod(self.path, 0o400)
        with open(self.path, "rb") as it:
            before = it.read()
        with envy.open(self.path, readonly=True) as m, envy.open(self.path, readonly=True) as other:
            self.assertEqual((m[5], other[5], m.readonly, len(m)), (7, 7, True, 1024))
            self.refused(envy.LockedError, 1001)
            m[0:64] = range(64)
            self.assertEqual((m[0:64], other[0:6]), (list(range(64)), [0, 0, 0, 0, 0, 7]))
            self.assertEqual(sorted(os.listdir(self.folder.name)), ["words.envy"])
            with self.assertRaises(envy.FileError) as found:
                m.sync()
            self.assertEqual(found.exception.errno, errno.EROFS)
            self.assertRaises(envy.FileError, m.__getitem__, 0)
            self.assertEqual(other[5], 7)
            with self.assertRaises(envy.FileError) as found:
                other.compact()
            self.assertEqual(found.exception.errno, errno.EROFS)
        with open(self.path, "rb") as it:
            self.assertEqual(it.read(), before)
        os.chmod(self.path, 0o600)
        with envy.open(self.path) as m:
            self.refused(envy.LockedError, 1001, readonly=True)
            self.assertEqual((m[5], m.readonly), (7, False))

    def test_a_mapped_file_outlives_its_process(self):
        program = "import envy, os, signal, sys; m = envy.open(sys.argv[1], 1000, mapped=True); m[5] = 7; t = m.transaction(); t[6] = 1; "
        program += "s = m.transaction(); s[40] = 2; s.commit(); os.kill(os.getpid(), signal.SIGKILL)"
        folder = os.path.dirname(os.path.dirname(os.path.abspath(envy.__file__)))
        words = [sys.executable, "-c", program, self.path]
        self.assertEqual(subprocess.run(words, env={**os.environ, "PYTHONPATH": folder}).returncode, -9)
        with envy.open(self.path, mapped=True) as m:
            self.assertEqual((m[5:7], m[40], m.mapped, m.setup), ([7, 0], 2, True, envy.shape(self.path)))
            size = os.path.getsize(self.path)
            m.map(new=True)[3] = 4
            m.compact()
            self.refused(envy.LockedError, 1001, mapped=True)
        with envy.open(self.path, mapped=True) as m:
            self.assertEqual((dict(m.map()), os.path.getsize(self.path)), ({3: 4}, size))
            m.close(sync=False)

    def test_a_file_stays_of_its_kind(self):
        for options in ({}, {"mapped": True}):
            with envy.open(self.path, 1000, **options) as m:
                m[5] = 7
            with open(self.path, "rb") as it:
                before = it.read()
            other = {"mapped": not options}
            for more in ({}, {"setup": envy.shape(self.path)}, {"setup": envy.setup_for(5000)}, {"words": 10}):
                error = self.refused(envy.KindError, 72 if options else 18, **other, **more)
                self.assertIn("with mapped=True" if options else "without mapped=True", str(error))
            self.refused(envy.FormatError, 20, 1025, **other)
            with open(self.path, "rb") as it:
                self.assertEqual(it.read(), before)
            with envy.open(self.path, **options) as m:
                self.assertEqual((m[5], m.mapped), (7, bool(options)))
            os.remove(self.path)
        self.assertRaises(TypeError, envy.open, self.path, 10, mapped=True, bytewise=True)
        self.assertRaises(TypeError, envy.open, self.path, 10, mapped=True, readonly=True)
        with open(self.path, "wb") as it:
            it.write(bytes(4096))
        self.refused(envy.FormatError, 72, mapped=True)
        self.assertRaises(envy.MissingError, envy.open, self.path + ".none", mapped=True)

    def test_a_torn_end_is_read_over(self):
        self.make()
        with open(self.path, "ab") as it:
            it.write(b"\1" * 500)
        with open(self.path, "rb") as it:
            before = it.read()
        with envy.open(self.path, readonly=True) as m:
            self.assertEqual(m[5], 7)
        with open(self.path, "rb") as it:
            self.assertEqual(it.read(), before)
        self.assertEqual(sorted(os.listdir(self.folder.name)), ["words.envy"])

    def test_closed_without_a_sync(self):
        self.make()
        m = envy.open(self.path)
        m[5] = 8
        m.sync()
        m[5] = 9
        t = m.transaction()
        t[100] = 1
        m.close(sync=False)
        self.assertRaises(envy.ClosedError, m.__getitem__, 5)
        m.close()
        with envy.open(self.path) as m:
            self.assertEqual((m[5], m[100]), (8, 0))

    def test_an_old_file_keeps_its_sizes(self):
        self.make()
        for options in ({}, {"words": 10}, {"words": 1024}, {"bytewise": True}, {"owned_pages": 5}, {"setup": envy.shape(self.path)}):
            with envy.open(self.path, **options) as m:
                self.assertEqual((len(m), m[5], m.setup, m.bytewise), (1024, 7, envy.shape(self.path), "bytewise" in options))
        self.refused(envy.FormatError, 20, 1025)
        self.refused(envy.FormatError, 20, owned_pages=1000)
        self.refused(envy.FormatError, 20, setup=envy.setup_for(5000))
        self.assertRaises(TypeError, envy.open, self.path, 10, setup=envy.shape(self.path))
        with envy.open(os.fsencode(self.path)) as m:
            self.assertEqual(m.path, self.path)

    def test_sizes(self):
        for words, owned_pages, pages in ((1, None, 1), (32, None, 1), (33, 0, 2), (10**6, 5000, 31250)):
            setup = envy.setup_for(words, owned_pages)
            self.assertEqual((setup.pages, setup.words), (pages, 32 * pages))
            self.assertLessEqual(setup.pages + setup.shadows, (setup.segments - 2) * setup.rows)
        for words, code in ((0, 23), (2**40, 27)):
            with self.assertRaises(ValueError) as found:
                envy.setup_for(words)
            self.assertEqual((type(found.exception), found.exception.code), (envy.SetupError, code))
        for words, owned_pages in ((-1, None), (2**64, None), (5, -1), (5, 2**32)):
            self.assertRaises(ValueError, envy.setup_for, words, owned_pages)
        good = envy.setup_for(1000)
        for wrong, code in (({"segments": 3}, 21), ({"rows": 1}, 22), ({"pages": 0}, 23), ({"frames": 1}, 24), ({"policy": 9}, 17)):
            self.refused(envy.SetupError, code, setup=good._replace(**wrong))
        self.assertRaises(ValueError, envy.open, self.path, setup=good._replace(rows=2**32))
        self.assertEqual(os.listdir(self.folder.name), [])

    def test_what_is_no_memory(self):
        with open(self.path, "w") as it:
            it.write("a text of another kind, which is longer than a head is")
        self.refused(envy.FormatError, 72)
        self.refused(ValueError, 72, 1000)
        with open(self.path) as it:
            self.assertEqual(it.read()[:6], "a text")
        open(self.path, "w").close()
        self.refused(envy.FormatError, 72)
        self.make()
        self.change(8, 9)
        self.refused(envy.FormatError, 73)
        self.change(8, 2)
        self.change(9, 0)  # no segments
        self.assertRaises(envy.FormatError, envy.shape, self.path)

    def test_shape(self):
        self.make(5000)
        self.assertEqual(envy.shape(self.path), envy.setup_for(5000))
        with envy.open(self.path):  # neither locks nor is kept out
            self.assertEqual(envy.shape(self.path).words, 5024)

    def test_one_process_has_a_file(self):
        with envy.open(self.path, 100):
            error = self.refused(BlockingIOError, 1001)
            self.assertEqual(type(error), envy.LockedError)
            code = "import envy, sys\ntry: envy.open(sys.argv[1])\nexcept envy.LockedError: sys.exit(7)"
            self.assertEqual(subprocess.run([sys.executable, "-c", code, self.path]).returncode, 7)
        self.make(100)

    def test_a_new_file_has_the_rights_that_the_umask_leaves(self):
        before = os.umask(0o027)
        try:
            with envy.open(self.path, 100) as m:
                self.assertEqual(os.stat(self.path).st_mode & 0o777, 0o640)
                m.compact()
            self.assertEqual(os.stat(self.path).st_mode & 0o777, 0o640)
        finally:
            os.umask(before)

    def test_a_place_is_used_again(self):
        places, handles = set(), []
        for _ in range(300):
            with envy.open(self.path, 100) as m:
                m[0] += 1
                handles.append(m._place.handle)
                places.add(handles[-1][0])
        with envy.open(self.path) as m:
            self.assertEqual(m[0], 300)
        self.assertEqual(len(places), 1)
        self.assertEqual({it for handle in handles for it in handle}, {None})

    def test_so_many_are_open_at_a_time(self):
        opened = []
        try:
            with self.assertRaises(envy.FileError) as found:
                for i in range(257):
                    opened.append(envy.open(f"{self.path}{i}", 32, owned_pages=1))
            self.assertEqual((found.exception.code, len(opened)), (1002, 256))
        finally:
            for m in opened:
                m.close()

    def test_a_file_that_fails(self):
        self.make()
        code = """if True:
            import envy, resource, signal, sys
            signal.signal(signal.SIGXFSZ, signal.SIG_IGN)
            m = envy.open(sys.argv[1])
            m[6] = 8
            m.sync()
            resource.setrlimit(resource.RLIMIT_FSIZE, (4096, 4096))
            try:
                for i in range(10**6):
                    m[i % 1000] = i
                    m.sync()
            except envy.FileError as error:
                assert (error.code, type(error)) == (2, envy.FileError), error
                print(error.errno)
            for call in (lambda: m[5], m.sync, m.transaction, m.map, m.close):
                try:
                    call()
                except OSError as error:
                    assert error.code == 2, error
                else:
                    assert False, call
            m.close()
            """
        ran = subprocess.run([sys.executable, "-c", code, self.path], stdout=subprocess.PIPE, text=True)
        self.assertEqual((ran.returncode, ran.stdout.strip()), (0, "27"))  # EFBIG
        with envy.open(self.path) as m:
            self.assertEqual(len(m), 1024)


class ForkTest(unittest.TestCase):
    """What a process that was forked off may do."""

    def setUp(self):
        self.folder = tempfile.TemporaryDirectory()
        self.addCleanup(self.folder.cleanup)
        self.path = os.path.join(self.folder.name, "words.envy")

    def forked(self, work):
        with warnings.catch_warnings():
            warnings.simplefilter("ignore")  # (that a process with threads is forked)
            child = os.fork()
        if not child:
            status = 1
            try:
                work()
                status = 0
            finally:
                os._exit(status)
        self.assertEqual(os.waitpid(child, 0), (child, 0))

    def test_a_child_has_no_file(self):
        with envy.open(self.path, 1000) as m:
            a, t = m.map(), None
            a[1] = 2
            t = m.transaction()

            def work():
                for call in (lambda: m[5], lambda: m.__setitem__(5, 1), m.sync, lambda: a[1], lambda: t[1], t.commit, m.map):
                    with self.assertRaises(PermissionError) as found:
                        call()
                    self.assertEqual((type(found.exception), found.exception.code), (envy.ForkedError, 2))
                self.assertRaises(envy.LockedError, envy.open, self.path)
                m.close()
                m.close()
                with envy.open(self.path + "2", 100) as other:
                    other[5] = 1

            self.forked(work)
            t.abort()
            self.assertEqual(a[1], 2)
            m.sync()
            self.assertRaises(envy.LockedError, envy.open, self.path)
        with envy.open(self.path) as m:
            self.assertEqual(dict(m.map()), {1: 2})

    def test_the_end_of_a_block_in_a_child(self):
        def work():
            with self.assertRaises(SystemExit):
                with m:
                    sys.exit(0)

        with envy.open(self.path, 1000) as m:
            m[5] = 7
            self.forked(work)
            m[6] = 8
        with envy.open(self.path) as m:
            self.assertEqual(m[5:7], [7, 8])

    def test_a_child_of_a_process_whose_threads_are_in_calls(self):
        ends = threading.Event()

        def hammer():
            while not ends.is_set():
                m[0:200] = range(200)
                m.sync()

        def work():
            self.assertRaises(envy.ForkedError, m.__getitem__, 5)
            m.close()

        with envy.open(self.path, 1000) as m:
            thread = threading.Thread(target=hammer)
            thread.start()
            try:
                for _ in range(30):
                    self.forked(work)
            finally:
                ends.set()
                thread.join()
            self.assertEqual(m[0:200], list(range(200)))


if __name__ == "__main__":
    unittest.main()
