"""A file that is open: its handle, and a lock round each call on it."""

from __future__ import annotations

import collections
import ctypes
import errno
import os
import threading
from typing import Any, Deque, Optional, Set

from . import library
from .errors import ClosedError, EnvyError, FileError, ForkedError, HeldError, KindError, error, file_error
from .library import SetupStruct


class Place:
    """`with place as handle:` gives the handle of the open file to one thread at a time."""

    def __init__(self, path: str, setup: SetupStruct, bytewise: bool, readonly: bool = False, mapped: bool = False) -> None:
        self.c = library.load()
        self.path = path
        self.process = os.getpid()
        self.lock = threading.RLock()
        self.handle: Any = None
        # slots of transactions that nobody ended: the next call aborts them
        self.left: Deque[int] = collections.deque()
        # slots that are open
        self.slots: Set[int] = set()
        # how often words were changed by other calls than those of a map, and how often when they were seen to be one
        self.writes = 0
        self.map_at: Optional[int] = None
        name, handle = library.encoded(path), library.Handle()
        flags = library.READING if readonly else library.CREATE | (library.BYTEWISE if bytewise else 0)
        open_it = self.c.envy_open_mapped if mapped else self.c.envy_open_file
        code = open_it(handle, name, ctypes.byref(setup), flags)
        if code:
            refused = self._error(code, ctypes.get_errno(), path)
            raise _kind_error(self.c, name, mapped, path) or refused
        self.handle = handle

    def __enter__(self) -> Any:
        # before the lock, which another thread may have had when the process was forked off
        if self.process != os.getpid():
            raise ForkedError(library.OFF, errno.EPERM, self.path)
        self.lock.acquire()
        if self.handle is None:
            self.lock.release()
            raise ClosedError(library.EMPTY, self.path)
        while self.left:
            slot = self.left.popleft()
            self.c.envy_abort(self.handle, slot)
            self.slots.discard(slot)
        return self.handle

    def __exit__(self, *_: object) -> None:
        self.lock.release()

    def _error(self, code: int, why: int, detail: str) -> EnvyError:
        is_of_file = code in (library.OFF, library.APPENDED) or code >= library.SYSTEM
        return file_error(code, why, self.path) if is_of_file else error(code, detail)

    def refused(self, code: int, detail: str = "") -> EnvyError:
        """Returns the error of a call that answered this, for the thread that has the lock and made it just now."""
        why = ctypes.get_errno()
        if code == library.OFF:
            why = self.c.envy_file_error(self.handle)
        return self._error(code, why, detail)

    def check(self, code: int, detail: str = "") -> None:
        """Raises what a code stands for, unless it is ENVY_DONE."""
        if code:
            raise self.refused(code, detail)

    def check_held(self, code: int, holder: int, detail: str = "") -> None:
        """The same of a call that may answer ENVY_HELD."""
        if code == library.HELD:
            raise HeldError(code, holder)
        self.check(code, detail)

    def close(self, sync: bool = True) -> None:
        """Syncs, unless that isn't asked for, and gives the file up. In a process that was forked off it gives up the copy
        alone."""
        if self.process != os.getpid():
            self._forget()
            return
        with self.lock:
            handle, self.handle = self.handle, None
            if handle is None:
                return
            code = (self.c.envy_close if sync else self.c.envy_leave)(handle)
            why = ctypes.get_errno()
        if code:
            raise file_error(code, why, self.path)

    def _forget(self) -> None:
        # if a thread was in a call when the process was forked off, what it had in hand isn't touched
        if self.lock.acquire(blocking=False):
            handle, self.handle = self.handle, None
            if handle is not None:
                self.c.envy_close(handle)
            self.lock.release()

    def drop(self) -> None:
        """What is done to a file that nobody closed, when its memory is no longer used or the program ends."""
        try:
            self.close()
        except FileError:
            pass


def _kind_error(c: Any, name: bytes, mapped: bool, path: str) -> Optional[KindError]:
    """Returns the error of a file of the other kind. The library finds the sizes of a file of either kind, and an opening
    without sizes those of its own kind alone."""
    tried = library.Handle()
    if c.envy_file_shape(name, ctypes.byref(SetupStruct())):
        return None
    code = (c.envy_open_mapped if mapped else c.envy_open_file)(tried, name, None, 0 if mapped else library.READING)
    if not code:
        c.envy_leave(tried)
    if code not in (library.NO_JOURNAL, library.UNFORMATTED, library.OLDER):
        return None
    told = "a durable file: open it without mapped=True" if mapped else "a mapped file: open it with mapped=True"
    return KindError(code, f"{path} is {told}")
