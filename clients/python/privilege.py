"""Who may use which privilege? Clients of the service, over libprivilege: those that ask, administrators and agents.

    with privilege.Client() as client:
        if client.check("org.example.camera", "session1", "5001", "http://tizen.org/privilege/camera").allowed:
            ...

A `Client` asks, an `Admin` sets and lists policies, an `Agent` answers questions for the user. Each is used by one
thread at a time, and not by a child of fork. Times are in seconds, None is no limit. What has no answer is raised as
`PrivilegeError`, which is never an allow. privilege(3) has the calls of C behind this module, and what their errors
mean.
"""

from __future__ import annotations

import asyncio
import ctypes
import dataclasses
import enum
from ctypes import POINTER, c_bool, c_char, c_char_p, c_int, c_size_t, c_uint, c_void_p
from ctypes import c_uint8, c_uint16, c_uint32, c_uint64

__all__ = [
    *("Admin", "Agent", "Client", "Error", "Key", "NotNow", "Policy", "PrivilegeError", "Question", "Refused"),
    *("Result", "Row", "Verdict", "Withdrawn"),
]


class Result(enum.IntEnum):
    """Kinds of results. From 2 to 65533 it is a kind of agent that is asked."""

    DENY = 0
    NONE = 1
    BUCKET = 65534
    ALLOW = 65535


class Error(enum.IntEnum):
    """What a call came to."""

    OK = 0
    INVALID = 1
    MEMORY = 2
    BUSY = 3
    UNAVAILABLE = 4
    FORBIDDEN = 5
    TIMEOUT = 6
    BAD_REPLY = 7
    OLDER = 8
    NOT_RESOLVED = 9
    NO_AGENT = 10
    AGENT_GONE = 11
    AGENT_FULL = 12
    REFUSED = 13
    STORE_FAULT = 14
    STORE_DAMAGED = 15
    UNKNOWN = 16
    KIND_TAKEN = 17
    ENDED = 18
    TOO_LONG = 19
    WAITING = 20
    WITHDRAWN = 21


class PrivilegeError(Exception):
    """A call that has no answer; `error` says why."""

    def __init__(self, error, words=""):
        self.error = Error(error)
        text = _library.privilege_error_text(error).decode()
        super().__init__(f"{text}: {words}" if words else text)


class NotNow(PrivilegeError):
    """A check that an agent would have to decide, and none did: not now, and ask again when the user tries again."""


class Refused(PrivilegeError):
    """A command that breaks a rule, or a damaged store: rule, text and value, as privilege-protocol(7) has them."""

    def __init__(self, error, rule, text, value):
        super().__init__(error, f"rule {rule} {text} {value}")
        self.rule, self.text, self.value = rule, text, value


@dataclasses.dataclass(frozen=True)
class Key:
    """Three names, or of a policy three key fields."""

    client: str
    user: str
    privilege: str


@dataclasses.dataclass(frozen=True)
class Verdict:
    """What a check was answered. The key is that of the policy that decided; None where a fallback or an agent did."""

    commit: int
    result: int
    metadata: str
    bucket: str
    key: Key | None
    agent: int
    number: int

    @property
    def allowed(self):
        return self.result == Result.ALLOW


@dataclasses.dataclass(frozen=True)
class Policy:
    """A policy to be set; with a result of None, to be deleted."""

    bucket: str
    client: str
    user: str
    privilege: str
    result: int | None
    metadata: str = ""


@dataclasses.dataclass(frozen=True)
class Row:
    """A policy of a list."""

    key: Key
    result: int
    metadata: str


@dataclasses.dataclass(frozen=True)
class Withdrawn:
    """Nobody waits any more for the answer to the question of this number."""

    number: int


@dataclasses.dataclass(frozen=True)
class Question:
    """A question to the user: may this client use this privilege?"""

    number: int
    kind: int
    key: Key
    metadata: str


# ---- what privilege.h declares


class _Key(ctypes.Structure):
    _fields_ = [("client", c_char * 256), ("user", c_char * 256), ("privilege", c_char * 256)]

    def value(self):
        return Key(self.client.decode(), self.user.decode(), self.privilege.decode())


class _Verdict(ctypes.Structure):
    _fields_ = [
        ("commit", c_uint64),
        ("number", c_uint32),
        ("agent", c_uint16),
        ("result", c_uint16),
        ("has_key", c_bool),
        ("metadata", c_char * 256),
        ("bucket", c_char * 65),
        ("key", _Key),
    ]

    def value(self):
        key = self.key.value() if self.has_key else None
        texts = self.metadata.decode(), self.bucket.decode()
        return Verdict(self.commit, self.result, *texts, key, self.agent, self.number)


class _Policy(ctypes.Structure):
    _fields_ = [
        ("bucket", c_char_p),
        ("client", c_char_p),
        ("user", c_char_p),
        ("privilege", c_char_p),
        ("result", c_uint16),
        ("deletes", c_bool),
        ("metadata", c_char_p),
    ]


class _Row(ctypes.Structure):
    _fields_ = [("key", _Key), ("result", c_uint16), ("metadata", c_char * 256)]

    def value(self):
        return Row(self.key.value(), self.result, self.metadata.decode())


class _Refusal(ctypes.Structure):
    _fields_ = [("value", c_uint64), ("rule", c_uint8), ("text", c_char * 256)]


class _Question(ctypes.Structure):
    _fields_ = [("number", c_uint32), ("kind", c_uint16), ("key", _Key), ("metadata", c_char * 256)]

    def value(self):
        return Question(self.number, self.kind, self.key.value(), self.metadata.decode())


_Each = ctypes.CFUNCTYPE(None, POINTER(_Row), c_void_p)
_NAMES = [c_char_p] * 3
_CALLS = {
    "privilege_error_text": (c_char_p, [c_int]),
    "privilege_open": (c_void_p, [c_char_p, c_int, c_uint]),
    "privilege_check": (c_int, [c_void_p, *_NAMES, c_char_p, POINTER(_Verdict)]),
    "privilege_simple_check": (c_int, [c_void_p, *_NAMES, c_char_p, POINTER(_Verdict)]),
    "privilege_ask": (c_int, [c_void_p, *_NAMES, c_char_p, c_bool, POINTER(_Verdict)]),
    "privilege_hear": (c_int, [c_void_p, POINTER(_Verdict)]),
    "privilege_leave": (c_int, [c_void_p]),
    "privilege_fd": (c_int, [c_void_p]),
    "privilege_tell": (c_int, [c_void_p, c_uint64]),
    "privilege_close": (None, [c_void_p]),
    "privilege_admin_open": (c_void_p, [c_char_p, c_int]),
    "privilege_admin_set": (c_int, [c_void_p, POINTER(_Policy), c_size_t, POINTER(c_uint64)]),
    "privilege_admin_set_bucket": (c_int, [c_void_p, c_char_p, c_uint16, c_char_p, POINTER(c_uint64)]),
    "privilege_admin_remove_bucket": (c_int, [c_void_p, c_char_p, POINTER(c_uint64)]),
    "privilege_admin_erase": (c_int, [c_void_p, c_char_p, *_NAMES, POINTER(c_uint64), POINTER(c_uint32)]),
    "privilege_admin_list": (c_int, [c_void_p, c_char_p, *_NAMES, _Each, c_void_p]),
    "privilege_admin_check": (c_int, [c_void_p, c_char_p, c_bool, *_NAMES, POINTER(_Verdict)]),
    "privilege_admin_refusal": (POINTER(_Refusal), [c_void_p]),
    "privilege_admin_close": (None, [c_void_p]),
    "privilege_agent_open": (c_void_p, [c_char_p, c_int]),
    "privilege_agent_register": (c_int, [c_void_p, c_uint16]),
    "privilege_agent_next": (c_int, [c_void_p, c_int, POINTER(_Question)]),
    "privilege_agent_answer": (c_int, [c_void_p, c_uint32, c_bool]),
    "privilege_agent_withdrawn": (c_bool, [c_void_p, c_uint32]),
    "privilege_agent_fd": (c_int, [c_void_p]),
    "privilege_agent_close": (None, [c_void_p]),
}


def _load():
    library = ctypes.CDLL("libprivilege.so.0", use_errno=True)
    for name, (result, arguments) in _CALLS.items():
        call = getattr(library, name)
        call.restype, call.argtypes = result, arguments
    return library


_library = _load()
_NOT_NOW = {Error.NOT_RESOLVED, Error.NO_AGENT, Error.AGENT_GONE, Error.AGENT_FULL}


def _milliseconds(seconds):
    return -1 if seconds is None else max(0, round(seconds * 1000))


def _bytes(*texts):
    """The texts as C has them, which ends one at a null byte."""
    found = [text.encode() for text in texts]
    if any(b"\0" in text for text in found):
        raise PrivilegeError(Error.INVALID)
    return found


def _asked(error):
    """Raises what a question came to, unless it has an answer."""
    if error in _NOT_NOW:
        raise NotNow(error)
    if error:
        raise PrivilegeError(error)


async def _readable(descriptor, seconds):
    """Waits until the descriptor can be read, or the time is over. Whether it can be."""
    loop = asyncio.get_running_loop()
    ready = loop.create_future()
    loop.add_reader(descriptor, lambda: ready.done() or ready.set_result(None))
    try:
        await asyncio.wait_for(ready, seconds)
        return True
    except asyncio.TimeoutError:
        return False
    finally:
        loop.remove_reader(descriptor)


class _Handle:
    """What holds a handle of the library."""

    def __init__(self, handle, close, path):
        self._held, self._close = handle, close
        if not handle:
            number = ctypes.get_errno()
            raise OSError(number, f"no such socket can be opened: {path}")

    @property
    def _handle(self):
        if not self._held:
            raise ValueError("it is closed")
        return self._held

    def close(self):
        """Ends the connection. It may be called again."""
        held, self._held = self._held, None
        if held:
            self._close(held)

    def __enter__(self):
        return self

    def __exit__(self, *_):
        self.close()

    def __del__(self):
        if getattr(self, "_held", None):
            self.close()


def _path(path):
    return None if path is None else _bytes(str(path))[0]


class Client(_Handle):
    """Asks the service, and keeps at most so many answers, 1 to 4096. Without a path it is the device's own socket."""

    def __init__(self, path=None, seconds=5, entries=100):
        self._seconds, self._turn = seconds, asyncio.Lock()
        handle = _library.privilege_open(_path(path), _milliseconds(seconds), entries)
        super().__init__(handle, _library.privilege_close, path)

    def check(self, client, session, user, privilege):
        """The verdict. An agent may be asked. Raises `NotNow`, or another `PrivilegeError`."""
        verdict = _Verdict()
        _asked(_library.privilege_check(self._handle, *_bytes(client, session, user, privilege), verdict))
        return verdict.value()

    def simple_check(self, client, session, user, privilege):
        """The same, where no agent is asked."""
        verdict = _Verdict()
        _asked(_library.privilege_simple_check(self._handle, *_bytes(client, session, user, privilege), verdict))
        return verdict.value()

    async def ask(self, client, session, user, privilege, simple=False):
        """As `check`, to be awaited. Questions of several tasks are asked one after the other."""
        names, verdict = _bytes(client, session, user, privilege), _Verdict()
        async with self._turn:
            error = _library.privilege_ask(self._handle, *names, simple, verdict)
            try:
                end = None if self._seconds is None else asyncio.get_running_loop().time() + self._seconds
                while error == Error.WAITING:
                    left = None if end is None else end - asyncio.get_running_loop().time()
                    if not await _readable(self.fileno(), left):
                        error = Error.TIMEOUT
                    else:
                        error = _library.privilege_hear(self._handle, verdict)
            finally:
                # Also where the task is cancelled meanwhile.
                if error in (Error.WAITING, Error.TIMEOUT):
                    _library.privilege_leave(self._handle)
        _asked(error)
        return verdict.value()

    def tell(self, commit):
        """The commit was acknowledged: no answer is of an older one from now on."""
        _asked(_library.privilege_tell(self._handle, commit))

    def leave(self):
        """Ends the connection until the next question. No answer is kept."""
        _asked(_library.privilege_leave(self._handle))

    def fileno(self):
        """The connection, which can be read when the service ends it; -1 where there is none."""
        return _library.privilege_fd(self._handle)


class Admin(_Handle):
    """Sets and lists policies. A command gives its commit, or raises `Refused` or another `PrivilegeError`."""

    def __init__(self, path=None, seconds=5):
        handle = _library.privilege_admin_open(_path(path), _milliseconds(seconds))
        super().__init__(handle, _library.privilege_admin_close, path)

    def _done(self, error):
        if error in (Error.REFUSED, Error.STORE_DAMAGED):
            refusal = _library.privilege_admin_refusal(self._handle).contents
            raise Refused(error, refusal.rule, refusal.text.decode(), refusal.value)
        if error:
            raise PrivilegeError(error)

    def set(self, *policies):
        """Makes all changes, in order, in one commit, or none."""
        rows, commit = (_Policy * len(policies))(), c_uint64()
        for row, policy in zip(rows, policies):
            texts = _bytes(policy.bucket, policy.client, policy.user, policy.privilege, policy.metadata)
            row.bucket, row.client, row.user, row.privilege, row.metadata = texts
            row.deletes, row.result = policy.result is None, policy.result or 0
        self._done(_library.privilege_admin_set(self._handle, rows, len(policies), commit))
        return commit.value

    def set_bucket(self, bucket, result, metadata=""):
        """Makes the bucket, or gives it another fallback."""
        (name, text), commit = _bytes(bucket, metadata), c_uint64()
        self._done(_library.privilege_admin_set_bucket(self._handle, name, result, text, commit))
        return commit.value

    def remove_bucket(self, bucket):
        """Removes the bucket, with all policies that point to it."""
        commit = c_uint64()
        self._done(_library.privilege_admin_remove_bucket(self._handle, *_bytes(bucket), commit))
        return commit.value

    def erase(self, bucket, client="#", user="#", privilege="#"):
        """Deletes the policies that the filters meet. Gives the commit, and how many there were."""
        commit, erased = c_uint64(), c_uint32()
        texts = _bytes(bucket, client, user, privilege)
        self._done(_library.privilege_admin_erase(self._handle, *texts, commit, erased))
        return commit.value, erased.value

    def list(self, bucket, client="#", user="#", privilege="#"):
        """The policies that the filters meet, in order of key."""
        rows = []
        each = _Each(lambda row, _: rows.append(row.contents.value()))
        self._done(_library.privilege_admin_list(self._handle, *_bytes(bucket, client, user, privilege), each, None))
        return rows

    def check(self, bucket, client, user, privilege, recursive=True):
        """What the policies answer from this bucket on; an agent's kind where one would have to be asked."""
        verdict, names = _Verdict(), _bytes(bucket, client, user, privilege)
        self._done(_library.privilege_admin_check(self._handle, names[0], recursive, *names[1:], verdict))
        return verdict.value()


class Agent(_Handle):
    """Registers as the agent of this kind, and answers questions for the user."""

    def __init__(self, kind, path=None, seconds=5):
        handle = _library.privilege_agent_open(_path(path), _milliseconds(seconds))
        super().__init__(handle, _library.privilege_agent_close, path)
        try:
            _asked(_library.privilege_agent_register(self._handle, kind))
        except PrivilegeError:
            self.close()
            raise

    def next(self, seconds=None):
        """The next question; or `Withdrawn`, where nobody waits any more for the answer to the last one; or None where
        nothing came in that time. `PrivilegeError` of ENDED: make another agent."""
        question = _Question()
        error = _library.privilege_agent_next(self._handle, _milliseconds(seconds), question)
        if error == Error.TIMEOUT:
            return None
        if error == Error.WITHDRAWN:
            return Withdrawn(question.number)
        _asked(error)
        return question.value()

    async def ask_next(self):
        """As `next`, to be awaited."""
        while (question := self.next(0)) is None:
            await _readable(self.fileno(), None)
        return question

    def answer(self, question, allow):
        """Answers the question."""
        _asked(_library.privilege_agent_answer(self._handle, question.number, allow))

    def withdrawn(self, question):
        """Whether nobody waits for the answer any more. It does not wait."""
        return _library.privilege_agent_withdrawn(self._handle, question.number)

    def fileno(self):
        """The connection, which can be read when a question or a withdrawal has come, or the service has ended it."""
        return _library.privilege_agent_fd(self._handle)
