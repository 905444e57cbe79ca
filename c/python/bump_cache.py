"""A cache of Python's objects over libbump: a mapping with the calls of cachetools.TTLCache, and a decorator as functools.lru_cache.

    from bump_cache import TTLCache, ttl_cache

    sessions = TTLCache(maxsize=10_000, ttl=600)
    sessions["ada"] = {"name": "Ada"}
    sessions.get("ada")

It needs libbump.so.0, which `c/pack --prefix DIR` makes: BUMP_LIBRARY names it, else the system's linker finds it. README.md says what a
key and a value may be, and what differs from cachetools."""
import ctypes
import functools
import marshal
import math
import os
import pickle
import secrets
import threading
import time
import weakref
from collections import namedtuple
from collections.abc import MutableMapping

WORDS = 8 * 8  # The most bytes that one call of the library tells.
FOUND, PUT_DONE, PUT_HAS, PUT_KEY_BYTES, PUT_VALUE_BYTES = 0, 0, 1, 4, 5
TICKS = 1_000_000  # of a second
VERSION = 1  # the second number of the versions with which this module works


def _record(name, *fields):
    return type(name, (ctypes.Structure,), {"_fields_": [(field, kind) for kind, names in fields for field in names.split()]})


_U32, _U64 = ctypes.c_uint32, ctypes.c_uint64
_Handle = _record("_Handle", (ctypes.c_void_p, "p"))
_Config = _record("_Config", (_U64, "seed_first seed_second temporary"),
                  (_U32, "key_bytes value_bytes items spare hot warm hot_age warm_age parts readers ring looks holds"))
_Got = _record("_Got", (_U32, "answer flags"), (_U64, "length"))
_Words = _record("_Words", (ctypes.c_char * WORDS, "words"))
_GotWords = _record("_GotWords", (_Got, "got"), (ctypes.c_char * WORDS, "words"))
_PutTold = _record("_PutTold", (_U32, "answer"), (ctypes.c_bool, "evicted"))
_Looked = _record("_Looked", (_U32, "answer flags"), (_U64, "length expires"))
_Entry = _record("_Entry", (ctypes.c_bool, "found"), (_U32, "flags"), (_U64, "key_length value_length expires"))
_Counts = _record("_Counts", (_U64, "hits misses dropped"))
_Stats = _record("_Stats", (_U32, "number_hot number_warm number_cold number_temp"),
                 (_U64, "moves_to_cold moves_to_warm moves_within_lru evicted evicted_unfetched evicted_active direct_reclaims reclaimed "
                        "expired_unfetched crawler_reclaimed"))

_HANDLE, _KEY, _VALUE = ctypes.POINTER(_Handle), (ctypes.c_char_p, ctypes.c_size_t), (ctypes.c_char_p, ctypes.c_size_t)
# Each call that this module makes: what it returns, and what it takes.
CALLS = {
    "bump_version": (_U32,),
    "bump_cache_defaults": (_Config, _U32, _U32, _U32, _U32),
    "bump_cache_open": (_U32, _HANDLE, ctypes.POINTER(_Config)),
    "bump_cache_take_part": (ctypes.c_bool, _HANDLE, _U32, _HANDLE),
    "bump_cache_take_reader": (ctypes.c_bool, _HANDLE, _U32, _HANDLE),
    "bump_cache_get_words": (_GotWords, _HANDLE, *_KEY, _U64),
    "bump_cache_hold": (_Got, _HANDLE, _U32, *_KEY, _U64),
    "bump_cache_read_words": (_Words, _HANDLE, _U32, _U32),
    "bump_cache_release": (ctypes.c_bool, _HANDLE, _U32),
    "bump_cache_reader_counts": (_Counts, _HANDLE),
    "bump_cache_put": (_PutTold, _HANDLE, *_KEY, *_VALUE, _U32, _U64, _U64),
    "bump_cache_add": (_PutTold, _HANDLE, *_KEY, *_VALUE, _U32, _U64, _U64),
    "bump_cache_find": (_Looked, _HANDLE, *_KEY, _U64),
    "bump_cache_found_words": (_Words, _HANDLE, _U32),
    "bump_cache_remove": (ctypes.c_bool, _HANDLE, *_KEY, _U64),
    "bump_cache_tend": (None, _HANDLE, _U64),
    "bump_cache_clear": (None, _HANDLE),
    "bump_cache_chunks": (_U32, _HANDLE),
    "bump_cache_entry": (_Entry, _HANDLE, _U32, _U64),
    "bump_cache_entry_key": (_Words, _HANDLE, _U32),
    "bump_cache_entry_value": (_Words, _HANDLE, _U32),
    "bump_cache_stats": (_Stats, _HANDLE),
    "bump_cache_close": (None, _Handle),
    "bump_cache_part_free": (None, _Handle),
    "bump_cache_reader_free": (None, _Handle),
}


@functools.cache
def library():
    """The library, loaded once. Its calls take less than a microsecond, so they keep the interpreter's lock (PyDLL)."""
    found = ctypes.PyDLL(os.environ.get("BUMP_LIBRARY", "libbump.so.0"))
    for name, (returned, *taken) in CALLS.items():
        call = getattr(found, name)
        call.restype, call.argtypes = returned, taken
    if found.bump_version() // 100 != VERSION:
        raise OSError(f"bump_cache: libbump is of version {found.bump_version()}, and not of {VERSION}00 to {VERSION}99")
    return found


def spelled(key):
    """The bytes of a key. Equal keys of the same types have the same bytes, and no others have them."""
    hash(key)
    try:
        return marshal.dumps(key, 2)
    except ValueError:
        raise TypeError("a key is made of None, bool, int, float, complex, str, bytes, and tuples and frozensets of these") from None


def _read(call, length):
    """The first so many bytes of what a call tells by words, from the word with a number on."""
    pieces = [bytes(call(at // 8)) for at in range(0, length, WORDS)]
    return b"".join(pieces)[:length]


class _Turn:
    """One call after the other. A finalizer that runs inside a call and uses the same cache is refused."""

    def __init__(self):
        self.lock, self.taken = threading.RLock(), False

    def __enter__(self):
        self.lock.acquire()
        if self.taken:
            self.lock.release()
            raise RuntimeError("a finalizer uses the cache inside one of the cache's calls")
        self.taken = True

    def __exit__(self, *_):
        self.taken = False
        self.lock.release()


def _opened(config):
    """The handles of a cache that is opened: the part, the reader, and what is left of the cache."""
    bump, cache, part, reader = library(), _Handle(), _Handle(), _Handle()
    answer = bump.bump_cache_open(cache, config)
    if answer:
        faults = ["", "key_bytes", "value_bytes", "maxsize", "maxsize", "hot and warm", "parts", "readers", "ring", "memory"]
        raise MemoryError("no memory for the cache") if faults[answer] == "memory" else ValueError(f"{faults[answer]} is out of range")
    bump.bump_cache_take_part(cache, 0, part)
    bump.bump_cache_take_reader(cache, 0, reader)
    return part, reader, cache


def _free(part, reader, cache):
    bump = library()
    bump.bump_cache_part_free(part)
    bump.bump_cache_reader_free(reader)
    bump.bump_cache_close(cache)


class TTLCache(MutableMapping):
    """At most `maxsize` values under their keys, each for `ttl` seconds of `timer`, or without end where `ttl` is None.

    A key's bytes (`spelled`) may be at most `key_bytes`, and a value's, which `dumps` makes and `loads` reads, at most `value_bytes`: each
    item takes so much memory, and each put so much time, however short its value is."""

    _missing = object()

    def __init__(self, maxsize, ttl=None, timer=time.monotonic, *, key_bytes=128, value_bytes=512,
                 dumps=functools.partial(pickle.dumps, protocol=pickle.HIGHEST_PROTOCOL), loads=pickle.loads):
        if not 1 <= maxsize <= 128_000_000:
            raise ValueError("maxsize is out of range")
        self.maxsize, self.ttl, self.timer, self._dumps, self._loads = maxsize, ttl, timer, dumps, loads
        config = library().bump_cache_defaults(maxsize, 1, key_bytes, value_bytes)
        config.seed_first, config.seed_second = secrets.randbits(64), secrets.randbits(64)
        config.looks = config.items + config.spare
        self._part, self._reader, cache = _opened(config)
        self._turn = _Turn()
        self._end = weakref.finalize(self, _free, self._part, self._reader, cache)

    def close(self):
        """Gives back all memory. The cache isn't used any more."""
        self._end()

    def _now(self):
        return int(self.timer() * TICKS) + 1

    def _expiry(self, now):
        return 0 if self.ttl is None or self.ttl == math.inf else now + max(0, int(self.ttl * TICKS))

    def _got(self, key):
        """The bytes of what a key has, or None: the item is hit."""
        bump, now = library(), self._now()
        with self._turn:
            told = bump.bump_cache_get_words(self._reader, key, len(key), now)
            if told.got.answer != FOUND:
                return None
            if told.got.length <= WORDS:
                return bytes(told)[ctypes.sizeof(_Got):][:told.got.length]
            return self._held(key, now)

    def _held(self, key, now):
        """The same of a value that one call can't tell."""
        bump = library()
        got = bump.bump_cache_hold(self._reader, 0, key, len(key), now)
        if got.answer != FOUND:
            return None
        try:
            return _read(lambda word: bump.bump_cache_read_words(self._reader, 0, word), got.length)
        finally:
            bump.bump_cache_release(self._reader, 0)

    def _looked(self, key, now):
        """The bytes of what a key has, or None, as a look tells it: the item isn't hit. In a turn."""
        bump = library()
        looked = bump.bump_cache_find(self._part, key, len(key), now)
        return _read(lambda word: bump.bump_cache_found_words(self._part, word), looked.length) if looked.answer == FOUND else None

    def _put(self, call, key, value):
        """Puts by this call of the library, and returns what it answers: PUT_DONE, or PUT_HAS."""
        spelled_key, told, now = spelled(key), self._dumps(value), self._now()
        with self._turn:
            answer = call(self._part, spelled_key, len(spelled_key), told, len(told), 0, self._expiry(now), now).answer
        if answer in (PUT_KEY_BYTES, PUT_VALUE_BYTES):
            raise ValueError("key too large" if answer == PUT_KEY_BYTES else "value too large")
        if answer not in (PUT_DONE, PUT_HAS):
            raise RuntimeError(f"a put answers {answer}")
        return answer

    def __missing__(self, key):
        raise KeyError(key)

    def __getitem__(self, key):
        told = self._got(spelled(key))
        return self.__missing__(key) if told is None else self._loads(told)

    def get(self, key, default=None):
        told = self._got(spelled(key))
        return default if told is None else self._loads(told)

    def __setitem__(self, key, value):
        self._put(library().bump_cache_put, key, value)

    def __delitem__(self, key):
        told, now = spelled(key), self._now()
        with self._turn:
            had = library().bump_cache_remove(self._part, told, len(told), now)
        if not had:
            raise KeyError(key)

    def __contains__(self, key):
        told, now = spelled(key), self._now()
        with self._turn:
            return library().bump_cache_find(self._part, told, len(told), now).answer == FOUND

    def setdefault(self, key, default=None):
        while True:
            if self._put(library().bump_cache_add, key, default) == PUT_DONE:
                return default
            told = self._got(spelled(key))
            if told is not None:
                return self._loads(told)

    def pop(self, key, default=_missing):
        told, now = spelled(key), self._now()
        with self._turn:
            had = self._looked(told, now)
            library().bump_cache_remove(self._part, told, len(told), now)
        if had is not None:
            return self._loads(had)
        if default is self._missing:
            raise KeyError(key)
        return default

    def _entries(self):
        """The bytes of each key that the cache has now, in no order."""
        bump, now, found = library(), self._now(), []
        with self._turn:
            for number in range(bump.bump_cache_chunks(self._part)):
                entry = bump.bump_cache_entry(self._part, number, now)
                if entry.found:
                    found.append(_read(lambda word: bump.bump_cache_entry_key(self._part, word), entry.key_length))
        return found

    def __iter__(self):
        return iter([marshal.loads(key) for key in self._entries()])

    def __len__(self):
        stats = self.stats()
        return stats["number_hot"] + stats["number_warm"] + stats["number_cold"] + stats["number_temp"]

    def popitem(self):
        for key in self:
            value = self.pop(key, self._missing)
            if value is not self._missing:
                return key, value
        raise KeyError("popitem(): the cache is empty")

    def clear(self):
        with self._turn:
            library().bump_cache_clear(self._part)

    def expire(self):
        """Ends what has expired, and makes the moves of the lists that are due."""
        now = self._now()
        with self._turn:
            library().bump_cache_tend(self._part, now)

    @property
    def currsize(self):
        return len(self)

    def stats(self):
        """Statistics by memcached's names, behind an `expire`."""
        self.expire()
        with self._turn:
            told = library().bump_cache_stats(self._part)
        return {name: getattr(told, name) for name, _ in _Stats._fields_}

    def counts(self):
        """How many gets hit and missed, and how many bumps were dropped."""
        with self._turn:
            told = library().bump_cache_reader_counts(self._reader)
        return {name: getattr(told, name) for name, _ in _Counts._fields_}

    def __repr__(self):
        return f"{type(self).__name__}({dict(self)!r}, maxsize={self.maxsize}, currsize={len(self)})"


CacheInfo = namedtuple("CacheInfo", "hits misses maxsize currsize")


def _call_key(args, kwargs, typed):
    """The key of a call: its arguments, those with names in the order of the call, and with `typed` their types."""
    types = tuple(type(value).__qualname__ for value in (*args, *kwargs.values())) if typed else ()
    return (args, tuple(kwargs.items()), types)


class _Cached:
    """A function whose values are kept."""

    def __init__(self, function, cache, typed):
        functools.update_wrapper(self, function)
        self._function, self.cache, self._typed, self._counting = function, cache, typed, threading.RLock()
        self._hits = self._misses = 0

    def __call__(self, *args, **kwargs):
        key = _call_key(args, kwargs, self._typed)
        kept = self.cache.get(key)
        with self._counting:
            self._hits, self._misses = self._hits + (kept is not None), self._misses + (kept is None)
        if kept is not None:
            return kept[0]
        value = self._function(*args, **kwargs)
        try:
            self.cache[key] = (value,)
        except ValueError:
            pass  # It is too large to be kept.
        return value

    def __get__(self, owner, kind=None):
        return self if owner is None else functools.partial(self, owner)

    def cache_info(self):
        return CacheInfo(self._hits, self._misses, self.cache.maxsize, len(self.cache))

    def cache_clear(self):
        self.cache.clear()
        with self._counting:
            self._hits = self._misses = 0

    def cache_parameters(self):
        return {"maxsize": self.cache.maxsize, "ttl": self.cache.ttl, "typed": self._typed}


def ttl_cache(maxsize=128, ttl=600, timer=time.monotonic, typed=False, **more):
    """A decorator that keeps a function's values in a TTLCache, which `more` is passed to."""
    if callable(maxsize):
        return ttl_cache()(maxsize)
    return lambda function: _Cached(function, TTLCache(maxsize, ttl, timer, **more), typed)
