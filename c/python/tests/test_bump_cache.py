"""Tests of bump_cache.py over the library: as a mapping, as TTLCache of cachetools, and its decorator, also by CPython's own tests of
functools.lru_cache, as far as those that need no endless cache, no other keys than ours, and no word of which item is evicted.
BUMP_LIBRARY names the library."""
import ctypes
import functools
import gc
import pickle
import random
import shutil
import subprocess
import sys
import tempfile
import threading
import unittest
from pathlib import Path

HOME = Path(__file__).resolve().parent.parent
sys.path.insert(0, str(HOME))
import bump_cache
from bump_cache import CALLS, WORDS, CacheInfo, TTLCache, library, spelled, ttl_cache

try:
    from test import test_functools as of_cpython
except ImportError:
    of_cpython = None

# The structs of the header, each with that of the module.
RECORDS = {"bump_cache": "_Handle", "bump_cache_config": "_Config", "bump_cache_got": "_Got", "bump_cache_words_of": "_Words",
           "bump_cache_got_words": "_GotWords", "bump_cache_put_told": "_PutTold", "bump_cache_looked": "_Looked",
           "bump_cache_entry_of": "_Entry", "bump_cache_counts": "_Counts", "bump_cache_stats_of": "_Stats"}

VALUES = [None, 0, "", b"", "ä", [1, {"a": (2, 3)}], b"x" * 63, b"x" * 64, b"x" * 65, list(range(100)), b"\0" * 400]
KEYS = [None, False, 0, 0.0, 1, True, 1.0, -1, 2**70, "", "a", b"", b"a", (), ("a",), (b"a",), ("a", ("b", 1)), "k" * 90]


class Clock:
    """A timer that a test sets."""

    def __init__(self):
        self.time = 0

    def __call__(self):
        return self.time


class MappingTests(unittest.TestCase):
    def test_keys_of_all_types_are_apart(self):
        cache = TTLCache(100)
        for number, key in enumerate(KEYS):
            cache[key] = number
        self.assertEqual([cache[key] for key in KEYS], list(range(len(KEYS))))
        self.assertEqual(sorted(map(spelled, cache)), sorted(map(spelled, KEYS)))
        self.assertEqual(len(cache), len(KEYS))

    def test_values_come_back(self):
        cache = TTLCache(100)
        for value in VALUES:
            cache["key"] = value
            self.assertEqual(cache["key"], value)
            self.assertEqual(cache.pop("key"), value)
            self.assertNotIn("key", cache)

    def test_bytes_of_all_lengths(self):
        cache = TTLCache(4, value_bytes=5 * WORDS, dumps=bytes, loads=bytes)
        for length in range(5 * WORDS + 1):
            value = random.randbytes(length)
            cache[1] = value
            self.assertEqual(cache.get(1), value)
            self.assertEqual(cache.pop(1), value)

    def test_mapping(self):
        cache = TTLCache(10)
        with self.assertRaises(KeyError):
            cache["a"]
        with self.assertRaises(KeyError):
            del cache["a"]
        with self.assertRaises(KeyError):
            cache.pop("a")
        with self.assertRaises(KeyError):
            cache.popitem()
        self.assertEqual(cache.get("a", 7), 7)
        self.assertEqual(cache.pop("a", 7), 7)
        self.assertEqual(cache.setdefault("a", 1), 1)
        self.assertEqual(cache.setdefault("a", 2), 1)
        cache.update(b=2, c=3)
        self.assertEqual(dict(cache.items()), {"a": 1, "b": 2, "c": 3})
        del cache["b"]
        self.assertEqual(sorted([cache.popitem(), cache.popitem()]), [("a", 1), ("c", 3)])
        cache["d"] = 4
        cache.clear()
        self.assertEqual((len(cache), list(cache), repr(cache)), (0, [], "TTLCache({}, maxsize=10, currsize=0)"))

    def test_beside_a_dict(self):
        cache, model, chance = TTLCache(1000), {}, random.Random(7)
        for _ in range(5000):
            key, value = chance.randrange(300), chance.random()
            if chance.random() < 0.5:
                cache[key] = model[key] = value
            elif chance.random() < 0.3:
                self.assertEqual(cache.pop(key, None), model.pop(key, None))
            else:
                self.assertEqual(cache.get(key), model.get(key))
        self.assertEqual(dict(cache), model)

    def test_refusals(self):
        for words in ({"maxsize": 0}, {"maxsize": 128_000_001}, {"maxsize": 1, "key_bytes": 1025}, {"maxsize": 1, "value_bytes": 1_048_577}):
            with self.assertRaises(ValueError, msg=words):
                TTLCache(**words)
        cache = TTLCache(2, key_bytes=20, value_bytes=100)
        with self.assertRaisesRegex(ValueError, "value too large"):
            cache["a"] = b"x" * 100
        with self.assertRaisesRegex(ValueError, "key too large"):
            cache["a" * 20] = 1
        for key in ([], {}, object(), Clock()):
            with self.assertRaises(TypeError):
                cache[key] = 1
        self.assertEqual(len(cache), 0)

    def test_no_more_than_maxsize(self):
        cache = TTLCache(100)
        for key in range(1000):
            cache[key] = -key
            self.assertEqual(cache[key], -key)
        self.assertEqual(len(cache), 100)
        self.assertTrue(all(cache[key] == -key for key in list(cache)))

    def test_keys_read_twice_stay(self):
        cache = TTLCache(100, timer=Clock())
        for key in range(100):
            cache[key] = key
        for key in range(10):
            for _ in range(3):
                cache[key]
        for key in range(100, 1000):
            cache[key] = key
        self.assertEqual([key for key in range(10) if key in cache], list(range(10)))


class ExpiryTests(unittest.TestCase):
    def test_what_is_due_is_gone(self):
        clock = Clock()
        cache = TTLCache(10, ttl=2, timer=clock)
        cache["a"] = 1
        clock.time = 1
        cache["b"] = 2
        self.assertEqual((cache["a"], len(cache)), (1, 2))
        clock.time = 2
        self.assertEqual((cache.get("a"), cache["b"], len(cache), list(cache), "a" in cache), (None, 2, 1, ["b"], False))
        with self.assertRaises(KeyError):
            cache["a"]
        with self.assertRaises(KeyError):
            del cache["a"]
        cache["b"] = 3
        clock.time = 3.5
        self.assertEqual(cache["b"], 3)
        clock.time = 4
        self.assertEqual((cache.currsize, dict(cache)), (0, {}))

    def test_none_is_never(self):
        clock = Clock()
        for ttl in (None, float("inf")):
            cache = TTLCache(10, ttl, clock)
            cache["a"] = 1
            clock.time = 1e9
            self.assertEqual(cache["a"], 1)
            clock.time = 0

    def test_no_time_at_all(self):
        cache = TTLCache(10, 0, Clock())
        cache["a"] = 1
        self.assertNotIn("a", cache)


class DecoratorTests(unittest.TestCase):
    def test_counts(self):
        calls = []

        @ttl_cache(maxsize=20)
        def both(x, y=3):
            calls.append((x, y))
            return 3 * x + y

        domain = range(5)
        for _ in range(1000):
            x, y = random.choice(domain), random.choice(domain)
            self.assertEqual(both(x, y), 3 * x + y)
        info = both.cache_info()
        self.assertEqual((info.hits + info.misses, info.maxsize), (1000, 20))
        self.assertEqual(info.misses, len(calls))
        self.assertLessEqual(info.currsize, 20)
        both.cache_clear()
        self.assertEqual(both.cache_info(), (0, 0, 20, 0))
        self.assertEqual((both(1, y=2), both(1, y=2), both(1, 2)), (5, 5, 5))
        self.assertEqual(both.cache_info()[:2], (1, 2))
        self.assertEqual((both.__name__, both.__wrapped__(2)), ("both", 9))
        self.assertEqual(both.cache_parameters(), {"maxsize": 20, "ttl": 600, "typed": False})

    def test_none_is_a_value(self):
        calls = []

        @ttl_cache
        def nothing(x):
            calls.append(x)

        self.assertEqual([nothing(1), nothing(1)], [None, None])
        self.assertEqual(calls, [1])

    def test_recursion(self):
        @ttl_cache(maxsize=200)
        def fib(n):
            return n if n < 2 else fib(n - 1) + fib(n - 2)

        self.assertEqual([fib(n) for n in range(16)], [0, 1, 1, 2, 3, 5, 8, 13, 21, 34, 55, 89, 144, 233, 377, 610])
        self.assertEqual(fib.cache_info(), (28, 16, 200, 16))

    def test_arguments_with_names(self):
        @ttl_cache(maxsize=100)
        def told(*args, **kwargs):
            return args, sorted(kwargs.items())

        for args, kwargs in (((), {}), ((1,), {}), ((), {"a": 1}), ((1, 2), {"a": 3, "b": 4}), (("a", 1), {})):
            for _ in range(2):
                self.assertEqual(told(*args, **kwargs), (args, sorted(kwargs.items())))
        self.assertEqual(told.cache_info()[:2], (5, 5))

    def test_typed(self):
        @ttl_cache(maxsize=100, typed=True)
        def square(x):
            return x * x

        self.assertEqual([type(square(x)) for x in (3, 3.0, 3, 3.0)], [int, float, int, float])
        self.assertEqual(square.cache_info()[:2], (2, 2))

    def test_errors_are_passed_on(self):
        @ttl_cache(maxsize=10)
        def index(i):
            return "abc"[i]

        self.assertEqual(index(0), "a")
        for _ in range(2):
            with self.assertRaises(IndexError):
                index(15)
        with self.assertRaises(TypeError):
            index([])

    def test_methods(self):
        class Adder(int):
            @ttl_cache(maxsize=10)
            def plus(self, x):
                return int(self) + x

        with self.assertRaises(TypeError):
            Adder(1).plus(2)
        self.assertEqual(Adder.plus(1, 2), 3)

    def test_what_is_too_large_is_passed_on(self):
        @ttl_cache(maxsize=10, value_bytes=50)
        def repeated(n):
            return "x" * n

        self.assertEqual([len(repeated(n)) for n in (1, 1, 100, 100)], [1, 1, 100, 100])
        self.assertEqual(repeated.cache_info()[:2], (1, 3))

    def test_expiry(self):
        clock, calls = Clock(), []

        @ttl_cache(maxsize=10, ttl=5, timer=clock)
        def one():
            calls.append(clock.time)
            return 1

        for clock.time in range(12):
            one()
        self.assertEqual(calls, [0, 5, 10])


class Functools:
    """functools as CPython's tests see it, with our decorator in the place of lru_cache."""

    WRAPPER_ASSIGNMENTS, _CacheInfo = functools.WRAPPER_ASSIGNMENTS, CacheInfo

    @staticmethod
    def lru_cache(maxsize=128, typed=False):
        if callable(maxsize):
            return ttl_cache(maxsize)
        return ttl_cache(1000 if maxsize is None else maxsize, ttl=None, typed=typed)


@unittest.skipUnless(of_cpython, "this Python has no tests of functools")
class CPythonTests(unittest.TestCase):
    """CPython's own tests of lru_cache. Those that aren't here ask for a cache without an end or without room, for keys that are any
    objects, for pickling, for a hash that is asked for once, or for the least recently used item."""

    module = Functools


for name in """test_lru_no_args test_lru_bug_35780 test_lru_bug_36650 test_lru_star_arg_handling test_lru_type_error test_lru_with_exceptions
               test_lru_with_types test_lru_with_keyword_args test_kwargs_order test_lru_cache_decoration test_lru_cache_threaded
               test_lru_cache_threaded2 test_lru_cache_threaded3 test_lru_cache_weakrefable""".split():
    if of_cpython:
        setattr(CPythonTests, name, getattr(of_cpython.TestLRU, name))


class ThreadTests(unittest.TestCase):
    def run_all(self, works):
        faults = []

        def guarded(work):
            try:
                work()
            except Exception as fault:
                faults.append(fault)

        threads = [threading.Thread(target=guarded, args=(work,)) for work in works]
        for thread in threads:
            thread.start()
        for thread in threads:
            thread.join()
        self.assertEqual(faults, [])

    def test_each_value_is_whole(self):
        cache, interval = TTLCache(50, value_bytes=400), sys.getswitchinterval()
        self.addCleanup(sys.setswitchinterval, interval)
        sys.setswitchinterval(1e-6)

        def work():
            chance = random.Random()
            for _ in range(1500):
                key = chance.randrange(80)
                if chance.random() < 0.3:
                    cache[key] = [key] * chance.randrange(100)
                elif chance.random() < 0.1:
                    cache.pop(key, None)
                else:
                    value = cache.get(key)
                    assert value is None or set(value) <= {key}, (key, value)

        self.run_all([work] * 6)
        self.assertLessEqual(len(cache), 50)

    def test_a_function_by_threads(self):
        count, interval = 5, sys.getswitchinterval()
        self.addCleanup(sys.setswitchinterval, interval)
        sys.setswitchinterval(1e-6)

        @ttl_cache(maxsize=count * 11)
        def both(x, y):
            return 3 * x + y

        def work(k):
            for _ in range(11):
                assert both(k, 0) == 3 * k

        self.run_all([lambda k=k: work(k) for k in range(count)])
        self.assertEqual(both.cache_info().currsize, count)

    def test_a_finalizer_is_refused_or_served(self):
        cache, told = TTLCache(10, value_bytes=4000), []

        class Last:
            def __del__(self):
                try:
                    cache["last"] = 1
                    told.append("served")
                except RuntimeError:
                    told.append("refused")

        cache["a"] = list(range(900))
        for _ in range(200):
            last = Last()
            last.itself = last
            del last
            self.assertEqual(len(cache["a"]), 900)
        gc.collect()
        self.assertEqual(len(told), 200)


class HeaderTests(unittest.TestCase):
    @unittest.skipUnless(shutil.which("gcc"), "there is no gcc")
    def test_structs_lie_as_in_the_header(self):
        wanted, lines = [], []
        for name, record in RECORDS.items():
            kind = getattr(bump_cache, record)
            wanted.append(ctypes.sizeof(kind))
            lines.append(f"sizeof({name})")
            for field, *_ in kind._fields_:
                wanted.append(getattr(kind, field).offset)
                lines.append(f"offsetof({name}, {field})")
        printed = "".join(f'printf("%zu\\n", {line});' for line in lines)
        with tempfile.TemporaryDirectory() as folder:
            source = Path(folder) / "sizes.c"
            source.write_text(f'#include "bump_cache.h"\n#include <stdio.h>\n#include <stddef.h>\nint main(void) {{ {printed} }}\n')
            subprocess.run(["gcc", f"-I{HOME.parent}", source, "-o", Path(folder) / "sizes"], check=True)
            told = subprocess.run([Path(folder) / "sizes"], check=True, capture_output=True, text=True).stdout
        self.assertEqual(dict(zip(lines, map(int, told.split()))), dict(zip(lines, wanted)))


class LibraryTests(unittest.TestCase):
    def test_all_calls_are_there(self):
        self.assertTrue(all(hasattr(library(), name) for name in CALLS))

    def test_memory_is_given_back(self):
        for _ in range(200):
            cache = TTLCache(10_000)
            cache[1] = 1
            cache.close()
            cache.close()

    def test_a_cache_is_not_pickled(self):
        with self.assertRaises(Exception):
            pickle.dumps(TTLCache(1))


if __name__ == "__main__":
    unittest.main()
