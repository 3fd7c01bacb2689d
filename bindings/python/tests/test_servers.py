"""One object in many threads, in signal handlers and in forked children; and none by a copy."""
import contextlib
import copy
import os
import pickle
import signal
import threading
import time
import unittest
import warnings

from icu_locale import Closed, Match, Tables
from icu_locale.example import SUPPLEMENT, TABLES

LISTED = ["en", "de", "zh-Hant"]
SECONDS = 60


def faults(tables, negotiator):
    """What is wrong with a few answers."""
    answers = [(tables.maximize("zh"), "zh-Hans-CN"), (tables.canonicalize("sh"), "sr-Latn"), (tables.is_settled, True),
               (tables.name("it-US", "en"), "Italian (United States)"), (tables.serve("zh-TW", LISTED), "zh-Hant"),
               (negotiator.negotiate(["fr", "zh-TW"]), Match(1, 2)), (negotiator.negotiate(["fr"]), None)]
    return [(given, wanted) for given, wanted in answers if given != wanted]


def run_all(work, each):
    """One thread for each, all at once."""
    threads = [threading.Thread(target=work, args=(one,)) for one in each]
    for thread in threads:
        thread.start()
    for thread in threads:
        thread.join()


@contextlib.contextmanager
def load(count, work):
    """Threads that do some work over and over."""
    ended = threading.Event()

    def again():
        while not ended.is_set():
            work()

    threads = [threading.Thread(target=again) for _ in range(count)]
    for thread in threads:
        thread.start()
    try:
        yield
    finally:
        ended.set()
        for thread in threads:
            thread.join()


class Between:
    """The calls of the library, with something done before each answer, where the call has its handle already."""

    def __init__(self, library, done):
        self.library, self.done = library, done

    def __getattr__(self, name):
        return getattr(self.library, name)

    def answer(self, *words):
        self.done()
        return self.library.answer(*words)


class Threads(unittest.TestCase):
    def setUp(self):
        self.tables = Tables.from_json(TABLES, SUPPLEMENT)
        self.negotiator = self.tables.negotiator(LISTED)

    def test_one_object_in_sixteen_threads(self):
        wrong = []

        def work(tables):
            for _ in range(300):
                wrong.extend(faults(tables, self.negotiator))

        run_all(work, [self.tables] * 16 + [self.tables.share() for _ in range(4)])
        self.assertEqual(wrong, [])

    def test_no_call_waits_for_another(self):
        """Fifteen calls stop in the middle, and the sixteenth has its answer."""
        standing, ended, tables = threading.Barrier(16), threading.Event(), self.tables
        library = tables._calls

        def stand():
            if threading.current_thread() is not threading.main_thread():
                standing.wait(SECONDS)
                ended.wait(SECONDS)

        tables._calls = Between(library, stand)
        threads = [threading.Thread(target=tables.maximize, args=("zh",)) for _ in range(15)]
        for thread in threads:
            thread.start()
        standing.wait(SECONDS)
        self.assertEqual(tables.maximize("zh"), "zh-Hans-CN")
        ended.set()
        for thread in threads:
            thread.join()
        self.assertEqual(len(tables._free), 16)

    def test_sixteen_threads_answer_no_less_than_one(self):
        """In one of twenty rounds at the least, since other work of the machine comes between them."""
        for _ in range(20):
            alone, many = self.rate(1), self.rate(16)
            if many >= alone * 0.9:
                return
        self.fail(f"{many:.0f} answers a second by sixteen threads, and {alone:.0f} by one")

    def rate(self, count):
        """Answers a second of some threads."""
        def work(_):
            for _ in range(16000 // count):
                self.tables.maximize("zh-TW")

        begun = time.perf_counter()
        run_all(work, range(count))
        return 16000 / (time.perf_counter() - begun)

    def test_closed_between(self):
        """An object that is closed while calls run: each has its answer or is refused, and every handle is let go."""
        for _ in range(50):
            tables, wrong = self.tables.share(), []

            def work(at, tables=tables, wrong=wrong):
                with contextlib.suppress(Closed):
                    for _ in range(200):
                        wrong.extend([] if tables.maximize("zh") == "zh-Hans-CN" else [at])
                        if at == 7:
                            tables.close()

            run_all(work, range(8))
            self.assertEqual((wrong, tables._free), ([], []))
            self.assertRaises(Closed, tables.maximize, "zh")


class Signals(unittest.TestCase):
    def setUp(self):
        self.tables = Tables.from_json(TABLES, SUPPLEMENT)
        self.negotiator = self.tables.negotiator(LISTED)
        self.wrong, self.counted = [], 0
        self.before = signal.signal(signal.SIGALRM, self.handle)

    def tearDown(self):
        signal.setitimer(signal.ITIMER_REAL, 0)
        signal.signal(signal.SIGALRM, self.before)

    def handle(self, number, frame):
        self.counted += 1
        self.wrong += faults(self.tables, self.negotiator)

    def test_a_handler_while_a_call_has_its_handle(self):
        library, deep = self.tables._calls, []

        def interrupt():
            if len(deep) < 3:
                deep.append(None)
                signal.raise_signal(signal.SIGALRM)

        self.tables._calls = Between(library, interrupt)
        self.assertEqual(self.tables.maximize("zh"), "zh-Hans-CN")
        self.assertEqual((self.wrong, self.counted), ([], 3))

    def test_handlers_again_and_again(self):
        signal.setitimer(signal.ITIMER_REAL, 0.001, 0.001)
        until = time.monotonic() + SECONDS
        while self.counted < 200 and time.monotonic() < until:
            self.wrong += faults(self.tables, self.negotiator)
            self.tables.share().negotiator(LISTED).close()
        signal.setitimer(signal.ITIMER_REAL, 0)
        self.assertEqual(self.wrong, [])
        self.assertGreaterEqual(self.counted, 200)


@unittest.skipUnless(hasattr(os, "fork"), "the system has no fork")
class Forks(unittest.TestCase):
    def setUp(self):
        self.tables = Tables.from_json(TABLES, SUPPLEMENT)
        self.negotiator = self.tables.negotiator(LISTED)

    def work(self):
        """What threads of the parent do meanwhile, with handles that are new too."""
        self.assertEqual(faults(self.tables, self.negotiator), [])
        self.assertEqual(faults(self.tables.share(), self.tables.negotiator(LISTED)), [])
        Tables.from_json(TABLES, SUPPLEMENT).close()

    def child(self):
        """What a child does: it asks by itself and by threads, lets all go, and reads tables anew."""
        wrong = faults(self.tables, self.negotiator)
        run_all(lambda _: wrong.extend(faults(self.tables, self.negotiator)), range(4))
        self.tables.close()
        self.negotiator.close()
        again = Tables.from_json(TABLES, SUPPLEMENT)
        wrong += faults(again, again.negotiator(LISTED))
        return 1 if wrong else 0

    def forked(self):
        """The status of a child; one that hangs is ended by its alarm."""
        with warnings.catch_warnings():
            warnings.simplefilter("ignore", DeprecationWarning)
            process = os.fork()
        if not process:
            status = 2
            try:
                signal.alarm(SECONDS)
                status = self.child()
            finally:
                os._exit(status)
        return os.waitpid(process, 0)[1]

    def test_forks_under_load(self):
        with load(4, self.work):
            self.assertEqual([self.forked() for _ in range(40)], [0] * 40)
        self.assertEqual(faults(self.tables, self.negotiator), [])

    def test_a_fork_in_the_middle_of_a_call(self):
        library, statuses = self.tables._calls, []

        def fork():
            self.tables._calls = library
            statuses.append(self.forked())

        self.tables._calls = Between(library, fork)
        self.assertEqual((self.tables.maximize("zh"), statuses), ("zh-Hans-CN", [0]))

    def test_what_another_thread_has_taken_is_not_in_the_child(self):
        standing, ended, library = threading.Event(), threading.Event(), self.tables._calls
        self.tables._calls = Between(library, lambda: (standing.set(), ended.wait(SECONDS)))
        thread = threading.Thread(target=self.tables.maximize, args=("zh",))
        thread.start()
        standing.wait(SECONDS)
        self.tables._calls = library
        self.assertEqual((len(self.tables._free), self.forked()), (0, 0))
        ended.set()
        thread.join()
        self.assertEqual(len(self.tables._free), 1)


class Copies(unittest.TestCase):
    def test_no_copies(self):
        tables = Tables.from_json(TABLES, SUPPLEMENT)
        for held in (tables, tables.negotiator(LISTED), tables.switcher(LISTED)):
            for call in (copy.copy, copy.deepcopy, pickle.dumps, lambda it: pickle.dumps(it, 0)):
                with self.assertRaisesRegex(TypeError, f"{type(held).__name__} is neither copied nor pickled"):
                    call(held)
        self.assertEqual(tables.maximize("zh"), "zh-Hans-CN")

    def test_refusals_are_pickled(self):
        tables = Tables.from_json(TABLES)
        tables.close()
        with self.assertRaises(Closed) as told:
            tables.share()
        again = pickle.loads(pickle.dumps(told.exception))
        self.assertEqual((type(again), str(again)), (Closed, str(told.exception)))


if __name__ == "__main__":
    unittest.main()
