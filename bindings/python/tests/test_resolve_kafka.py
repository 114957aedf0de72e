"""The example that resolves from a topic of Kafka into another one, over the broker that librdkafka mocks, which lives in this process."""

from __future__ import annotations

import ctypes
import importlib.util
import json
import os
import signal
import subprocess
import sys
import tempfile
import time
import unittest
import unittest.mock
from collections import defaultdict
from collections.abc import Callable
from pathlib import Path
from threading import Thread
from types import ModuleType

from support import TOP, Case
from test_resolver import CODE, MAP, VALUE, write

import oxc_sourcemap
from oxc_sourcemap.resolver import Limits, Resolver

if importlib.util.find_spec("confluent_kafka") is None:
    raise unittest.SkipTest("confluent_kafka is not installed")

from confluent_kafka import Consumer, KafkaError, Producer, TopicPartition

EXAMPLE = TOP / "bindings/python/examples/resolve_kafka.py"
PARTITIONS = 3
# For what has to happen.
SECONDS = 60
# Requests, as the protocol numbers them.
PRODUCE, COMMIT, IDEMPOTENCE = 0, 8, 22
# (a member that was killed is out of its group after that; a mock takes three seconds to let members in)
SETTINGS = "# of the test\nconsumer.session.timeout.ms=5000\nconsumer.heartbeat.interval.ms = 300\n\nproducer.queue.buffering.max.messages=90\n"
TRACE = "Error: {}\n    at f (http://h/app.js:1:14)\r\n"
FOUND = "Error: {}\n    at f (src/a.ts:2:3)\r\n"
OWN = [("a", b"\xff"), ("a", None), ("b", b"")]


def example() -> ModuleType:
    spec = importlib.util.spec_from_file_location("resolve_kafka", EXAMPLE)
    assert spec is not None and spec.loader is not None
    module = importlib.util.module_from_spec(spec)
    spec.loader.exec_module(module)
    return module


class Cluster:
    """Brokers of librdkafka's mock, to which confluent_kafka has no names."""

    def __init__(self) -> None:
        path = next(line.split()[-1] for line in Path("/proc/self/maps").read_text().splitlines() if "librdkafka" in line)
        self.library = ctypes.CDLL(path)
        for name in ("rd_kafka_new", "rd_kafka_conf_new", "rd_kafka_mock_cluster_new"):
            getattr(self.library, name).restype = ctypes.c_void_p
        self.library.rd_kafka_mock_cluster_bootstraps.restype = ctypes.c_char_p
        said = ctypes.create_string_buffer(512)
        conf = ctypes.c_void_p(self.library.rd_kafka_conf_new())
        self.library.rd_kafka_conf_set(conf, b"log_level", b"0", said, 512)
        self.handle = ctypes.c_void_p(self.library.rd_kafka_new(0, conf, said, 512))
        self.cluster = ctypes.c_void_p(self.library.rd_kafka_mock_cluster_new(self.handle, 2))
        self.servers = self.library.rd_kafka_mock_cluster_bootstraps(self.cluster).decode()
        # Broker 1 has the input and the group, broker 2 the outputs.
        for topic in ("in", "out", "dead"):
            self.call("topic_create", topic.encode(), PARTITIONS, 1)
            for partition in range(PARTITIONS):
                self.call("partition_set_leader", topic.encode(), partition, 1 if topic == "in" else 2)
        self.call("coordinator_set", b"group", b"resolve-kafka", 1)

    def call(self, name: str, *words: object) -> None:
        assert not getattr(self.library, f"rd_kafka_mock_{name}")(self.cluster, *words), name

    def fails(self, request: int, *errors: int) -> None:
        """Has the next requests of a kind answered by these errors."""
        codes = (ctypes.c_int * len(errors))(*errors)
        self.library.rd_kafka_mock_push_request_errors_array(self.cluster, request, ctypes.c_size_t(len(errors)), codes)

    def put_header(self, name: bytes, value: bytes) -> None:
        """A record of this value with a header whose name is any bytes, which Python cannot give it."""
        said = ctypes.create_string_buffer(512)
        conf = ctypes.c_void_p(self.library.rd_kafka_conf_new())
        self.library.rd_kafka_conf_set(conf, b"bootstrap.servers", self.servers.encode(), said, 512)
        producer = ctypes.c_void_p(self.library.rd_kafka_new(0, conf, said, 512))
        # (tags of what follows: 1 is a topic, 7 flags, of which 2 copies, 4 a value, 9 a header)
        words = (1, ctypes.c_char_p(b"in"), 7, 2, 4, ctypes.c_char_p(value), ctypes.c_size_t(len(value)), 9, ctypes.c_char_p(name))
        assert not self.library.rd_kafka_producev(producer, *words, ctypes.c_char_p(b"x"), ctypes.c_size_t(1), 0)
        assert not self.library.rd_kafka_flush(producer, 30_000)
        self.library.rd_kafka_destroy(producer)

    def close(self) -> None:
        self.library.rd_kafka_mock_cluster_destroy(self.cluster)
        self.library.rd_kafka_destroy(self.handle)


class Kafka(Case):
    def setUp(self) -> None:
        room = tempfile.TemporaryDirectory()
        self.addCleanup(room.cleanup)
        self.room = Path(room.name)
        long = json.dumps({**VALUE, "sources": ["s" * 2000, "t"]}).encode()
        write(self.room / "dist", {"app.js": CODE, "app.js.map": MAP, "long.js.map": long})
        (self.room / "settings").write_text(SETTINGS)
        self.cluster = Cluster()
        self.addCleanup(self.cluster.close)
        common = {"bootstrap.servers": self.cluster.servers, "log_level": 0}
        self.producer = Producer({**common, "message.max.bytes": 10_000_000, "partitioner": "murmur2"})
        self.addCleanup(delattr, self, "producer")
        self.reader = Consumer({**common, "group.id": "resolve-kafka", "enable.auto.commit": False})
        self.addCleanup(self.reader.close)

    # ---- the program ----

    def start(self, *words: str) -> subprocess.Popen[bytes]:
        paths = [str(Path(oxc_sourcemap.__file__).parents[1]), os.environ.get("PYTHONPATH", "")]
        env = {**os.environ, "PYTHONPATH": os.pathsep.join(filter(None, paths))}
        given = [str(self.room / "dist"), "http://h/", self.cluster.servers, "in", "out", "--config", str(self.room / "settings"), *words]
        with open(self.room / "errors", "ab") as errors:
            program = subprocess.Popen([sys.executable, str(EXAMPLE), *given], stdout=subprocess.PIPE, stderr=errors, env=env)
        self.addCleanup(program.wait)
        self.addCleanup(program.kill)
        assert program.stdout is not None
        self.addCleanup(program.stdout.close)
        return program

    def until(self, holds: Callable[[], bool]) -> None:
        end = time.monotonic() + SECONDS
        while not holds():
            self.assertLess(time.monotonic(), end, self.errors()[-2000:])
            time.sleep(0.02)

    def errors(self) -> str:
        return (self.room / "errors").read_text()

    def ended(self, program: subprocess.Popen[bytes], number: signal.Signals = signal.SIGTERM, status: int = 0) -> dict[str, int]:
        """The counts that a program prints when a signal ends it."""
        program.send_signal(number)
        self.assertEqual(program.wait(30), status, self.errors())
        assert program.stdout is not None
        counts: dict[str, int] = json.loads(program.stdout.read().splitlines()[-1])
        return counts

    def asked(self, program: subprocess.Popen[bytes]) -> dict[str, int]:
        """The counts that it prints by a signal."""
        program.send_signal(signal.SIGUSR1)
        assert program.stdout is not None
        counts: dict[str, int] = json.loads(program.stdout.readline())
        return counts

    # ---- topics ----

    def put(self, key: bytes | None, value: bytes | None, headers: list[tuple[str, bytes | None]] = OWN, when: int = 1_700_000_000_000) -> None:
        self.producer.produce("in", value, key, headers=headers, timestamp=when)

    def ends(self, topic: str) -> list[int]:
        return [self.reader.get_watermark_offsets(TopicPartition(topic, it), 10)[1] for it in range(PARTITIONS)]

    def count(self, topic: str) -> int:
        return sum(self.ends(topic))

    def committed(self) -> list[int]:
        return [max(it.offset, 0) for it in self.reader.committed([TopicPartition("in", it) for it in range(PARTITIONS)], 10)]

    def all_of(self, topic: str) -> list:
        """The records of a topic, those of a partition in order."""
        count, found = self.count(topic), []
        self.reader.assign([TopicPartition(topic, it, 0) for it in range(PARTITIONS)])
        while len(found) < count:
            record = self.reader.poll(10)
            assert record is not None and record.error() is None
            found.append(record)
        self.reader.unassign()
        return found

    # ---- many records ----

    def feed(self, numbers: range, seconds: float = 0) -> None:
        """Records of 20 keys, in several forms, each of which has its number."""
        for n in numbers:
            self.put(b"key-%d" % (n % 20), self.given(n)[0], [("n", b"%d" % n)], 1_700_000_000_000 + n)
            self.producer.poll(0)
            time.sleep(seconds)
        self.assertEqual(self.producer.flush(30), 0)

    def given(self, n: int) -> tuple[bytes | None, bytes | None, bytes | None]:
        """What goes in, comes out, and the header with the reason, if there is one."""
        if n % 7 == 0:
            return None, None, None
        if n % 7 == 1:
            return b"\x80%d" % n, b"\x80%d" % n, b"not UTF-8: invalid start byte at byte 0"
        if n % 7 == 2:
            return b"f@http://h/app.js:1:14\ng@http://h/no.js:1:14 %d" % n, b"f@src/a.ts:2:3\ng@http://h/no.js:1:14 %d" % n, None
        if n % 7 == 3:
            return b"", b"", None
        return TRACE.format(n).encode(), FOUND.format(n).encode(), None

    def came(self) -> dict[bytes, list[int]]:
        """The numbers of what was written, by keys. Each record has to be as it should."""
        numbers: defaultdict[bytes, list[int]] = defaultdict(list)
        for record in self.all_of("out"):
            headers = record.headers()
            n = int(headers[0][1])
            _, value, reason = self.given(n)
            wanted = [("n", b"%d" % n)] + ([("not-resolved", reason)] if reason else [])
            self.assertEqual((record.value(), headers, record.timestamp()[1]), (value, wanted, 1_700_000_000_000 + n))
            numbers[record.key()].append(n)
        return numbers

    def are_once_in_order(self, count: int) -> None:
        self.assertEqual(self.came(), {b"key-%d" % k: [*range(k, count, 20)] for k in range(20)})

    def are_in_order(self, count: int) -> None:
        """None is lost, and if each is counted when it comes first, those of a key are in order."""
        firsts = {key: [*dict.fromkeys(numbers)] for key, numbers in self.came().items()}
        self.assertEqual(firsts, {b"key-%d" % k: [*range(k, count, 20)] for k in range(20)})

    def test_it_is_ended_in_the_middle_and_started_again(self):
        first = self.start()
        feeder = Thread(target=self.feed, args=(range(1000), 0.004))
        feeder.start()
        self.until(lambda: self.count("out") > 300)
        self.assertGreater(self.asked(first)["delivered"], 200)
        counts = self.ended(first)
        done = self.count("out")
        self.assertEqual((counts["read"], counts["delivered"], sum(self.committed())), (done, done, done))
        feeder.join()
        self.assertLess(done, 1000)
        second = self.start()
        self.until(lambda: self.count("out") >= 1000)
        counts = self.ended(second, signal.SIGINT)
        self.assertEqual((counts["read"], self.committed()), (1000 - done, self.ends("in")))
        self.assertEqual(sum(counts[it] for it in ("resolved", "unchanged", "no value", "not UTF-8")), counts["read"])
        self.are_once_in_order(1000)
        # (as Java's partitioner has it, by which they were put)
        self.assertEqual(self.ends("out"), self.ends("in"))

    def test_it_is_killed_in_the_middle(self):
        first = self.start()
        feeder = Thread(target=self.feed, args=(range(1000), 0.004))
        feeder.start()
        self.until(lambda: self.count("out") > 300)
        first.kill()
        feeder.join()
        second = self.start()
        self.until(lambda: self.committed() == self.ends("in"))
        self.ended(second)
        self.are_in_order(1000)

    def test_two_divide_the_partitions(self):
        first = self.start()
        feeder = Thread(target=self.feed, args=(range(1000), 0.01))
        feeder.start()
        self.until(lambda: self.count("out") > 50)
        second = self.start()
        self.until(lambda: self.count("out") > 800)
        one = self.ended(first)
        feeder.join()
        self.until(lambda: self.committed() == self.ends("in"))
        two = self.ended(second)
        self.assertGreater(min(one["read"], two["read"]), 50)
        # (the mock commits nothing while it divides partitions: so some may come twice)
        self.are_in_order(1000)

    # ---- faults ----

    def test_faults_that_pass(self):
        self.feed(range(400))
        self.cluster.fails(PRODUCE, *[KafkaError.NOT_LEADER_FOR_PARTITION, KafkaError.REQUEST_TIMED_OUT] * 3)
        self.cluster.fails(COMMIT, KafkaError.COORDINATOR_LOAD_IN_PROGRESS, *[KafkaError.GROUP_AUTHORIZATION_FAILED] * 9)
        program = self.start()
        self.until(lambda: self.count("out") >= 400)
        counts = self.ended(program)
        self.assertEqual((counts["delivered"], self.committed()), (400, self.ends("in")))
        self.are_once_in_order(400)

    def are_not_delivered(self, error: int) -> None:
        self.feed(range(400))
        self.cluster.fails(PRODUCE, error)
        program = self.start()
        self.assertEqual(program.wait(60), 1, self.errors())
        self.assertRegex(self.errors(), r"not delivered, and not committed: in\[\d\]@\d+ to out: Broker: [TM]")
        self.assertEqual(self.committed(), [0] * PARTITIONS)

    def test_a_topic_that_may_not_be_written(self):
        self.are_not_delivered(KafkaError.TOPIC_AUTHORIZATION_FAILED)

    def test_records_that_the_broker_refuses(self):
        self.are_not_delivered(KafkaError.MSG_SIZE_TOO_LARGE)
        again = self.start()
        self.until(lambda: self.committed() == self.ends("in"))
        self.ended(again)
        self.assertEqual({key: sorted(set(it)) for key, it in self.came().items()}, {b"key-%d" % k: [*range(k, 400, 20)] for k in range(20)})

    def test_it_may_not_write_each_record_once(self):
        self.feed(range(10))
        self.cluster.fails(IDEMPOTENCE, KafkaError.CLUSTER_AUTHORIZATION_FAILED)
        program = self.start()
        self.assertEqual(program.wait(60), 1, self.errors())
        self.assertEqual((self.count("out"), self.committed()), (0, [0] * PARTITIONS))

    def waiting(self) -> subprocess.Popen[bytes]:
        """A program that has read some of 80 records, and waits for the broker of the output, which is away."""
        self.feed(range(80))
        self.cluster.call("broker_set_down", 2)
        program = self.start()
        # (before it blocks these signals, they end it)
        self.until(lambda: "SigBlk:\t0000000000004202\n" in Path(f"/proc/{program.pid}/status").read_text())
        self.until(lambda: self.asked(program)["read"] > 0)
        return program

    def test_a_second_signal_ends_it_at_once(self):
        program, start = self.waiting(), time.monotonic()
        program.send_signal(signal.SIGINT)
        time.sleep(1)
        self.ended(program, status=1)
        self.assertLess(time.monotonic() - start, 6)
        self.assertEqual(self.committed(), [0] * PARTITIONS)

    def test_it_ends_while_the_broker_is_away(self):
        program, start = self.waiting(), time.monotonic()
        counts = self.ended(program, status=1)
        self.assertLess(time.monotonic() - start, 15)
        self.assertEqual((counts["delivered"], self.committed()), (0, [0] * PARTITIONS))
        self.cluster.call("broker_set_up", 2)
        again = self.start()
        self.until(lambda: self.committed() == self.ends("in"))
        self.ended(again)
        self.are_once_in_order(80)

    # ---- hostile records ----

    def test_hostile_records(self):
        frames = "f@http://h/app.js:1:14\n"
        many, some = frames * (1_000_000 // len(frames)), "f@src/a.ts:2:3\n" * 1000
        for key, value in (("many", many), ("large", "x" * 1_000_001), ("grows", "f@http://h/long.js:1:14\n" * 600)):
            self.put(key.encode(), value.encode())
        self.put(b"utf", b"f@http://h/app.js:1:14\xff", [("not-resolved", b"an old one"), *OWN])
        self.put(b"none", None)
        self.put(b"\xff", TRACE.encode(), [])
        self.assertEqual(self.producer.flush(30), 0)
        self.cluster.put_header(b"a\xff", TRACE.encode())
        program = self.start()
        self.until(lambda: self.count("out") >= 7)
        counts = self.ended(program)
        self.assertEqual(self.count("out"), 7)
        kinds = ("resolved", "too large", "not UTF-8", "no value", "unchanged")
        self.assertEqual([counts[it] for it in kinds], [2, 2, 2, 1, 0])
        found = {it.key(): (it.value(), it.headers()) for it in self.all_of("out")}
        kept = many[1000 * len(frames) :]
        # (what is that large is not compared by assertEqual, which looks for differences for minutes)
        self.assertTrue(found[b"many"] == ((some + kept).encode(), OWN))
        self.assertTrue(found[b"large"] == (b"x" * 1_000_001, [*OWN, ("not-resolved", b"too large: 1000001 bytes, at most 1000000")]))
        self.assertRegex(found[b"grows"][1][-1][1], rb"too large: 1\d{6} bytes once it is resolved, at most 1000000")
        self.assertTrue(found[b"grows"][0] == b"f@http://h/long.js:1:14\n" * 600)
        self.assertEqual(found[b"utf"][1], [*OWN, ("not-resolved", b"not UTF-8: invalid start byte at byte 22")])
        self.assertEqual(found[b"none"], (None, OWN))
        reason = b"not UTF-8: the name of a header, so that there are no others here"
        self.assertEqual(found[None], (TRACE.encode(), [("not-resolved", reason)]))
        self.assertEqual(found[b"\xff"], (FOUND.encode(), None))

    def test_dead_letters(self):
        for value in (b"\xff", b"{", b'{"stack": 1}', b"[" * 100_000, None, b'{"a": 1}', b'{"stack": "f@http://h/app.js:1:14"}'):
            self.put(b"k", value)
        self.assertEqual(self.producer.flush(30), 0)
        program = self.start("--member", "stack", "--dead-letters", "dead", "--bytes", "99999")
        self.until(lambda: self.count("out") + self.count("dead") >= 7)
        counts = self.ended(program)
        self.assertEqual([it.value() for it in self.all_of("out")], [None, b'{"a": 1}', b'{"stack": "f@src/a.ts:2:3"}'])
        dead = self.all_of("dead")
        self.assertTrue([(it.key(), it.value()) for it in dead] == [(b"k", it) for it in (b"\xff", b"{", b'{"stack": 1}', b"[" * 100_000)])
        self.assertEqual([it.headers()[:3] for it in dead], [OWN] * 4)
        kinds = [it.headers()[3][1].partition(b":")[0].decode() for it in dead]
        self.assertEqual(kinds, ["not UTF-8", "not JSON", "no trace", "too large"])
        self.assertEqual([counts[it] for it in ("read", "resolved", "unchanged", "no value", *kinds)], [7, 1, 1, 1, 1, 1, 1, 1])


class Values(Case):
    """What becomes of a value, without a broker."""

    def setUp(self) -> None:
        self.example = example()
        self.resolver = Resolver({"app.js.map": MAP}, "http://h/", limits=Limits(trace_bytes=300_000))

    def resolved(self, value: str, member: str | None = "stack") -> str:
        return self.example.Values(self.resolver, member, 300_000).resolved(value.encode()).decode()

    def refused(self, value: str, member: str | None = "stack") -> str:
        with self.assertRaises(self.example.UnfitError) as caught:
            self.resolved(value, member)
        return str(caught.exception)

    def test_all_else_stays_to_the_byte(self):
        place, found = "f@http://h/app.js:1:14", "f@src/a.ts:2:3"
        for around in (
            '{"stack":"%s"}',
            ' {\t"a" :1.10, "b":1E999,\r\n"stack" :\n"%s\\n" , "c":[{"stack":"x"}], "é\\u00e9":"\\/"} ',
            '{"n":' + "9" * 5000 + ',"stack":"%s"}',
            '{"stack":"f@http://h/app.js:1:1","stack":"%s"}',
            '{"a":{"stack":"f@http://h/app.js:1:1"},"st\\u0061ck":"%s"}',
            '{"a,\\"stack\\":":"{","stack":"%s"}',
        ):
            self.assertEqual(self.resolved(around % place), around % found)
        for same in ("{}", ' {"a":1}', '{"stack":null}', '{"stack":"\\u0078"}', '{"stack":"x"} ', '{"a":"%s"}' % place):
            self.assertEqual(self.resolved(same), same)
        self.assertEqual(self.resolved('{"stack":"é\\u00e9\\" \\\\\\n%s"}' % place), '{"stack":"éé\\" \\\\\\n%s"}' % found)
        self.assertEqual(self.resolved('{"stack":"\\ud800é\\n%s"}' % place), '{"stack":"\\ud800\\u00e9\\n%s"}' % found)
        self.assertEqual(self.resolved(f"\ufeffx\r\n{place}\r\n", None), f"\ufeffx\r\n{found}\r\n")

    def test_what_is_refused(self):
        for value in ("", "{", "nul", '{"stack":"x"}}', '{"stack":"x",}', '{"a":NaN,"stack":"x"}', '{"a":-Infinity}', "\ufeff{}", '{"stack":"\n"}', "[" * 200_000):
            self.assertRegex(self.refused(value), r"\Anot JSON: ", value[:20])
        for value in ("[]", "1", '"stack"', "null", '{"stack":5}', '{"stack":1e5}', '{"stack":{}}', '{"stack":"x","stack":[]}', '{"stack":true}'):
            self.assertRegex(self.refused(value), r"\Ano trace: ", value)
        self.assertEqual(self.refused("é" * 150_001, None), "too large: 300002 bytes, at most 300000")
        with self.assertRaisesRegex(self.example.UnfitError, r"\Anot UTF-8: invalid start byte at byte 2"):
            self.example.Values(self.resolver, None, 9).resolved(b"ab\xffcd")

    def test_settings(self):
        with tempfile.TemporaryDirectory() as room:
            file = Path(room, "settings")
            file.write_text("# a=b\n\n a = b=c \nconsumer.d=1\nproducer.d=2\n")
            self.assertEqual(self.example.settings_in(str(file), "consumer."), {"a": "b=c", "d": "1"})
            self.assertEqual(self.example.settings_in(str(file), "producer."), {"a": "b=c", "d": "2"})
        self.assertEqual(self.example.settings_in(None, "producer."), {})
        with self.assertRaises(SystemExit), open(os.devnull, "w") as nowhere, unittest.mock.patch("sys.stderr", nowhere):
            self.example.words_of(["dist", "http://h/", "b", "in", "in"])


if __name__ == "__main__":
    unittest.main()
