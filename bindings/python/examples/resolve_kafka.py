"""Resolves the stack traces of a topic of Kafka into another one.

    resolve_kafka.py FOLDER BASE BROKERS INPUT OUTPUT [OPTION..]      (--help lists the options)

FOLDER has codes and maps, which traces name below the URL BASE. The value of a record is a trace or, with --member, a JSON object whose
member of this name is one. Its key, headers and time, and its value with the frames resolved and all else to the byte, go to OUTPUT.

What is too large, not UTF-8, or with --member not JSON goes to OUTPUT unchanged, or to the topic that --dead-letters names, with a header
`not-resolved` that has the reason. A record without a value, or whose object has no such member, stays as it is.

Offsets are committed once all records before them are delivered, so that none is lost. After a crash, or when the partitions are divided
anew, some may come twice. Records of a key keep their order. Processes with the same --group divide the partitions among them.

SIGTERM and SIGINT end it: it delivers what it has read, and commits it, in SECONDS; a second signal ends it at once. SIGUSR1 prints the
counts, which it also prints at the end. The status is 1 if a record cannot be delivered: the offset of none in that batch is committed.
"""

from __future__ import annotations

import argparse
import json
import os
import re
import signal
import sys
import time
from collections import Counter
from functools import partial
from pathlib import Path
from threading import Event, Thread, Timer
from typing import Optional

from confluent_kafka import TIMESTAMP_NOT_AVAILABLE, Consumer, KafkaError, KafkaException, Message, Producer, TopicPartition

sys.path.append(str(Path(__file__).resolve().parents[1] / "src"))

from oxc_sourcemap.resolver import BESIDE, Limits, Resolver, TooLargeError

SECONDS = 8.0
SIGNALS = {signal.SIGTERM, signal.SIGINT, signal.SIGUSR1}
# A batch ends after so many records, bytes or seconds: then it is delivered and committed.
BATCH_RECORDS, BATCH_BYTES, BATCH_SECONDS = 500, 16 << 20, 2.0
HEADER = "not-resolved"
# By these the group has given the partitions to others, who read on from the offset that was committed last.
GONE = {KafkaError.ILLEGAL_GENERATION, KafkaError.UNKNOWN_MEMBER_ID, KafkaError.FENCED_INSTANCE_ID}
# The start of a member of an object, up to the quote of its name; and what is between its name and value.
MEMBER = re.compile(r'[ \t\n\r]*[{,][ \t\n\r]*(?=")')
COLON = re.compile(r"[ \t\n\r]*:[ \t\n\r]*")
Headers = list[tuple[str, Optional[bytes]]]


class UnfitError(Exception):
    """Why a value is not resolved: the kind, which is counted, and more."""

    def __init__(self, kind: str, detail: str) -> None:
        super().__init__(f"{kind}: {detail}")
        self.kind = kind


class UndeliveredError(Exception):
    pass


def no_json(word: str) -> None:
    raise ValueError(f"{word} is no value of JSON")


# (numbers are not read, since they may have any length)
JSON = json.JSONDecoder(parse_int=len, parse_float=len, parse_constant=no_json)


def member_of(text: str, name: str) -> Optional[tuple[str, int, int]]:
    """The text that the last member of this name has in a JSON object, and where it stands; None without such a member."""
    try:
        value = JSON.decode(text)
    except (ValueError, RecursionError) as error:
        raise UnfitError("not JSON", str(error)) from None
    if not isinstance(value, dict):
        raise UnfitError("no trace", "the value is no object")
    if value.get(name) is None:
        return None
    if not isinstance(value[name], str):
        raise UnfitError("no trace", f"the member {name} is no text")
    start, end = span_of(text, name)
    return value[name], start, end


def span_of(text: str, name: str) -> tuple[int, int]:
    """Where the value of the last member of this name stands in the text of an object that has one."""
    at, span = 0, (0, 0)
    while found := MEMBER.match(text, at):
        key, at = JSON.raw_decode(text, found.end())
        colon = COLON.match(text, at)
        assert colon is not None
        _, at = JSON.raw_decode(text, colon.end())
        if key == name:
            span = colon.end(), at
    return span


def said_in_json(text: str) -> str:
    """A text as JSON. (One with half of a pair of surrogates can only be escaped.)"""
    said = json.dumps(text, ensure_ascii=False)
    try:
        said.encode()
    except UnicodeEncodeError:
        return json.dumps(text)
    return said


class Values:
    """Resolves the values of records."""

    def __init__(self, resolver: Resolver, member: Optional[str], most: int) -> None:
        self.resolver, self.member, self.most = resolver, member, most

    def resolved(self, value: bytes) -> bytes:
        """A value with its frames resolved. Raises UnfitError."""
        if len(value) > self.most:
            raise UnfitError("too large", f"{len(value)} bytes, at most {self.most}")
        try:
            text = value.decode()
        except UnicodeDecodeError as error:
            raise UnfitError("not UTF-8", f"{error.reason} at byte {error.start}") from None
        try:
            found = (self.of_object(text, self.member) if self.member is not None else self.resolver.resolve_text(text)).encode()
        except TooLargeError as error:
            raise UnfitError("too large", str(error)) from None
        if len(found) > self.most:
            raise UnfitError("too large", f"{len(found)} bytes once it is resolved, at most {self.most}")
        return found

    def of_object(self, text: str, member: str) -> str:
        """A JSON object with the trace in it resolved. All around it stays to the byte."""
        if (found := member_of(text, member)) is None:
            return text
        trace, start, end = found
        resolved = self.resolver.resolve_text(trace)
        return text if resolved == trace else f"{text[:start]}{said_in_json(resolved)}{text[end:]}"


def say(text: str) -> None:
    print(text, file=sys.stderr, flush=True)


def headers_of(record: Message) -> Headers:
    """The headers of a record but that of an earlier run. Raises UnfitError if they cannot be read, and so not be written either."""
    try:
        return [it for it in record.headers() or () if it[0] != HEADER]
    except (SystemError, UnicodeDecodeError):
        raise UnfitError("not UTF-8", "the name of a header, so that there are no others here") from None


class Pipe:
    """Reads from a topic and writes to another one, a batch at a time."""

    def __init__(self, words: argparse.Namespace, values: Values) -> None:
        self.words, self.values, self.stops = words, values, Event()
        kinds = ("read", "resolved", "unchanged", "no value", "too large", "not UTF-8", "not JSON", "no trace", "delivered", "committed")
        self.counts = Counter(dict.fromkeys(kinds, 0))
        # Of each partition the offset behind the last record that was read, and is not committed yet.
        self.behind: dict[tuple[str, int], int] = {}
        self.fault: Optional[str] = None
        self.said: set[str] = set()
        reads = {"group.id": words.group, "enable.auto.commit": False, "bootstrap.servers": words.brokers}
        self.consumer = Consumer({"auto.offset.reset": "earliest", **settings_in(words.config, "consumer."), **reads})
        # Java's partitioner, so that keys are where others look for them; order without gaps or doubles, however often it has to try; and
        # the broker has the last word on sizes.
        sends = {"enable.idempotence": True, "message.timeout.ms": 0, "message.max.bytes": 1_000_000_000, "bootstrap.servers": words.brokers}
        self.producer = Producer({"partitioner": "murmur2_random", **settings_in(words.config, "producer."), **sends})

    # ---- records ----

    def take(self, record: Message) -> None:
        """Resolves a record, and has it sent."""
        if (error := record.error()) is not None:
            if error.fatal():
                raise KafkaException(error)
            return say(f"{self.words.input}: {error.str()}")
        value, topic, headers = record.value(), self.words.output, []
        try:
            headers = headers_of(record)
            resolved = None if value is None else self.values.resolved(value)
            kind = "no value" if value is None else "unchanged" if resolved == value else "resolved"
            value = resolved
        except UnfitError as unfit:
            kind = unfit.kind
            headers.append((HEADER, str(unfit).encode("utf-8", "replace")))
            topic = self.words.dead_letters or topic
        self.counts.update(["read", kind])
        self.send(record, topic, value, headers)
        self.behind[record.topic(), record.partition()] = record.offset() + 1

    def send(self, record: Message, topic: str, value: Optional[bytes], headers: Headers) -> None:
        kind, when = record.timestamp()
        when = 0 if kind == TIMESTAMP_NOT_AVAILABLE else when
        place = f"{record.topic()}[{record.partition()}]@{record.offset()} to {topic}"
        told = partial(self.delivered, place)
        while True:
            try:
                self.producer.produce(topic, value, record.key(), headers=headers, timestamp=when, on_delivery=told)
                return
            except BufferError:
                # (the queue is full)
                self.producer.poll(0.2)
            except KafkaException as error:
                raise UndeliveredError(f"{place}: {error.args[0].str()}") from None

    def delivered(self, place: str, error: Optional[KafkaError], _: Message) -> None:
        if error is None:
            self.counts["delivered"] += 1
        elif self.fault is None:
            self.fault = f"{place}: {error.str()}"

    # ---- offsets ----

    def settle(self) -> None:
        """Waits until all that was sent is delivered, and then commits. If a record could not be delivered, it does not commit."""
        while self.fault is None and self.producer.flush(0.2):
            pass
        if self.fault is None and self.behind:
            self.commit()

    def commit(self) -> None:
        offsets = [TopicPartition(topic, partition, offset) for (topic, partition), offset in self.behind.items()]
        try:
            for it in self.consumer.commit(offsets=offsets, asynchronous=False):
                self.committed(it, it.error)
        except KafkaException as error:
            for it in offsets:
                self.committed(it, error.args[0])

    def committed(self, it: TopicPartition, error: Optional[KafkaError]) -> None:
        """Notes what became of an offset. One that could not be committed is tried again with the next batch."""
        if error is None:
            self.said.clear()
            self.counts["committed"] += 1
        elif (text := f"{it.topic}[{it.partition}]: not committed: {error.str()}") not in self.said:
            self.said.add(text)
            say(text)
        if error is None or error.code() in GONE:
            self.behind.pop((it.topic, it.partition), None)

    def revoked(self, _: Consumer, partitions: list[TopicPartition]) -> None:
        self.settle()
        self.lost(_, partitions)

    def lost(self, _: Consumer, partitions: list[TopicPartition]) -> None:
        for it in partitions:
            self.behind.pop((it.topic, it.partition), None)

    # ---- the whole ----

    def batch(self) -> None:
        count = size = 0
        start = time.monotonic()
        while count < BATCH_RECORDS and size < BATCH_BYTES and time.monotonic() < start + BATCH_SECONDS and not self.stops.is_set():
            record = self.consumer.poll(0 if count else 0.5)
            if record is None:
                break
            count, size = count + 1, size + len(record)
            self.take(record)
        self.settle()
        if self.fault is not None:
            raise UndeliveredError(self.fault)

    def run(self) -> int:
        """Goes on until a signal, and returns the status."""
        self.consumer.subscribe([self.words.input], on_revoke=self.revoked, on_lost=self.lost)
        try:
            while not self.stops.is_set():
                self.batch()
            while self.behind:
                time.sleep(0.3)
                self.batch()
        except (UndeliveredError, KafkaException) as error:
            self.fault = self.fault or str(error)
            say(f"not delivered, and not committed: {self.fault}")
            self.producer.purge()
        self.consumer.close()
        self.print_counts()
        return 0 if self.fault is None else 1

    def print_counts(self) -> None:
        stats = {name: count for name, count in self.values.resolver.stats().items() if count}
        print(json.dumps({**self.counts, "resolver": stats}), flush=True)

    def watch(self) -> None:
        """Waits for signals, in a thread, since a call of Kafka's may take long."""
        while True:
            if signal.sigwait(SIGNALS) == signal.SIGUSR1:
                self.print_counts()
            elif self.stops.is_set():
                self.give_up("a second signal")
            else:
                self.stops.set()
                timer = Timer(SECONDS, self.give_up, [f"not done in {SECONDS:g} seconds"])
                timer.daemon = True
                timer.start()

    def give_up(self, why: str) -> None:
        say(f"{why}: records whose offsets are not committed are read again")
        self.print_counts()
        os._exit(1)


def settings_in(file: Optional[str], own: str) -> dict[str, str]:
    """The lines NAME=VALUE of a file: those of the side whose prefix this is, and those for both."""
    lines = Path(file).read_text(encoding="utf-8").splitlines() if file is not None else []
    pairs = (line.strip().partition("=") for line in lines if line.strip() and not line.lstrip().startswith("#"))
    settings = {name.strip().removeprefix(own): value.strip() for name, _, value in pairs}
    return {name: value for name, value in settings.items() if not name.startswith(("consumer.", "producer."))}


def words_of(given: list[str]) -> argparse.Namespace:
    parser = argparse.ArgumentParser(description="Resolves the stack traces of a topic of Kafka into another one.")
    for name in ("folder", "base", "brokers", "input", "output"):
        parser.add_argument(name, metavar=name.upper())
    parser.add_argument("--member", metavar="NAME", help="values are JSON objects, in which this member is the trace")
    parser.add_argument("--dead-letters", metavar="TOPIC", help="where what cannot be read goes, instead of to OUTPUT")
    parser.add_argument("--group", metavar="NAME", default="resolve-kafka", help="of the consumer (resolve-kafka)")
    parser.add_argument("--config", metavar="FILE", help="settings of librdkafka, lines NAME=VALUE; consumer.NAME or producer.NAME for one side")
    parser.add_argument("--bytes", metavar="N", type=int, default=1_000_000, help="the most of a value, before and after (1000000)")
    parser.add_argument("--frames", metavar="N", type=int, default=1000, help="the most of a trace that are resolved (1000)")
    parser.add_argument("--seconds", metavar="N", type=float, default=5.0, help="the most for a trace (5)")
    words = parser.parse_args(given)
    if words.input in (words.output, words.dead_letters):
        parser.error("INPUT is written to")
    return words


def main() -> int:
    words = words_of(sys.argv[1:])
    limits = Limits(trace_bytes=words.bytes, frames=words.frames, seconds=words.seconds)
    signal.pthread_sigmask(signal.SIG_BLOCK, SIGNALS)
    pipe = Pipe(words, Values(Resolver(words.folder, words.base, cache=BESIDE, limits=limits), words.member, words.bytes))
    Thread(target=pipe.watch, daemon=True).start()
    return pipe.run()


if __name__ == "__main__":
    sys.exit(main())
