#!/usr/bin/env python3
"""Brokers of Kafka for the tests: the mock that is in librdkafka itself, since Debian has no broker. It keeps up to 5 MB a partition, in memory.

    brokers.py TOPIC:PARTITIONS ..

Writes the addresses of three brokers in a line, and ends when the standard input does.
"""
import ctypes
import subprocess
import sys

LIBRARY = 'librdkafka.so.1'
PRODUCER = 0


def serve(topics):
    kafka = ctypes.CDLL(LIBRARY)
    for name in ('rd_kafka_conf_new', 'rd_kafka_new', 'rd_kafka_mock_cluster_new'):
        getattr(kafka, name).restype = ctypes.c_void_p
    kafka.rd_kafka_mock_cluster_bootstraps.restype = ctypes.c_char_p
    why = ctypes.create_string_buffer(512)
    client = ctypes.c_void_p(kafka.rd_kafka_new(PRODUCER, ctypes.c_void_p(kafka.rd_kafka_conf_new()), why, ctypes.c_size_t(len(why))))
    if not client:
        sys.exit(why.value.decode())
    cluster = ctypes.c_void_p(kafka.rd_kafka_mock_cluster_new(client, 3))
    for topic in topics:
        name, _, count = topic.partition(':')
        if kafka.rd_kafka_mock_topic_create(cluster, name.encode(), int(count), 1):
            sys.exit(f'the topic {topic} is not made')
    print(kafka.rd_kafka_mock_cluster_bootstraps(cluster).decode(), flush=True)
    sys.stdin.read()


class Brokers:
    """The brokers in a process of their own, as kcat sees them."""

    def __init__(self, **topics):
        words = [f'{name}:{count}' for name, count in topics.items()]
        words = [sys.executable, __file__, *words]
        self.process = subprocess.Popen(words, stdin=subprocess.PIPE, stdout=subprocess.PIPE, stderr=subprocess.DEVNULL, text=True)
        self.at = self.process.stdout.readline().strip()
        assert self.at, 'the brokers have not started'

    def __enter__(self):
        return self

    def __exit__(self, *_):
        self.process.stdin.close()
        self.process.wait(30)

    def kcat(self, *words, given=None):
        return subprocess.run(['kcat', '-b', self.at, *words], input=given, stdout=subprocess.PIPE, timeout=60, check=True).stdout

    def produce(self, topic, partition, messages):
        self.kcat('-P', '-t', topic, '-p', str(partition), '-D', r'\x1e', given=b'\x1e'.join(messages))

    def held(self, topic, partition):
        """The messages of a partition."""
        return self.kcat('-C', '-q', '-e', '-t', topic, '-p', str(partition), '-o', 'beginning', '-f', r'%s\x1e').split(b'\x1e')[:-1]


if __name__ == '__main__':
    serve(sys.argv[1:])
