"""A node as a process: `worker.py ADDRESS NAME INTERVAL LOG`. Its jobs are functions, which say in the file LOG when they begin and end."""
import logging
import os
import random
import signal
import sys
import time

sys.path[:0] = [os.path.dirname(os.path.dirname(os.path.abspath(__file__)))]
import compacting  # noqa: E402, F401
from kemtrua import Address, Code, Connection, Node, Work  # noqa: E402

ANSWER_WITHIN = 20.0  # seconds
SHORT, LONG, SELDOM = 0.01, 2.0, 0.02  # seconds of an execution, and the part of those that are long


def main(address, name, interval, path):
    logging.basicConfig(stream=sys.stderr, level="DEBUG", format="%(asctime)s %(levelname)s %(message)s")
    log = os.open(path, os.O_WRONLY | os.O_CREAT | os.O_APPEND, 0o644)

    def say(word, context):
        os.write(log, f"{time.time_ns() // 1000000} {word} {context.entry} {context.job.name} {context.trigger.name} {context.scheduled} {context.epoch}\n".encode())

    def work(context):
        say("begin", context)
        context.stop.wait(LONG if random.random() < SELDOM else random.uniform(0, SHORT))
        say("stopped" if context.stop.is_set() else "end", context)
        return Code.NOOP

    node = Node(name, lambda: Connection(Address.parse(address), None, ANSWER_WITHIN), {"work": work}, check_in=int(interval), work=Work(workers=12, batch=16))
    signal.signal(signal.SIGTERM, lambda *_: node.stop())
    node.run()


main(*sys.argv[1:])
