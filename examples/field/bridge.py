#!/usr/bin/python3
"""bridge.py [--broker HOST:PORT] [--cafile FILE --cert FILE --key FILE] NAME COMMAND ..: runs the node of resource NAME (COMMAND),
and carries its lines over one connection to a broker (MQTT).

A line SEND R LINE is published as plc/R/NAME, and what comes as plc/NAME/MAKER is written to the node's standard input, if it is one
line, and that maker's own MESSAGE or HELLO: all else is dropped. Who may write as which maker is the broker's to say, by its access
list. Of what else the node writes, START, OVERRUN, FIELD, RESTART, REFUSED
and UNNOTED go to standard output. The status is the node's.

Nothing is kept for whoever is away, here or at the broker (quality of service 0, no session): a node's next message stands in for
those that were lost, and what is addressed to a former incarnation is answered by a HELLO. Where the broker is away the node goes
on with what it has; the connection is tried anew each second.
"""
import argparse
import re
import signal
import socket
import subprocess
import sys

import paho.mqtt.client as mqtt

TOLD = re.compile(b"(START|OVERRUN|FIELD|RESTART|REFUSED) |UNNOTED$")


def is_own(maker, line):
    """Whether a payload is one line, which this maker may write."""
    return line.startswith((b"MESSAGE " + maker + b".", b"HELLO " + maker + b" ")) and b"\n" not in line


def connection(asked, node):
    """The connection to the broker, in a thread of its own, which hands on what comes."""

    def bring(_client, _data, message):
        if is_own(message.topic.rpartition("/")[2].encode(), message.payload):
            try:
                node.stdin.write(message.payload + b"\n")
                node.stdin.flush()
            except OSError:
                client.disconnect()  # The node has ended.

    host, _, port = asked.broker.rpartition(":")
    client = mqtt.Client(client_id=f"plc-{asked.name}")
    if asked.cafile:
        client.tls_set(asked.cafile, asked.cert, asked.key)
    client.on_message = bring
    client.on_connect = lambda *_: client.subscribe(f"plc/{asked.name}/+")
    # Else a message waits until the one before has been acknowledged.
    client.on_socket_open = lambda _client, _data, opened: opened.setsockopt(socket.IPPROTO_TCP, socket.TCP_NODELAY, 1)
    client.reconnect_delay_set(1, 1)
    client.connect_async(host, int(port), keepalive=5)
    client.loop_start()
    return client


def main():
    asked = argparse.ArgumentParser(description=__doc__, formatter_class=argparse.RawDescriptionHelpFormatter, usage=argparse.SUPPRESS)
    asked.add_argument("--broker", default="127.0.0.1:1883")
    for option in ("--cafile", "--cert", "--key"):
        asked.add_argument(option)
    for name, count in (("name", None), ("program", None), ("words", "...")):
        asked.add_argument(name, nargs=count, help=argparse.SUPPRESS)
    asked = asked.parse_args()
    node = subprocess.Popen([asked.program, *asked.words], stdin=subprocess.PIPE, stdout=subprocess.PIPE)
    signal.signal(signal.SIGTERM, lambda *_: node.terminate())
    client = connection(asked, node)
    for line in node.stdout:
        if line.startswith(b"SEND "):
            _, to, sent = line.rstrip(b"\n").split(b" ", 2)
            client.publish(f"plc/{to.decode()}/{asked.name}", sent)
        elif TOLD.match(line):
            sys.stdout.buffer.write(line)
            sys.stdout.buffer.flush()
    status = node.wait()
    return status if status >= 0 else 128 - status


sys.exit(main())
