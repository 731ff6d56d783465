"""The replicated log: a stream of RabbitMQ 3.9 or later, which each follower reads from its begin.

A stream keeps what was put to it in order, on a majority of its nodes before the put is confirmed, and gives it again to whoever asks, from any offset: so a follower
that begins anew gets all of it. A quorum queue is replicated in the same way, but gives each message to one reader, and then forgets it.
"""
import time

import pika

KIND = {"x-queue-type": "stream", "x-initial-cluster-size": 3}
# What a node that goes leaves behind at a client: the connection, the channel, or nothing to connect to.
LOST = (pika.exceptions.AMQPError, OSError)


def connect(ports, name):
    """Connects to one of the nodes, and makes the stream if it isn't there. It tries until one of them answers."""
    while True:
        for port in ports:
            try:
                # No heartbeat: a reader that waits for its follower answers none. A node that goes takes its connection with it.
                link = pika.BlockingConnection(pika.ConnectionParameters("127.0.0.1", port, heartbeat=0, socket_timeout=5, blocked_connection_timeout=20))
                channel = link.channel()
                channel.queue_declare(name, durable=True, arguments=KIND)
                return link, channel
            except LOST:
                time.sleep(0.3)


def put(channel, name, body):
    """Puts a message, and comes back when a majority has it."""
    channel.basic_publish("", name, body, pika.BasicProperties(delivery_mode=2), mandatory=True)


def read(channel, name, offset, patience):
    """Yields the offset and the body of each message from that offset on ('first', 'last' or a number), and None each time that none came for so many seconds."""
    channel.basic_qos(prefetch_count=200)
    for method, told, body in channel.consume(name, arguments={"x-stream-offset": offset}, inactivity_timeout=patience):
        if method is None:
            yield None
        else:
            channel.basic_ack(method.delivery_tag)
            yield told.headers["x-stream-offset"], body
