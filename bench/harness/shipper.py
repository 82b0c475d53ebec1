"""The log that the shipper and its twin read."""
import hashlib
import random

SIZE = 200_000_000

APPS = ["sshd", "postfix/smtpd", "kernel", "systemd", "cron", "nginx"]
WORDS = (
    "connection from 192.0.2.7 failed opened session for user root timeout after request GET /index.html "
    '"agent" status=200 [preauth] uid=0'
).split()


def line(number, draw):
    """A line of the log: every other one has a head of RFC 5424, the others one of RFC 3164."""
    priority, minute, second = draw.randrange(192), number // 60 % 60, number % 60
    host, app, process = f"host{number % 20}", draw.choice(APPS), number % 30_000
    message = " ".join(draw.choices(WORDS, k=draw.randint(4, 16)))
    if number % 2:
        return f"<{priority}>1 2026-11-28T23:{minute:02}:{second:02}.{number % 10**6:06}Z {host} {app} {process} - - {message}\n"
    return f"<{priority}>Nov 28 23:{minute:02}:{second:02} {host} {app}[{process}]: {message}\n"


def make(file):
    """Writes the log, if it isn't there: the same on every machine."""
    if file.exists() and file.stat().st_size >= SIZE:
        return
    draw, number, size = random.Random(1), 0, 0
    with open(file, "w") as log:
        while size < SIZE:
            number += 1
            size += log.write(line(number, draw))


def counted(text):
    """Both have to write the same bytes."""
    return len(text), hashlib.sha256(text).hexdigest()
