#!/usr/bin/env python3
"""Makes the sample logs of the log shipper, with Debian's `logger` (bsdutils) and `rsyslogd` (rsyslog).

    tools/sample_logs.py FOLDER
    tools/sample_logs.py --expected FOLDER

`logger` sends each message of MESSAGES over UDP, as RFC 5424 and as RFC 3164. `sent.log` is what it sent, a datagram a
line. `rsyslogd` receives the same and writes it in three of its own formats: `protocol23.log` (RFC 5424), `file.log`
(the time of RFC 3339, without a priority) and `traditional.log` (the time of RFC 3164, without a priority).

The logs in crates/example_shipper/data are from a run of this script. With `--expected` it prints the objects that the
program has to make of logs in a folder: their texts are those of MESSAGES, and the time and the host are cut out of the
line. crates/example_shipper/stdout is that for the logs in crates/example_shipper/data.
"""
import argparse
import json
import socket
import subprocess
import tempfile
import time
from pathlib import Path

# Priority (`logger` sends `user` in the place of `kern`), program, process, kind of message and its structured data (RFC 5424 alone), and the message.
MESSAGES = [
    ("auth.crit", "su", "230", "ID47", 'exampleSDID@32473 iut="3" eventSource="Application"', "'su root' failed for lonvick on /dev/pts/8"),
    ("user.emerg", "kernel", "1", None, None, "Out of memory: Killed process 4242 (java) total-vm:8388608kB"),
    ("mail.info", "postfix/smtpd", "991", None, None, "connect from unknown[192.0.2.7]"),
    ("local0.debug", "app", "77", "REQ", None, '{"path":"/index.html","ms":12,"agent":"a \\"quoted\\" one"}'),
    ("user.notice", "probe", "5", None, None, "Gr\u00fc\u00dfe aus K\u00f6ln: 20 \u20ac, \u65e5\u672c, \U0001f600"),
    ("daemon.warning", "cron", "12", None, None, "tab\there, and a colon: there"),
    ("authpriv.err", "sshd", "3001", None, None, "error: kex_exchange_identification: [preauth]"),
    ("local7.alert", "door", "9", None, None, "x" * 700),
]


def logger(port, form, priority, program, process, kind, data, text):
    words = ["logger", "--server", "127.0.0.1", "--port", str(port), "--udp", f"--{form}", f"--id={process}"]
    words += ["-p", priority, "-t", program]
    if form == "rfc5424":
        words += ["--msgid", kind] if kind else []
        if data:
            name, *values = data.split()
            words += ["--sd-id", name, *(word for value in values for word in ("--sd-param", value))]
    subprocess.run([*words, "--", text], check=True)


def send_all(port):
    for form in ("rfc5424", "rfc3164"):
        for message in MESSAGES:
            logger(port, form, *message)


def what_is_sent():
    """The datagrams."""
    with socket.socket(socket.AF_INET, socket.SOCK_DGRAM) as listener:
        listener.bind(("127.0.0.1", 0))
        listener.settimeout(5)
        send_all(listener.getsockname()[1])
        return [listener.recv(65536) for _ in range(2 * len(MESSAGES))]


def write_by_rsyslog(folder):
    with socket.socket(socket.AF_INET, socket.SOCK_DGRAM) as free:
        free.bind(("127.0.0.1", 0))
        port = free.getsockname()[1]
    forms = {"protocol23": "SyslogProtocol23Format", "file": "FileFormat", "traditional": "TraditionalFileFormat"}
    with tempfile.TemporaryDirectory() as work:
        config = Path(work) / "rsyslog.conf"
        rules = "".join(f'action(type="omfile" file="{folder}/{name}.log" template="RSYSLOG_{form}")\n' for name, form in forms.items())
        config.write_text(
            f'global(workDirectory="{work}")\nmodule(load="imudp")\ninput(type="imudp" address="127.0.0.1" port="{port}")\n{rules}'
        )
        daemon = subprocess.Popen(["rsyslogd", "-n", "-f", config, "-i", Path(work) / "pid"])
        time.sleep(2)
        send_all(port)
        time.sleep(2)
        daemon.terminate()
        daemon.wait()


FACILITIES = "kern user mail daemon auth syslog lpr news uucp cron authpriv ftp ntp audit alert clock".split()
FACILITIES += [f"local{number}" for number in range(8)]
SEVERITIES = "emerg alert crit err warning notice info debug".split()
QUALITY = '[timeQuality tzKnown="1" isSynced="0"]'
LOGS = ["sent.log", "protocol23.log", "file.log", "traditional.log"]


def expected(name, line, at):
    """What the line of this log says, of which the message at this place was sent."""
    by_5424 = at < len(MESSAGES)
    priority, program, process, kind, data, text = MESSAGES[at % len(MESSAGES)]
    found = {}
    if name in ("sent.log", "protocol23.log"):
        facility, severity = priority.split(".")
        number = 8 * FACILITIES.index(facility) + SEVERITIES.index(severity)
        found |= {"priority": number, "facility": facility, "severity": severity}
    if name == "protocol23.log" or name == "sent.log" and by_5424:
        words = line.split(" ")
        found |= {"time": words[1], "host": words[2]}
    elif name == "file.log":
        words = line.split(" ")
        found |= {"time": words[0], "host": words[1]}
    else:
        time = line[line.index(">") + 1 :][:15] if name == "sent.log" else line[:15]
        found |= {"time": time, "host": line[line.index(time) + 16 :].split(" ")[0]}
    # rsyslog ends a program's name at a slash where the head is of RFC 3164, and a message begins with its space there
    short = name == "protocol23.log" and not by_5424
    found |= {"app": program.split("/")[0] if short else program, "procid": process}
    if by_5424 and name in ("sent.log", "protocol23.log"):
        found |= {"msgid": kind} if kind else {}
        found |= {"data": QUALITY + (f"[{data}]" if data else "")}
    if name != "sent.log":
        text = text.replace("\t", "#011")  # rsyslog escapes it so
    return found | {"message": (" " if short else "") + text}


def print_expected(folder):
    number = 0
    for name in LOGS:
        for at, line in enumerate((folder / name).read_text().splitlines()):
            number += 1
            found = {"line": number} | expected(name, line, at)
            print(json.dumps(found, ensure_ascii=False, separators=(",", ":")))


def main():
    parser = argparse.ArgumentParser(description=__doc__, formatter_class=argparse.RawDescriptionHelpFormatter)
    parser.add_argument("--expected", action="store_true", help="print the objects of the logs that are there")
    parser.add_argument("folder", help="where the logs are, or are to be")
    given = parser.parse_args()
    folder = Path(given.folder).resolve()
    if given.expected:
        print_expected(folder)
        return
    folder.mkdir(parents=True, exist_ok=True)
    (folder / "sent.log").write_bytes(b"".join(datagram + b"\n" for datagram in what_is_sent()))
    write_by_rsyslog(folder)


if __name__ == "__main__":
    main()
