#!/usr/bin/env python3
"""Records a small capture of real packets for the tests of `example_decoder`.

    sudo python3 tools/record_capture.py FILE [--snap BYTES]

`tcpdump` (of the Debian package) records this machine's loopback while programs talk over it: HTTP over IPv4 and IPv6, UDP
both ways, and datagrams to ports where nobody listens, which the system answers by ICMP and ICMPv6. Without tcpdump, or
without leave to record, it says so and ends with status 1. `crates/example_decoder/data/loopback.pcap` was made so, with
`--snap 200`.
"""
import argparse
import http.server
import shutil
import socket
import subprocess
import sys
import tempfile
import threading
import time
import urllib.request

# Ports that nothing else uses in a test.
HTTP, HTTP6, ECHO, CLOSED = 18080, 18086, 18007, 18999

PAGE = b"All buffers come home.\n" * 100


class Page(http.server.BaseHTTPRequestHandler):
    def do_GET(self):
        self.send_response(200)
        self.send_header("Content-Length", str(len(PAGE)))
        self.end_headers()
        self.wfile.write(PAGE)

    def log_message(self, *_words):
        pass


class Server6(http.server.HTTPServer):
    address_family = socket.AF_INET6


def serve(server):
    threading.Thread(target=server.serve_forever, daemon=True).start()


def echo(family, address):
    """Answers each datagram by itself."""
    server = socket.socket(family, socket.SOCK_DGRAM)
    server.bind((address, ECHO))

    def answer():
        while True:
            data, peer = server.recvfrom(65536)
            server.sendto(data, peer)

    threading.Thread(target=answer, daemon=True).start()


def talk():
    """What is to be recorded."""
    for url in (f"http://127.0.0.1:{HTTP}/", f"http://[::1]:{HTTP6}/"):
        assert urllib.request.urlopen(url).read() == PAGE
    for family, address in ((socket.AF_INET, "127.0.0.1"), (socket.AF_INET6, "::1")):
        for size in (0, 1, 100, 1200):
            with socket.socket(family, socket.SOCK_DGRAM) as client:
                client.sendto(bytes(size), (address, ECHO))
                assert len(client.recv(65536)) == size
        with socket.socket(family, socket.SOCK_DGRAM) as client:
            client.sendto(b"nobody listens", (address, CLOSED))


def main():
    parser = argparse.ArgumentParser(description=__doc__.split("\n")[0])
    parser.add_argument("file")
    parser.add_argument("--snap", default="262144", help="bytes of a packet that are captured")
    given = parser.parse_args()
    if shutil.which("tcpdump") is None:
        sys.exit("record_capture: tcpdump is needed, of the Debian package tcpdump")
    serve(http.server.HTTPServer(("127.0.0.1", HTTP), Page))
    serve(Server6(("::1", HTTP6), Page))
    echo(socket.AF_INET, "127.0.0.1")
    echo(socket.AF_INET6, "::1")
    ports = " or ".join(f"port {port}" for port in (HTTP, HTTP6, ECHO, CLOSED))
    wanted = f"{ports} or icmp or icmp6"
    with tempfile.NamedTemporaryFile() as said:
        command = ["tcpdump", "-i", "lo", "-U", "-s", given.snap, "-w", given.file, wanted]
        recorder = subprocess.Popen(command, stderr=said)
        time.sleep(1)
        if recorder.poll() is not None:
            sys.exit("record_capture: tcpdump said: " + open(said.name).read())
        talk()
        time.sleep(1)
        recorder.terminate()
        recorder.wait()


main()
