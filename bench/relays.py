#!/usr/bin/env python3
"""Measures roles over loopback: PDUs from a client through both proxies to a server.

The program is crates/rh_roles/out/rh_roles, as `./rh_roles --version` leaves it. It takes turns with
a plain forwarder, bench/relays.rs, which is built here with `rustc -O`: a client, one proxy and a
server over one connection, and no virtual connection. That reads 4,096 bytes at most at a time
(plain), or 32,768 as a role does (large); and, where nginx is installed with its stream module, the
first of the two takes it in place of its proxy.

Told are, of each process, the seconds of the processor and the peak memory; the seconds from the
client's start to the server's end; of one PDU at a time, how long it takes from a write to the
client's input until it is read from the server's output; and what processes take that only have a
connection open. All run on one machine, whose load is told first.
"""
import argparse
import contextlib
import os
import pathlib
import shutil
import socket
import statistics
import subprocess
import sys
import tempfile
import time

TOP = pathlib.Path(__file__).resolve().parent.parent
sys.path.insert(0, str(TOP / "tools"))
from nginx_front import Lacks, stream_module  # noqa: E402

HOST = "127.0.0.1"
SETTLE = 3
WARM = 20
PIECES = {"plain": "4096", "large": "32768"}
NGINX = """\
{module}daemon off;
master_process off;
pid {folder}/nginx.pid;
error_log {folder}/error.log;
events {{
}}
stream {{
    proxy_half_close on;
    server {{
        listen {listen};
        proxy_pass {to};
    }}
}}
"""


def pdu(length):
    header = bytes((5, 0, 0, 3, 16, 0, 0, 0)) + length.to_bytes(2, "little") + bytes((0, 0, 1, 0, 0, 0))
    return header + bytes(place % 256 for place in range(16, length))


def places(count):
    """Addresses at which nobody listens."""
    with contextlib.ExitStack() as held:
        sockets = [held.enter_context(socket.socket()) for _ in range(count)]
        for it in sockets:
            it.bind((HOST, 0))
        return [f"{HOST}:{it.getsockname()[1]}" for it in sockets]


def wait_for(place):
    """Waits until somebody listens there, and calls nobody."""
    port = f":{int(place.rpartition(':')[2]):04X}"
    while True:
        lines = pathlib.Path("/proc/net/tcp").read_text().splitlines()[1:]
        if any(it[1].endswith(port) and it[3] == "0A" for it in map(str.split, lines)):
            return
        time.sleep(0.01)


class Chain:
    """The processes of a run, the server first and the client last."""

    def __init__(self, options, kind, stdin, stdout):
        self.roles, self.names, self.front = [], [], None
        program = options.programs[kind]
        at, ins, outs = places(3)
        start = lambda *words, **how: self.start(words[0], [*program, *words], **how)
        start("server", at, stdin=subprocess.DEVNULL if stdin is not subprocess.PIPE else stdin, stdout=stdout)
        wait_for(at)
        if kind in PIECES:
            start("proxy", ins, at)
            wait_for(ins)
        elif kind == "nginx":
            self.start_nginx(options.folder, ins, at)
            wait_for(ins)
        else:
            start("inproxy", ins, "1")
            start("outproxy", outs, "1")
            wait_for(ins)
            wait_for(outs)
        self.begun = time.monotonic()
        start("client", *([at, ins, outs] if kind == "roles" else [ins]), stdin=stdin, stdout=subprocess.DEVNULL)

    def start(self, name, words, **how):
        self.names.append(name)
        self.roles.append(subprocess.Popen(words, **how))

    def start_nginx(self, folder, listen, to):
        file = folder / "nginx.conf"
        values = {"module": stream_module(), "folder": folder, "listen": listen, "to": to}
        file.write_text(NGINX.format(**values), encoding="utf-8")
        self.start("nginx", ["nginx", "-p", folder, "-c", file, "-e", folder / "error.log"])
        self.front = self.roles[-1]

    def end(self):
        """The seconds until the server's end, and of each its processor seconds and peak memory."""
        for role in self.roles:
            if role.stdin:
                role.stdin.close()
        figures = []
        for role in self.roles:
            if role is self.front:  # it would go on: the server has all by now
                role.terminate()
            _, status, usage = os.wait4(role.pid, 0)
            role.returncode = status
            if status:
                sys.exit(f"{role.args} ended with {status}")
            figures.append((usage.ru_utime + usage.ru_stime, usage.ru_maxrss / 1024))
            if role is self.roles[0]:
                took = time.monotonic() - self.begun
        return took, figures

    def seconds(self):
        """What each took of the processor up to now."""
        return [
            sum(int(it.read_text().split()[0]) for it in pathlib.Path(f"/proc/{role.pid}/task").glob("*/schedstat")) / 1e9
            for role in self.roles
        ]


def tell(label, chain, took, figures):
    parts = [f"{name} {cpu:.2f} s {peak:.0f} MB" for name, (cpu, peak) in zip(chain.names, figures)]
    total = sum(cpu for cpu, _ in figures)
    print(f"  {label:<6} {took:7.2f} s, processor {total:.2f} s: {', '.join(parts)}", flush=True)
    return total


def bulk(options, length, size):
    count = size // length
    print(f"{count:,} PDUs of {length:,} bytes, {count * length / 1e6:.0f} MB", flush=True)
    with tempfile.TemporaryFile() as file:
        for _ in range(count):
            file.write(pdu(length))
        file.flush()
        best = {}
        for _ in range(options.runs):
            for label in options.programs:
                file.seek(0)
                chain = Chain(options, label, file, subprocess.DEVNULL)
                total = tell(label, chain, *chain.end())
                best[label] = min(total, best.get(label, total))
    for other in [label for label in best if label != "roles"]:
        print(f"  processor, roles / {other}: {best['roles'] / best[other]:.1f}", flush=True)


def latency(options, length):
    print(f"one PDU of {length:,} bytes, one way", flush=True)
    for label in options.programs:
        chain = Chain(options, label, subprocess.PIPE, subprocess.PIPE)
        server, client = chain.roles[0], chain.roles[-1]
        times = []
        for _ in range(options.times + WARM):
            begun = time.monotonic()
            client.stdin.write(pdu(length))
            client.stdin.flush()
            server.stdout.read(length)
            times.append(1000 * (time.monotonic() - begun))
            time.sleep(0.01)
        times = sorted(times[WARM:])
        chain.end()
        ninth = times[len(times) * 9 // 10]
        print(f"  {label:<6} median {statistics.median(times):.2f} ms, 9 of 10 below {ninth:.2f} ms", flush=True)


def idle(options):
    print(f"idle for {options.idle} s", flush=True)
    chain = Chain(options, "roles", subprocess.PIPE, subprocess.PIPE)
    time.sleep(SETTLE)
    before = chain.seconds()
    time.sleep(options.idle)
    for name, one, two in zip(chain.names, before, chain.seconds()):
        print(f"  {name:<9} {1000 * (two - one):.1f} ms, {100 * (two - one) / options.idle:.3f} % of a processor", flush=True)
    chain.end()


def has_nginx():
    """Whether nginx is there with its stream module; what lacks is told."""
    try:
        return shutil.which("nginx") is not None and stream_module() is not None
    except Lacks as why:
        print(why)
        return False


def main():
    parser = argparse.ArgumentParser(description=__doc__, formatter_class=argparse.RawDescriptionHelpFormatter)
    parser.add_argument("--program", type=pathlib.Path, default=TOP / "crates/rh_roles/out/rh_roles")
    parser.add_argument("--large", type=int, default=200_000_000, help="bytes in PDUs of 8,000")
    parser.add_argument("--small", type=int, default=20_000_000, help="bytes in PDUs of 72")
    parser.add_argument("--times", type=int, default=200, help="PDUs whose way is timed")
    parser.add_argument("--idle", type=int, default=20, help="seconds of an idle connection")
    parser.add_argument("--runs", type=int, default=2, help="runs of each, in turns")
    options = parser.parse_args()
    with tempfile.TemporaryDirectory() as folder:
        plain = pathlib.Path(folder) / "relays"
        subprocess.run(["rustc", "-O", "-o", plain, TOP / "bench/relays.rs"], check=True)
        options.folder = pathlib.Path(folder)
        options.programs = {"roles": [options.program.resolve()]}
        options.programs |= {name: [plain, piece] for name, piece in PIECES.items()}
        if has_nginx():
            options.programs["nginx"] = options.programs["plain"]
        print(f"load {os.getloadavg()[0]:.1f} on {os.cpu_count()} processors", flush=True)
        bulk(options, 8000, options.large)
        bulk(options, 72, options.small)
        latency(options, 72)
        latency(options, 8000)
        idle(options)


if __name__ == "__main__":
    main()
