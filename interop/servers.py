"""The servers: each in a temporary folder, at an unprivileged port of the loopback, with the keys and zones that it is
given, until the `with` block ends."""

import base64
import os
import shutil
import socket
import subprocess
import time

import dns.rdatatype

import messages
import paddlesepia
import zones

START_TIMEOUT = 60
STOP_TIMEOUT = 10

ALGORITHM_NAMES = {hash_function: f"hmac-{hash_function.name.lower()}" for hash_function in paddlesepia.Hash}


class Missing(Exception):
    """A program isn't installed."""


def program(name):
    """The path of a program, which may stand where only an administrator's path leads."""
    path = shutil.which(name) or shutil.which(name, path="/usr/local/sbin:/usr/sbin:/sbin")
    if path is None:
        raise Missing(f"{name} isn't installed")
    return path


def run(folder, name, *arguments):
    """What a program prints that runs in a folder and has to succeed."""
    done = subprocess.run([program(name), *arguments], cwd=folder, capture_output=True, text=True, check=False)
    if done.returncode != 0:
        raise RuntimeError(f"{name} ended with status {done.returncode}: {done.stderr.strip()[-500:]}")
    return done.stdout


def free_port():
    """A port of the loopback at which nothing listens, by UDP and by TCP."""
    while True:
        with socket.socket(socket.AF_INET, socket.SOCK_STREAM) as by_tcp, socket.socket(
            socket.AF_INET, socket.SOCK_DGRAM
        ) as by_udp:
            by_tcp.bind(("127.0.0.1", 0))
            port = by_tcp.getsockname()[1]
            try:
                by_udp.bind(("127.0.0.1", port))
            except OSError:
                continue
            return port


def rsa_bits(zone):
    """The arguments by which a key of RSA is given its length."""
    return ["-b", "2048"] if zone.algorithm.startswith("RSA") else []


class Server:
    """A server that is started by `with`. `keys` are TSIG keys by their hash; `texts` are the zones to be served as
    they are, by their names; those of `signed_zones` are signed by the server's tools."""

    name = ""
    has_updates = True

    def __init__(self, folder, keys, texts, signed_zones):
        self.folder = folder
        self.keys = keys
        self.texts = texts
        self.signed_zones = signed_zones
        self.port = free_port()
        self.not_signed = ""  # why there are no signed zones
        self.key_signing = {}  # the name of the files of each zone's key signing key, where tools make it
        self.process = None

    # ---- what each server has of its own

    def command(self):
        """The command that runs the server in the foreground."""
        raise NotImplementedError

    def configuration(self):
        """The name and the text of the configuration."""
        raise NotImplementedError

    def sign(self, zone):
        """Signs a zone, whose text stands in its file."""
        raise NotImplementedError

    def digests(self, zone):
        """The DS records of a zone's key signing key, as the server's tools print them: texts of their data."""
        raise NotImplementedError

    # ---- started and stopped

    def __enter__(self):
        try:
            self.start()
        except BaseException:
            self.stop()
            raise
        return self

    def __exit__(self, *_):
        self.stop()

    def start(self):
        command = self.command()
        for zone, text in self.texts.items():
            self.write(self.zone_file(zone), text)
        try:
            for zone in self.signed_zones:
                self.write(self.zone_file(zone.name), zones.unsigned_zone(zone))
                self.sign(zone)
        except Missing as missing:
            self.signed_zones, self.not_signed = (), str(missing)
        self.write(*self.configuration())
        with open(self.path("output"), "wb") as output:
            self.process = subprocess.Popen(
                command, cwd=self.folder, stdin=subprocess.DEVNULL, stdout=output, stderr=output
            )
        for zone in self.texts:
            self.wait_for(zone, dns.rdatatype.SOA)
        for zone in self.signed_zones:
            self.wait_for(zone.name, dns.rdatatype.RRSIG)

    def wait_for(self, zone, rdtype):
        """Waits until the server answers the question for a zone's SOA with a record of this type."""
        request = messages.query(zone, "SOA", dnssec=True)
        end = time.monotonic() + START_TIMEOUT
        while time.monotonic() < end:
            if self.process.poll() is not None:
                raise RuntimeError(f"{self.name} ended at its start: {self.log()}")
            try:
                answer = messages.read(messages.ask_by_tcp(self.port, request))
                if any(records.rdtype == rdtype for records in answer.answer):
                    return
            except OSError:
                pass
            time.sleep(0.1)
        raise RuntimeError(f"{self.name} doesn't serve {zone}: {self.log()}")

    def stop(self):
        if self.process is not None:
            self.process.terminate()
            try:
                self.process.wait(STOP_TIMEOUT)
            except subprocess.TimeoutExpired:
                self.process.kill()
                self.process.wait()

    # ---- files

    def path(self, name):
        return os.path.join(self.folder, name)

    def write(self, name, text):
        with open(self.path(name), "w", encoding="ascii") as file:
            file.write(text)

    def log(self):
        """The end of what the server wrote."""
        with open(self.path("output"), encoding="utf-8", errors="replace") as file:
            return file.read()[-1000:]

    def zone_file(self, zone):
        return f"{zone}zone"

    def zone_names(self):
        """The names of all zones."""
        return [*self.texts, *(zone.name for zone in self.signed_zones)]

    def key_texts(self):
        """Name, algorithm and secret of each key, as configurations have them."""
        for key in self.keys.values():
            secret = base64.b64encode(key.key).decode()
            yield paddlesepia.name_to_text(key.name), ALGORITHM_NAMES[key.hash], secret


class Bind(Server):
    """named of BIND. Zones are signed by dnssec-signzone."""

    name = "BIND"

    def command(self):
        return [program("named"), "-g", "-n", "1", "-c", self.path("named.conf")]

    def configuration(self):
        keys = list(self.key_texts())
        names = "".join(f' key "{name}";' for name, _, _ in keys)
        parts = [
            f'options {{ directory "{self.folder}"; pid-file "named.pid"; session-keyfile "session.key";'
            f" listen-on port {self.port} {{ 127.0.0.1; }}; listen-on-v6 {{ none; }}; recursion no; notify no;"
            " dnssec-validation no; minimal-responses no; max-udp-size 4096; };",
            "controls { };",
        ]
        for name, algorithm, secret in keys:
            parts.append(f'key "{name}" {{ algorithm {algorithm}; secret "{secret}"; }};')
        for zone in self.zone_names():
            access = f"allow-transfer {{{names} }};"
            if zone == zones.UPDATE:
                access += f" allow-update {{{names} }};"
            parts.append(f'zone "{zone}" {{ type primary; file "{self.zone_file(zone)}"; {access} }};')
        return "named.conf", "\n".join(parts) + "\n"

    def sign(self, zone):
        key = ["dnssec-keygen", "-q", "-a", zone.algorithm, *rsa_bits(zone)]
        run(self.folder, *key, zone.name)
        self.key_signing[zone] = run(self.folder, *key, "-f", "KSK", zone.name).strip()
        file = self.zone_file(zone.name)
        denial = ["-3", "aabbccdd", "-H", "5"] if zone.denial == "NSEC3" else []
        run(self.folder, "dnssec-signzone", "-q", "-S", *denial, "-o", zone.name, "-f", f"{file}.signed", file)
        os.replace(self.path(f"{file}.signed"), self.path(file))

    def digests(self, zone):
        for digest in ("SHA-1", "SHA-256", "SHA-384"):
            yield run(self.folder, "dnssec-dsfromkey", "-a", digest, self.key_signing[zone]).split(" DS ")[1]


class Knot(Server):
    """knotd of Knot DNS, which makes the keys and signs zones itself."""

    name = "Knot"

    def command(self):
        return [program("knotd"), "-c", self.path("knot.conf")]

    def configuration(self):
        keys = list(self.key_texts())
        lines = [
            "server:",
            f"    rundir: {self.folder}",
            f"    listen: 127.0.0.1@{self.port}",
            "    udp-workers: 1",
            "    tcp-workers: 1",
            "    background-workers: 1",
            "database:",
            f"    storage: {self.folder}",
            "log:",
            "  - target: stderr",
            "    any: info",
            "key:",
        ]
        for name, algorithm, secret in keys:
            lines += [f"  - id: {name}", f"    algorithm: {algorithm}", f"    secret: {secret}"]
        names = ", ".join(name for name, _, _ in keys)
        lines += ["acl:"]
        for action in ("transfer", "update"):
            lines += [f"  - id: {action}", "    address: 127.0.0.1", f"    key: [{names}]", f"    action: {action}"]
        lines += ["policy:"]
        for zone in self.signed_zones:
            lines += [
                f"  - id: {zone.name}",
                f"    algorithm: {zone.algorithm.lower()}",
                f"    nsec3: {'on' if zone.denial == 'NSEC3' else 'off'}",
                "    nsec3-iterations: 5",
                "    nsec3-salt-length: 4",
            ]
        lines += ["zone:"]
        for name in self.texts:
            acl = "transfer, update" if name == zones.UPDATE else "transfer"
            lines += [f"  - domain: {name}", f"    file: {self.path(self.zone_file(name))}", f"    acl: [{acl}]"]
        for zone in self.signed_zones:
            lines += [
                f"  - domain: {zone.name}",
                f"    file: {self.path(self.zone_file(zone.name))}",
                "    zonefile-sync: -1",
                "    dnssec-signing: on",
                f"    dnssec-policy: {zone.name}",
            ]
        return "knot.conf", "\n".join(lines) + "\n"

    def sign(self, zone):
        """Nothing: the server does so at its start."""

    def digests(self, zone):
        for line in run(self.folder, "keymgr", "-c", self.path("knot.conf"), zone.name, "ds").splitlines():
            yield line.split(" DS ")[1]


class Nsd(Server):
    """nsd of NSD. Zones are signed by ldns-signzone, since NSD has no signer."""

    name = "NSD"
    has_updates = False

    def command(self):
        return [program("nsd"), "-d", "-c", self.path("nsd.conf")]

    def configuration(self):
        keys = list(self.key_texts())
        lines = [
            "server:",
            f"    ip-address: 127.0.0.1@{self.port}",
            "    server-count: 1",
            '    username: ""',
            f'    zonesdir: "{self.folder}"',
            '    database: ""',
            f'    pidfile: "{self.path("nsd.pid")}"',
            f'    xfrdfile: "{self.path("xfrd.state")}"',
            f'    xfrdir: "{self.folder}"',
            f'    zonelistfile: "{self.path("zone.list")}"',
            "    rrl-ratelimit: 0",
            "remote-control:",
            "    control-enable: no",
        ]
        for name, algorithm, secret in keys:
            lines += ["key:", f'    name: "{name}"', f"    algorithm: {algorithm}", f'    secret: "{secret}"']
        for zone in self.zone_names():
            lines += ["zone:", f'    name: "{zone}"', f'    zonefile: "{self.zone_file(zone)}"']
            lines += [f'    provide-xfr: 127.0.0.1 "{name}"' for name, _, _ in keys]
        return "nsd.conf", "\n".join(lines) + "\n"

    def sign(self, zone):
        key = ["ldns-keygen", "-a", zone.algorithm, *rsa_bits(zone)]
        signing = run(self.folder, *key, zone.name).strip()
        self.key_signing[zone] = run(self.folder, *key, "-k", zone.name).strip()
        file = self.zone_file(zone.name)
        denial = ["-n", "-t", "5", "-s", "aabbccdd"] if zone.denial == "NSEC3" else []
        keys = [self.key_signing[zone], signing]
        run(self.folder, "ldns-signzone", *denial, "-o", zone.name, "-f", f"{file}.signed", file, *keys)
        os.replace(self.path(f"{file}.signed"), self.path(file))

    def digests(self, zone):
        for digest in ("-1", "-2"):
            yield run(self.folder, "ldns-key2ds", "-n", digest, f"{self.key_signing[zone]}.key").split("\tDS\t")[1]


SERVERS = (Bind, Knot, Nsd)
