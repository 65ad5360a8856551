"""Slow clients: of heads, of answers, and very many connections of one address."""
import hashlib
import multiprocessing
import socket
import ssl
import subprocess
import time

from kit.judging import judge, same
from kit.waiting import comes
from trial import place
from trial.place import ask, connected, context, run

ATTACK = ["slowhttptest", "-H", "-c", "1000", "-r", "300", "-i", "5", "-l", "30", "-u", "https://localhost/web/"]


PATIENCE = 8
"""so many seconds a probe waits: less than nginx waits for a head, so that no end of an attacker makes room for it"""
HELD = 100
"""so many of the slow heads are an attack"""


def probes(path: str, count: int, every: float) -> list[tuple[int, float]]:
    """So many requests of another client, without a password: status (0 if none comes in time) and seconds."""
    seen = []
    for _ in range(count):
        began = time.monotonic()
        try:
            conn = place.connection("127.0.0.8", PATIENCE)
            conn.request("GET", path)
            status = conn.getresponse().status
            conn.close()
        except OSError:
            status = 0
        took = time.monotonic() - began
        seen.append((status, round(took, 2)))
        time.sleep(max(0.0, every - took))
    return seen


def slow_heads(count: int) -> None:
    """So many clients that name the site and send a line of a head every five seconds. One that is ended comes again."""
    any_name = ssl.create_default_context()
    any_name.check_hostname, any_name.verify_mode = False, ssl.CERT_NONE
    clients: list[ssl.SSLSocket] = []
    sent = time.monotonic()
    while True:
        if len(clients) < count:
            try:
                conn = any_name.wrap_socket(connected("127.0.0.7"), server_hostname="localhost")
                conn.sendall(b"GET / HTTP/1.1\r\nHost: localhost\r\n")
                clients.append(conn)
            except OSError:
                time.sleep(0.05)
        if len(clients) == count or time.monotonic() - sent > 5:
            sent = time.monotonic()
            clients = [conn for conn in clients if goes_on(conn)]
            time.sleep(0.2)


def goes_on(conn: ssl.SSLSocket) -> bool:
    try:
        conn.sendall(b"X-A: b\r\n")
        return True
    except OSError:
        conn.close()
        return False


def held() -> int:
    """How many connections nginx holds at port 443."""
    return len(run("ss -Htn state established '( sport = :443 )'").stdout.splitlines())


def heads(folder: str) -> None:
    """Without the rules of nftables, which would let 64 of these connections through."""
    run("nft delete table inet office")
    path = f"{folder}web/"
    print("    probes before:", probes(path, 4, 0.5))
    attack = subprocess.Popen(ATTACK, stdin=subprocess.DEVNULL, stdout=subprocess.DEVNULL, stderr=subprocess.STDOUT)
    answered("slowhttptest with 1,000 connections", probes(path, 12, 2.5))
    attack.terminate()
    attack.wait()
    slow = multiprocessing.Process(target=slow_heads, args=(1000,), daemon=True)
    slow.start()
    judge("nginx holds slow heads", comes(lambda: held() >= HELD, 120), held())
    print(f"    slow heads that nginx holds: {held()}")
    answered("slow heads that name the site", probes(path, 12, 1))
    print(f"    slow heads that nginx holds: {held()}")
    slow.terminate()
    slow.join()
    log = run("cat /var/log/nginx/error.log").stdout
    same("no worker was out of connections", log.count("worker_connections are not enough"), 0)
    run("nft -f /etc/office.nft")


def answered(attack: str, seen: list[tuple[int, float]]) -> None:
    print("    probes:", seen)
    same(f"{attack}: 12 of 12 probes are answered", [status for status, _ in seen], [401] * 12)


def connections() -> None:
    """The rule of 64 connections for each address."""
    taken, refused = [], 0
    for _ in range(80):
        try:
            taken.append(connected("127.0.0.9"))
        except OSError:
            refused += 1
    same("80 connections of one address: taken, refused", (len(taken), refused), (64, 16))
    same("another address is served", ask("GET", "/nothing", source="127.0.0.10").status, 404)
    for it in taken:
        it.close()


# as long as the list of 200,000 due records with refs of 200 bytes
LONG = b'{"action":"destroy","class":"PER-APP","confirmed":false,"due":"2019-01-30","ref":"' + b"r" * 200 + b'"},\n'
LONG = LONG * (66_000_000 // len(LONG))
OTHER = ("curl --silent --output /dev/null --write-out '%{http_code} %{size_download}' --max-time 30 "
         f'--cacert {place.CERTIFICATE} --user registrar:"$PASSWORD" https://localhost')


def slow_reader(path: str, name: str = "registrar", source: str = "127.0.0.1") -> ssl.SSLSocket:
    """A client that asks and does not read."""
    conn = socket.socket()
    conn.setsockopt(socket.SOL_SOCKET, socket.SO_RCVBUF, 4096)
    conn.bind((source, 0))
    conn.connect(("127.0.0.1", 443))
    slow = context().wrap_socket(conn, server_hostname="localhost")
    who = "\r\n".join(f"{field}: {value}" for field, value in place.authorization(name).items())
    slow.sendall(f"GET {path} HTTP/1.1\r\nHost: localhost\r\n{who}\r\n\r\n".encode())
    return slow


def long_answer(folder: str, port: int) -> None:
    """A long answer to a client that does not read keeps nobody waiting, and needs no file of nginx."""
    stand_in = place.StandIn(port, LONG)
    slow = slow_reader(f"{folder}due/2025-01-03")
    judge("the office is asked for a long answer", comes(lambda: stand_in.targets, 60))
    began = time.monotonic()
    other = run(f"{OTHER}{folder}records/1").stdout
    print(f"    {len(LONG)} bytes to a client that does not read: the office was busy for {stand_in.longest:.1f} "
          f"seconds, another client was answered after {time.monotonic() - began:.1f}")
    same(f"a client that does not read {len(LONG)} bytes keeps nobody waiting", other, "200 2")
    slow.close()
    stand_in.end()


def compressed(folder: str, port: int) -> None:
    """A list is sent compressed to a reader that takes that, and is the same."""
    with place.StandIn(port, LONG[:1_000_000]):
        call = (f"curl --silent --compressed --dump-header /run/head --cacert {place.CERTIFICATE} "
                f"--user registrar:\"$PASSWORD\" https://localhost{folder}due/2025-01-03 | sha256sum")
        seen, head = run(call).stdout, run("cat /run/head").stdout
    same("a list is compressed, and is the same", ("Content-Encoding: gzip" in head, seen[:64]),
         (True, hashlib.sha256(LONG[:1_000_000]).hexdigest()))


def lists_at_once(folder: str, port: int) -> None:
    """An address has four long answers at once for a name, and more of all else."""
    with place.StandIn(port, LONG[:20_000_000]) as stand_in:
        taken = [slow_reader(f"{folder}due/2025-01-03", source="127.0.0.11") for _ in range(4)]
        until = time.monotonic() + 60
        while len(stand_in.targets) < len(taken) and time.monotonic() < until:
            time.sleep(0.1)
        for name, path, who, source, status in (
            ("a fifth list is refused", "overdue/2025-01-03/30", "registrar", "127.0.0.11", 429),
            ("a certificate too", "certificates/1", "registrar", "127.0.0.11", 429),
            ("a record is not", "records/1", "registrar", "127.0.0.11", 200),
            ("nor a list for another name", "due/2025-01-03", "reader", "127.0.0.11", 200),
            ("nor one at another address", "due/2025-01-03", "registrar", "127.0.0.12", 200),
        ):
            same(name, ask("GET", folder + path, name=who, source=source).status, status)
        for it in taken:
            it.close()
