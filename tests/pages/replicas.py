"""docs/REPLICAS.md: a row for each of its commands, and in between what systemd and the other two machines would do."""
import os
import shutil
import signal
import subprocess
import time

from pages.expected import Row, run_page
from kit.judging import judge
from pages.machines import Machines, act, wait_until
from pages.shell import Shell

PAGE = "docs/REPLICAS.md"
FIRST_ANSWERS = r'\[\{"done":true\},\{"done":true\},\{"number":1\},\{"number":1\},\{"done":true\},\{"number":1\}\]'
STEP = "curl --fail --silent --retry 20 --header 'Idempotency-Key: 7f0c' --data '[{\"act\":\"run-step\"}]'"
MADE = """machine 1: settings in three/m1/settings.json, etcd at 127.0.0.1:9001
machine 2: settings in three/m2/settings.json, etcd at 127.0.0.1:9002
machine 3: settings in three/m3/settings.json, etcd at 127.0.0.1:9003
companions/members/found three/m1/settings.json
founded city
cp -r three/m1/snapshots three/m2/
cp -r three/m1/snapshots three/m3/
"""
HOLD = b'[{"act":"place-hold","day":"2030-01-02","code":"H-1","reason":"A lawsuit","by":"counsel"}]'
HERE = Machines()


def etcd_starts(shell: Shell) -> None:
    """In place of systemd: etcd of archive1 with the file of the page, and those of the two other machines."""
    HERE.begin(shell)
    for number in (1, 2, 3):
        HERE.start_etcd(number)
    healthy = wait_until(lambda: shell.run("office-etcdctl endpoint health").status == 0)
    judge(f"{PAGE}: etcd of the page's file and unit starts", healthy, shell.path("etcd1.log").read_text()[-500:])


def members_start(shell: Shell) -> None:
    """In place of systemd: the member of archive1 as its unit calls it; the others begin with its snapshot."""
    copied = shell.path("second/snapshots/0000000000000000/sums").exists()
    judge(f"{PAGE}: the second machine has the snapshot", copied)
    shutil.copytree(shell.path("second"), shell.path("third"))
    for number in (1, 2, 3):
        HERE.start_member(number)
    judge(f"{PAGE}: all three members answer", all(HERE.answers(number) for number in (1, 2, 3)),
          shell.path("member1.log").read_text())
    told = act(2, shell.path("examples/first/acts.json").read_bytes())
    judge(f"{PAGE}: an act at the second machine is done", told.status == 200, f"{told}")


def nginx_passes_keys(shell: Shell) -> None:
    """In place of systemd: the site, with the lines of the page; the key of a client comes to the member and back."""
    done = shell.run("nginx")
    call = ("curl --silent --include --cacert /etc/nginx/office/office.crt --user 'registrar:a long one' "
            "--header 'Origin: https://localhost'")
    for words, wanted in (("--header 'Idempotency-Key: n-1' --data-binary '[]' https://localhost/acts", "200"),
                          ("--header 'Idempotency-Key: n-2' --request POST https://localhost/run/resume", "200"),
                          ("--header 'Office-Read: newest' https://localhost/records/1", "200"),
                          ("--header 'Office-After: x' https://localhost/records/1", "400")):
        done = shell.run(f"{call} {words}")
        passed_on = words.split("'")[1].lower() in done.out.lower() or "Idempotency" not in words
        judge(f"{PAGE}: nginx passes on: {words}", f" {wanted} " in done.out[:20] and passed_on, done.out + done.err)
    shell.run("nginx -s quit")


def prepare_nginx(shell: Shell) -> None:
    """What docs/SERVICE.md does for one office, at the port of the member."""
    for command in (
            "mkdir -p /etc/nginx/office /var/log/office /etc/nginx/sites-available",
            "cp deploy/nginx/http.conf deploy/nginx/server.conf deploy/nginx/actors.conf /etc/nginx/office/",
            "cp deploy/nginx/vault.conf deploy/nginx/vaults.conf /etc/nginx/office/",
            "cp deploy/nginx/acts.js /etc/nginx/office/",
            "sed 's/8080/8181/' deploy/nginx/office.conf > /etc/nginx/sites-available/office",
            "ln -sf ../sites-available/office /etc/nginx/sites-enabled/office",
            "rm -f /etc/nginx/sites-enabled/default",
            "openssl req -x509 -newkey ec -pkeyopt ec_paramgen_curve:P-256 -nodes -days 9 -subj /CN=localhost "
            "-addext subjectAltName=DNS:localhost -keyout /etc/nginx/office/office.key "
            "-out /etc/nginx/office/office.crt",
            "htpasswd -ciB -C 10 /etc/nginx/office/office.htpasswd registrar <<< 'a long one'",
            "chgrp www-data /etc/nginx/office/office.htpasswd", "chmod 640 /etc/nginx/office/office.htpasswd"):
        done = shell.run(command)
        if done.status != 0:
            judge(f"{PAGE}: {command}", False, done.err)


def rules_load(shell: Shell) -> None:
    done = shell.run("nft --check --file /etc/office-member.nft")
    judge(f"{PAGE}: nft takes the rules", done.status == 0, done.err)


def third_burns(shell: Shell) -> None:
    """The machine archive3 goes for good, with its folders. archive2 starts anew at that moment: so etcd takes no new
    machine for some seconds, and the page's commands have to wait for it."""
    HERE.kill(3)
    HERE.kill(2)
    shutil.rmtree(shell.path("third"))
    shutil.rmtree(shell.path("etcd3"))
    HERE.start_etcd(2)
    wait_until(lambda: HERE.is_healthy(2))
    HERE.start_member(2)
    told = act(1, b"[]")
    judge(f"{PAGE}: the two others go on", told.status == 200, f"{told}")


def third_is_new(shell: Shell) -> None:
    """The new machine archive3, with the line of the page in its file."""
    said = "ETCD_INITIAL_CLUSTER_STATE=existing" in open("/etc/office/etcd.conf").read().splitlines()
    HERE.start_etcd(3, "existing")
    judge(f"{PAGE}: the new machine's etcd joins", said and wait_until(lambda: HERE.is_healthy(3)),
          shell.path("etcd3.log").read_text()[-500:])


def third_was_stolen(shell: Shell) -> None:
    """In place of systemd: etcd of archive1 starts anew with the list. The new machine archive3 gets a new key."""
    HERE.kill(1)
    HERE.start_etcd(1)
    HERE.start_member(1)
    listed = shell.run("openssl crl -in /etc/office/etcd/ca.crl -noout -text")
    judge(f"{PAGE}: the list has one certificate", listed.out.count("Serial Number") == 1, listed.out)
    done = shell.run("companions/members/setup/certificates certificates archive3=192.0.2.13")
    judge(f"{PAGE}: archive3 gets a new key", done.out == "archive3: made\n", done.out + done.err)
    HERE.kill(3)
    HERE.start_etcd(3, "existing")
    judge(f"{PAGE}: with it etcd of archive3 joins", wait_until(lambda: HERE.is_healthy(1) and HERE.is_healthy(3)),
          shell.path("etcd3.log").read_text()[-500:])


def third_joins(shell: Shell) -> None:
    """On the new machine: the folder that was copied goes to its place."""
    os.makedirs(shell.path("third/snapshots"))
    (name,) = os.listdir(shell.path("second/coming"))
    os.rename(shell.path(f"second/coming/{name}"), shell.path(f"third/snapshots/{name}"))
    HERE.start_member(3)
    judge(f"{PAGE}: the new member answers", HERE.answers(3), shell.path("member3.log").read_text())
    told = act(3, b'[{"act":"run-step"}]')
    judge(f"{PAGE}: and takes acts", told.status in (200, 409), f"{told}")


def two_burn(_: Shell) -> None:
    """archive2 and archive3 go for good; POST is 503 then, and GETs go on."""
    HERE.kill(2)
    HERE.kill(3)
    wait_until(lambda: b"quorum" in act(1, b"[]").body)
    told = act(1, b"[]")
    judge(f"{PAGE}: a POST at the third is 503 quorum", told == (503, b'{"error":"quorum"}'), f"{told}")
    judge(f"{PAGE}: and GETs go on", HERE.get(1, "/records/1") == 200)
    HERE.kill(1)


def etcd_restarts(_: Shell) -> None:
    """In place of systemd: the one etcd that is left starts anew with the page's file."""
    HERE.kill(1)
    HERE.start_etcd(1)
    wait_until(lambda: HERE.is_healthy(1))


def one_goes_on(shell: Shell) -> None:
    HERE.start_member(1)
    judge(f"{PAGE}: the one that is left answers", HERE.answers(1), shell.path("member1.log").read_text())
    told = act(1, b'[{"act":"run-step"}]')
    judge(f"{PAGE}: and takes acts", told.status in (200, 409), f"{told}")
    for number in (2, 3):
        done = shell.run(f"office-etcdctl del /office/city/members/archive{number}")
        judge(f"{PAGE}: archive{number} is struck off", done.out == "1\n", done.out + done.err)


def acts_wait(_: Shell) -> None:
    told = act(1, b"[]")
    judge(f"{PAGE}: until etcd of archive2 has started, acts are 503", told.status == 503, f"{told}")


def joined(shell: Shell, number: int, folder: str) -> None:
    """A new machine in place of a lost one, with the page's file of etcd and a snapshot of archive1."""
    shutil.rmtree(shell.path(f"etcd{number}"))
    shutil.rmtree(shell.path(folder))
    HERE.start_etcd(number, "existing")
    judge(f"{PAGE}: etcd of archive{number} joins the one that is left", wait_until(lambda: HERE.is_healthy(number)),
          shell.path(f"etcd{number}.log").read_text()[-500:])
    snapshots = "/var/lib/office-member/city/snapshots"
    newest = max(it for it in os.listdir(snapshots) if it.isdigit())
    shutil.copytree(f"{snapshots}/{newest}", shell.path(f"{folder}/snapshots/{newest}"))
    HERE.start_member(number)
    judge(f"{PAGE}: the member of archive{number} answers", HERE.answers(number),
          shell.path(f"member{number}.log").read_text()[-500:])


def both_are_new(shell: Shell) -> None:
    """archive2 is new with the line of the page, then archive3 as the page says for one machine."""
    joined(shell, 2, "second")
    done = shell.run("office-etcdctl member add archive3 --peer-urls=https://192.0.2.13:2380")
    judge(f"{PAGE}: etcd takes archive3 once archive2 has joined", done.status == 0, done.out + done.err)
    shell.run("sed -i '/^ETCD_INITIAL_CLUSTER=/s|$|,archive3=https://192.0.2.13:2380|' /etc/office/etcd.conf")
    joined(shell, 3, "third")
    told = [act(number, b'[{"act":"run-step"}]') for number in (1, 2, 3)]
    judge(f"{PAGE}: three machines take acts again", all(it.status in (200, 409) for it in told), f"{told}")


def snapshot_now(_: Shell, acts: bytes = b"[]") -> None:
    """In place of systemd: what ExecReload= of the unit does, after these acts."""
    folder = "/var/lib/office-member/city/snapshots"
    before = sorted(os.listdir(folder))[-1]
    told = act(1, acts)
    judge(f"{PAGE}: before the snapshot acts are done", told.status == 200, f"{told}")
    HERE.signal(1, signal.SIGHUP)
    judge(f"{PAGE}: SIGHUP makes a snapshot", wait_until(lambda: max(
        it for it in os.listdir(folder) if it.isdigit()) > before), f"{os.listdir(folder)}")
    # until the copy is told apart from the folder that is being made
    time.sleep(0.5)


def is_copy(shell: Shell) -> None:
    done = shell.run("office init copies/city.db && office certificate copies/city.db 1 | head -1")
    judge(f"{PAGE}: the copy is an office, with its certificate", done.out == "version 2\nCERTIFICATE 1\n", f"{done}")
    snapshot_now(shell, HOLD)
    # the scripts are where docs/SERVICE.md puts them
    shell.run("install -m 755 $(ls -d companions/office-* | grep -v @) /usr/local/bin/")


def is_compared(shell: Shell) -> None:
    """The file that the page names has the hold that was placed after the copy."""
    text = shell.path("compared.since").read_text()
    judge(f"{PAGE}: compared.since has the hold", "\nplace-hold\tH-1\tA lawsuit (counsel)\t2030-01-02\n" in text, text)


def refused_while_open(shell: Shell) -> None:
    """What the page says of a member that runs: nothing is written anew."""
    compact = "runuser -u office-member -- office-compact /var/lib/office-member/city/work/office.db"
    done = shell.run(compact)
    refused = done.status == 1 and "office.db open: stop" in done.err
    judge(f"{PAGE}: while the member runs: {compact}", refused, f"{done}")


def member_stops(shell: Shell) -> None:
    """In place of systemd: the member of archive1 ends."""
    refused_while_open(shell)
    HERE.stop_member(1)


def member_goes_on(shell: Shell) -> None:
    """In place of systemd, after the compaction, or where it is the one that is left."""
    HERE.start_member(1)
    judge(f"{PAGE}: the member answers with the FILE that was written anew",
          HERE.answers(1) and "opened at" in shell.path("member1.log").read_text().splitlines()[-2],
          shell.path("member1.log").read_text()[-500:])


def is_step_once(shell: Shell) -> None:
    """The first look: the last answer is the one that another machine gave."""
    judge(f"{PAGE}: the step was done once",
          shell.run("curl --silent http://127.0.0.1:8091/certificates/1").out == '{"error":"certificate"}')


ROWS = [
    Row("companions/members/setup/three make three", prints=MADE),
    Row("companions/members/setup/three start three 1", prints=""),
    Row("companions/members/setup/three start three", prints=""),
    Row("curl --silent --data-binary @examples/first/acts.json", like=FIRST_ANSWERS),
    Row("companions/members/setup/three kill three 1"),
    Row("curl --fail --silent --retry 20 --header 'Office-Read: newest'", like=r'\{"added":"2022-01-03",.*\}'),
    Row(f"{STEP} http://127.0.0.1:8093", prints='[{"outcome":"destroyed","record":1}]'),
    Row(f"{STEP} http://127.0.0.1:8091", prints='[{"outcome":"destroyed","record":1}]', then=is_step_once),
    Row("companions/members/setup/three stop three"),
    Row("apt-get", skip="the packages are there"),
    Row("office-replicas-setup", skip="tests/replicas/package calls it"),
    Row("office-replicas-renew", skip="tests/replicas/package calls it"),
    Row("/usr/lib/office-replicas/certificates", skip="tests/replicas/package calls it"),
    Row("systemctl disable", skip="without systemd"),
    Row("./office install /usr/local/bin"),
    Row("adduser"),
    Row("mkdir -p /etc/office/etcd"),
    Row("cp -r companions/members/member"),
    Row("cp -r deploy/systemd/office-.service.d"),
    Row("cp companions/members/units/office-etcd.service"),
    Row("cp companions/members/units/office-etcd-defrag"),
    Row("cp companions/members/setup/etcd.conf"),
    Row("install -m 755 companions/members/setup/office-etcdctl"),
    Row("install -d -m 755 /var/lib/office-member"),
    Row("install -d -o office-member -g office-member -m 700"),
    Row("systemd-analyze verify"),
    Row("companions/members/setup/certificates certificates revoke", prints="archive3: revoked\n"),
    Row("companions/members/setup/certificates certificates", prints="archive1: made\narchive2: made\narchive3: made\n"),
    Row("install -m 644 certificates/ca.crt"),
    Row("install -m 644 certificates/ca.crl"),
    Row("install -m 644 certificates/archive1.crt"),
    Row("install -m 640 -g office-etcd certificates/archive1.key"),
    Row("systemctl daemon-reload", skip="without systemd"),
    Row("systemctl enable --now office-etcd", skip="without systemd", then=etcd_starts),
    Row("office-etcdctl endpoint health"),
    Row("runuser -u office-member -- /usr/local/lib/office-replicas/found /etc/office/city.json /var",
        skip="the log begins with a new office here"),
    Row("find /var/lib/office/city -maxdepth 1", skip="the log begins with a new office here"),
    Row("sed -i '/8180-8199/", then=rules_load),
    Row("runuser -u office-member -- /usr/local/lib/office-replicas/found", prints="founded city\n"),
    Row("systemctl mask", skip="without systemd"),
    Row("rsync --archive /var/lib/office-member/city/snapshots second/"),
    Row("systemctl enable --now office-member@city", skip="without systemd", then=members_start),
    Row("runuser -u office -- curl --silent http://127.0.0.1:8181/replica", like=r'\{"answers":true,.*\}',
        then=prepare_nginx),
    Row("runuser -u office -- curl --silent --fail http://127.0.0.1:8181/metrics", like=r"# HELP office_member_answers .*"),
    Row("runuser -u office-member -- /usr/local/lib/office-replicas/refuse", skip="no entry fails here"),
    Row("cp companions/members/setup/nginx.conf"),
    Row("sed -i '$a include"),
    Row("sed -i 's|proxy_pass_request_body"),
    Row("nginx -t", then=nginx_passes_keys),
    Row("cp companions/members/setup/office-member.nft", then=rules_load),
    Row("nft -f /etc/office-member.nft", skip="these rules would close the port that is asked next"),
    Row("echo 'include \"/etc/office-member.nft\"' >> /etc/nftables.conf"),
    Row("office-etcdctl alarm list", prints=""),
    Row("office-etcdctl get --prefix /office/city/members", like=r"(/office/city/members/archive\d\n0\n){3}"),
    Row("office-etcdctl get /office/city/tail", like=r"\d+\n"),
    Row("journalctl", skip="without systemd"),
    Row("office-etcdctl del /office/city/members/archive3", prints="1\n", then=third_burns),
    Row("office-etcdctl member remove", like=r"Member \w+ removed from cluster \w+\n"),
    Row("office-etcdctl member add archive3"),
    Row("sed -i 's/^ETCD_INITIAL_CLUSTER_STATE=new/", then=third_is_new),
    Row("systemctl restart office-etcd.service", skip="without systemd", then=third_was_stolen),
    Row("systemctl restart office-etcd office-member@city", skip="without systemd"),
    Row("rsync --archive $(ls -d", then=third_joins),
    Row("systemctl stop office-member@city.service", skip="without systemd", then=member_stops),
    Row("systemctl stop office-member@city", skip="without systemd", then=two_burn),
    Row("echo ETCD_FORCE_NEW_CLUSTER=true"),
    Row("systemctl restart office-etcd", skip="without systemd", then=etcd_restarts),
    Row("sed -i /ETCD_FORCE_NEW_CLUSTER/d"),
    Row("systemctl start office-member@city.service", skip="without systemd", then=member_goes_on),
    Row("systemctl start office-member@city", skip="without systemd", then=one_goes_on),
    Row("office-etcdctl member add archive2", then=acts_wait),
    Row("sed -i '/^ETCD_INITIAL_CLUSTER=/", then=both_are_new),
    Row("systemctl reload office-member@city", skip="without systemd", then=snapshot_now),
    Row("cp $(ls -d /var/lib/office-member", then=is_copy),
    Row("office-since", prints="1\tholds to place again, and targets to put on again\n", status=1, then=is_compared),
    Row("office-etcdctl defrag"),
    Row("office-etcdctl alarm disarm"),
    Row("runuser -u office-member -- office-compact", like=r".*: the same\n.*the old file.*|.*the same\n.*"),
    Row("find /var/lib/office-member/city/work -name 'office.db.before-*' -delete"),
]


def run(shell: Shell) -> None:
    os.environ.pop("OFFICE", None)
    shell.env.pop("OFFICE", None)
    shell.run("./office install /usr/local/bin")
    try:
        run_page(shell, PAGE, ROWS)
    finally:
        HERE.end()
        subprocess.run(["companions/members/setup/three", "stop", "three"], cwd=shell.folder, check=False)
