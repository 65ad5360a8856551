"""docs/EVIDENCE.md: seals for the auditor, a key made, withdrawn and followed by another, and a restore."""
from pages.expected import Row, run_page
from kit.judging import judge
from pages.shell import Shell

PAGE = "docs/EVIDENCE.md"
# what the office gives to the auditor of the page's first part
GIVEN = """mkdir -p /etc/office /usr/local/lib/office certificates seals
ssh-keygen -q -t ed25519 -N '' -f given
companions/seals/office-seal fetch 8081 certificates
companions/seals/office-seal sign --name city --key given certificates seals
echo "city namespaces=\\"office-seal\\" $(cut -d ' ' -f 1,2 given.pub)" > city.signers
office-verify seals city.signers"""


def is_first(shell: Shell) -> None:
    """The auditor's part is over; the administrator begins with two new folders."""
    shell.run("rm -r certificates seals")


def is_signed_in_both(shell: Shell) -> None:
    """What the unit does from then on."""
    done = shell.run("mkdir both && office-seal sign --name city --form both --key /etc/office/city.key "
                     "--cades-key /etc/office/city.cades.key --certificate /etc/office/city.cades.pem certificates both && "
                     "mv seals before && mv both seals && office-verify --certificates /etc/office/city.cades.pem seals "
                     "/etc/office/city.signers")
    judge("seals have both signatures", done.status == 0 and "seals: 2, certificates: 2, wrong: 0" in done.out, done)


def is_packed(shell: Shell) -> None:
    """The parts that follow go on with the seals of before."""
    shell.run("rm -r seals && mv before seals")


def units_are_taken(shell: Shell) -> None:
    done = shell.run("systemd-analyze verify --man=no /etc/systemd/system/office-*@.*")
    judge("systemd-analyze takes the units", done.status == 0, done.err)


ROWS = [
    Row("ssh-keygen -Y verify", like=r'Good "office-seal" signature for city with ED25519 key SHA256:\S+\n'),
    Row("sha256sum seals/", like=r"[0-9a-f]{64}  seals/000001/certificate-1\.txt\n", then=is_first),
    Row("adduser"),
    Row("cp -r companions/seals/office_seal"),
    Row("install -m 755 companions/seals/office-seal", prints=""),
    Row("cp -r deploy/systemd/office-.service.d"),
    Row("cp companions/seals/units/office-", then=units_are_taken),
    Row("ssh-keygen -q"),
    Row('echo "city', prints=""),
    Row("ssh-keygen -l", like=r"256 SHA256:\S+ office city, first key \(ED25519\)\n"),
    Row("systemctl", skip="without systemd"),
    Row("openssl req"),
    Row("chmod", prints=""),
    Row("echo FORM=both", prints="", then=is_signed_in_both),
    Row("openssl x509 -in /etc/office/city.cades.pem", prints=""),
    Row("ssh-keygen -i", prints=""),
    Row("office-seal pack", prints="packed: certificate-1.asics\n", then=is_packed),
    Row("grep -h", prints="", status=1),
    Row("office-journal check", skip="tests/gate has a journal"),
    Row("runuser -u office-seal -- office-seal renew", skip="no authority answers"),
    Row("mkdir -p certificates seals"),
    Row("office-seal fetch --restored", prints="certificates: 0\n"),
    Row("office-seal fetch", prints="certificates: 2\n"),
    Row("office-seal sign --restored", prints="seals: 0\n"),
    Row("office-seal sign --name city --key /etc/office/city.key certificates seals", prints="seals: 2\n"),
    Row("office-seal sign --name city --key /etc/office/city.key --withdrawn", prints="seals: 2\n"),
    Row("office-verify seals", like=r"seals: 2, certificates: 2, wrong: 0; office: city; last seal: 2, SHA-256 [0-9a-f]{64}\n"),
    Row("office-verify --withdrawn", like=r"(note: .*\n){4}seals: 4, certificates: 2, wrong: 0; .*\n"),
    Row("cut -d ' ' -f 1,2", prints=""),
    Row("mv /etc/office/city.new"),
    Row("echo 'STAMP_URL="),
    Row("echo 'STAMP_CA="),
    Row("runuser -u office-certificates -g office-seal", skip="the units make these folders"),
    Row("systemd-run", skip="without systemd"),
]


def run(shell: Shell) -> None:
    shell.run("./office apply city.db examples/city_archive/story.json")
    shell.serve("./office serve city.db 8081 1000")
    done = shell.run(f"set -e\n{GIVEN}")
    judge(f"{PAGE}: seals as an office gives them", done.status == 0 and "wrong: 0" in done.out, f"{done}")
    run_page(shell, PAGE, ROWS)
    shell.end(kill=True)
