"""docs/COURT.md: a certificate that is verified by commands of Debian, with stamps and renewals of an authority."""
import pathlib
import sys

from kit.judging import judge
from pages.commands import TOP
from pages.expected import Row, run_page
from pages.shell import Shell

sys.path.append(str(TOP / "tests/transfer"))
from authority import Authority  # noqa: E402

PAGE = "docs/COURT.md"
# what the office gives to the expert
GIVEN = """mkdir certificates seals
ssh-keygen -q -t ed25519 -N '' -f given
openssl req -x509 -newkey ec -pkeyopt ec_paramgen_curve:P-384 -nodes -days 9 -subj '/CN=Seal of city' -keyout own.key -out city.pem
companions/seals/office-seal fetch 8081 certificates
companions/seals/office-seal sign --name city --form both --key given --cades-key own.key --certificate city.pem certificates seals
echo "city namespaces=\\"office-seal\\" $(cut -d ' ' -f 1,2 given.pub)" > city.signers
cp {authority} tsa.pem
companions/seals/office-seal stamp --name city --url {url} --ca tsa.pem seals
companions/seals/office-seal renew --now --name city --url {url} --ca tsa.pem seals
rm -r companions
"""
VERIFIED = r"(Using configuration from \S+\n|Warning: .*\n)?Verification: OK\n"
MOMENT = r"Time stamp: \w{3} .* GMT\n"
ROWS = [
    Row("apt-get", skip="Debian has them"),
    Row("sha256sum seals/000001/certificate-1.txt", like=r"[0-9a-f]{64}  seals/000001/certificate-1\.txt\n"),
    Row("sha256sum seals/000001/seal.txt", like=r"[0-9a-f]{64}  seals/000001/seal\.txt\n"),
    Row("cat seals/000001/seal.txt seals", prints=""),
    Row("cat seals/000001/seal.txt", like=r"SEAL 1\nOFFICE city\n.*WHY closed\n"),
    Row("ssh-keygen -Y verify", like=r'Good "office-seal" signature for city with ED25519 key SHA256:\S+\n'),
    Row("openssl cms -verify", prints=""),
    Row("openssl ts -reply", like=MOMENT),
    Row("openssl ts -verify", like=VERIFIED),
    Row("cd seals && sha512sum", prints=""),
    Row("grep 000001/", like=r"([0-9a-f]{128}  000001/\S+\n){6}"),
    Row("grep PREVIOUS", like=r"PREVIOUS [0-9a-f]{64}\n"),
]


def run(shell: Shell) -> None:
    shell.run("./office apply city.db examples/city_archive/story.json")
    shell.serve("./office serve city.db 8081 1000")
    with Authority(pathlib.Path(shell.folder) / "authority") as one:
        done = shell.run("set -e\n" + GIVEN.format(authority=one.certificate, url=one.url))
    judge(f"{PAGE}: seals as an office gives them, and nothing of ours", done.status == 0 and "renewals: 1" in done.out
          and not shell.path("companions").exists(), done)
    run_page(shell, PAGE, ROWS)
    shell.end(kill=True)
