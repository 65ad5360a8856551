"""The package as a file: what is in it, what lintian says, and what it is made from."""
import fnmatch
import os
import pathlib
import re
import shutil
import subprocess
from concurrent.futures import ThreadPoolExecutor

from making import staging
from making.words import TOP, table
from trying import copies
from kit.judging import judge
from trying.machine import Done, run

PROGRAM = pathlib.Path(os.environ.get("OFFICE", TOP / "crates/office/out/office")).resolve()
MAKE = TOP / "deploy/packaging/make"
# who makes it, in each trial
BY = {"DEBFULLNAME": "Office of the trial", "DEBEMAIL": "office@trial.example"}


def make(place: pathlib.Path, changelog: pathlib.Path | None = None) -> pathlib.Path:
    """Makes the package in a folder, and gives its file."""
    done = run([MAKE, PROGRAM, "package", place], **BY, **({"CHANGELOG": str(changelog)} if changelog else {}))
    if done.status:
        raise SystemExit(f"no package was made:\n{done.err}")
    return pathlib.Path(done.out.strip())


def judge_list() -> None:
    """No file of companions and deploy is forgotten, and what is listed is there."""
    sources = {it.source for it in staging.listed()}
    listed = sources | {it.source for it in staging.listed(staging.REPLICAS)}
    files = [it for folder in ("companions", "deploy") for it in sorted((TOP / folder).rglob("*")) if it.is_file()]
    left_out = ("__pycache__", "packaging", "three")
    missing = [str(it.relative_to(TOP)) for it in files if it.suffix != ".md" and not listed & {it, *it.parents}
               and not any(part in left_out for part in it.parts)]
    judge("the list has each file of companions and deploy", not missing, missing)
    judge("each file of the list is there", all(it.exists() for it in sources))
    within = {it.relative_to(TOP).parts[0] for it in sources}
    judge("nothing of it is a trial or a measure", not within & {"tests", "bench"}, within)
    table = (TOP / "README.md").read_text().split("\n## Where things are\n")[1]
    users = [line for line in table.split("\n") if re.match(r"\| (keep records|run it|write programs beside it) \|", line)]
    pages = {TOP / it for it in re.findall(r"\((docs/\w+\.md)", "".join(users))}
    judge("the list has each page for users", len(users) == 3 and pages <= sources, sorted(pages - sources))


def judge_version(place: pathlib.Path) -> None:
    """A package of later changes has a version of its own, which names the commit; the later of one day is greater."""
    last = "## 1.0.0 (2026-11-27)\n\n- A change.\n"
    commit = run(["git", "-C", TOP, "log", "-1", "--format=%h"]).out.strip()
    count = run(["git", "-C", TOP, "rev-list", "--count", "HEAD"]).out.strip()
    for name, text, wanted in (("released", last, r"1\.0\.0"), ("empty", f"## Next\n\n{last}", r"1\.0\.0"),
                               ("later", f"## Next\n\n- A later one.\n\n{last}", rf"1\.0\.0\+git\d{{8}}\.{count}\.{commit}")):
        file = place / f"{name}.md"
        file.write_text(f"# Changes\n\n{text}")
        code = (f"import sys; sys.path.insert(0, '{MAKE.parent}'); from making.changelog import versions; "
                "print(versions()[0].number)")
        done = run(["python3", "-B", "-c", code], CHANGELOG=str(file))
        judge(f"the version of a list of changes, {name}", re.fullmatch(wanted, done.out.strip()), done)
    later = done.out.strip()
    earlier = later.replace(f".{count}.{commit}", f".{int(count) - 1}.fffffff")
    done = run(["dpkg", "--compare-versions", earlier, "lt", later])
    judge("the package of the commit before, of the same day, is the older one", done.status == 0 and earlier != later,
          (earlier, later))


def judge_lintian(file: pathlib.Path) -> None:
    done = run(["lintian", "--fail-on", "error,warning", "--display-info", file])
    tags = [line for line in done.out.splitlines() if line[:2] in ("E:", "W:", "I:")]
    print("\n".join(tags))
    judge("lintian finds no error and no warning", done.status == 0, done.out + done.err)


def judge_manual(top: pathlib.Path) -> None:
    """Each command and each file that people write has its page, in its section, without a fault of its form."""
    pages = sorted(it for section in (1, 5, 8) for it in (top / f"usr/share/man/man{section}").iterdir())
    sections = {it.name.rsplit(".", 2)[0]: it.parent.name for it in pages}
    tools = sorted(it.name for it in (top / "usr/bin").iterdir())
    judge("each program has its manual page", sorted(it for it in sections if sections[it] != "man5") == tools, sections)
    judge("so has each file that people write", [it for it in sections if sections[it] == "man5"] == ["office.access", "office.toml"])
    judge("what root runs is of section 8", (sections["office-setup"], sections["office-check"], sections["office"]) ==
          ("man8", "man1", "man1"), sections)
    judge("no other section has a page", {it.name for it in (top / "usr/share/man").iterdir()} == {"man1", "man5", "man8"})
    with ThreadPoolExecutor(4) as threads:
        texts = dict(zip(pages, threads.map(shown, pages), strict=True))
    for page, done in texts.items():
        judge(f"{page.name} has no fault of form", done.status == 0 and done.err == "", done.err)
    judge_words({page.name.rsplit(".", 2)[0]: re.sub(r"\s+", " ", re.sub(r".\x08", "", done.out)) for page, done in texts.items()}, top)


def shown(page: pathlib.Path) -> Done:
    """Shows a manual page as `man` does, without hyphens of its own."""
    return run(["man", "--warnings", "--no-hyphenation", "--no-justification", "-E", "ascii", "-l", page], MANWIDTH="200")


def judge_words(texts: dict[str, str], top: pathlib.Path) -> None:
    """The pages have each word and option, and each key."""
    missing = [call for word in table() for call in word.calls if f"office {call}" not in texts["office"]]
    judge("office(1) has each word of README's table", not missing, missing)
    for name, args in (("office-setup", ["close"]), ("office-setup", ["doctor"]), ("office-sign-in", ["gates"]), ("office-gate", ["serve"]),
                       ("office-verify", []), ("office-vault", ["sweep"])):
        help_ = run([top / "usr/bin" / name, *args, "--help"]).out
        options = set(re.findall(r"--[a-z][a-z-]+", help_)) - {"--help"}
        lacking = [option for option in options if option not in texts[name]]
        judge(f"{name} has the options of {' '.join([name, *args])}", options and not lacking, lacking)
        judge("and its usage", " ".join([name, *args]) in texts[name])
    lacking = [key for key in ("site", "[sign_in.groups]", "day-ends", "issuer", "changer-does-not-open = 60") if key not in texts["office.toml"]]
    judge("office.toml(5) has the keys", not lacking, lacking)
    judge("office.access(5) has the statements", "name" in texts["office.access"] and "role" in texts["office.access"])


# what is typed, and what bash offers
COMPLETED = [
    ("", {"due", "plan", "init", "serve", "help"}),
    ("ex", {"export"}),
    ("due w", {"weeks"}),
    ("due years 7 from-month-1", {"from-month-1", "from-month-10", "from-month-11", "from-month-12"}),
    ("export x.db e", {"entries"}),
    ("serve x.db ", set()),
]


def judge_completion(top: pathlib.Path) -> None:
    file = top / "usr/share/bash-completion/completions/office"
    for typed, wanted in COMPLETED:
        words = ["office", *typed.split(" ")]
        quoted = " ".join(f"'{it}'" for it in words)
        script = (f"source {file}; COMP_WORDS=({quoted}); COMP_CWORD={len(words) - 1}; _office; "
                  'printf "%s\\n" "${COMPREPLY[@]}"')
        offered = set(run(["bash", "-c", script]).out.split())
        judge(f"bash completes 'office {typed}'", offered >= wanted if not typed else offered == wanted, offered)


def judge_tools(top: pathlib.Path) -> None:
    """The tools of the pages work where the package puts them: a list of acts is read, and a sheet converted."""
    here = top / "usr/share/doc/office"
    done = run([top / "usr/bin/office-check", here / "examples/first/acts.json"])
    judge("the package's office-check reads a list", done.status == 0 and done.out.startswith("acts: 6, wrong: 0;"), done)
    done = run([here / "tools/check", here / "examples/first/acts.json"])
    judge("at its place of before too", done.status == 0 and done.out.startswith("acts: 6, wrong: 0;"), done)
    done = run([top / "usr/bin/office-convert", here / "examples/import/letters.csv"])
    judge("the package's office-convert reads a sheet", done.status == 0 and done.out.count("\n") > 1, done)


def judge_named(top: pathlib.Path) -> None:
    """What the commands of the pages copy is in the package, but for what it puts elsewhere."""
    doc = top / "usr/share/doc/office"
    page = "\n".join((TOP / f"docs/{it}.md").read_text() for it in ("INSTALL", "SERVICE", "BACKUP", "WATCHING"))
    copied = re.findall(r"(?m)(?<=[ ])(?:companions|deploy)/[\w@./*-]+", "\n".join(re.findall(r"(?m)^    .*", page)))
    named = {str(it.relative_to(TOP)) for pattern in copied for it in TOP.glob(pattern)} | {it for it in copied if "*" not in it}
    elsewhere = {it.source for it in staging.listed() if not f"/{it.folder}".startswith("/usr/share/doc")}
    missing = sorted(it for it in named if TOP / it not in elsewhere and not (doc / it).exists())
    judge("the package has the files that the pages copy", not missing and len(named) > 20, missing or named)


def tree(top: pathlib.Path) -> dict[str, tuple[int, bytes]]:
    """Each file below a folder, with its mode and its bytes."""
    files = [it for it in top.rglob("*") if it.is_file() and "DEBIAN" not in it.parts]
    return {str(it.relative_to(top)): (it.stat().st_mode & 0o777, it.read_bytes()) for it in files}


def clone(place: pathlib.Path) -> pathlib.Path:
    """The launcher of a clone in which the program was built. Its sources are one file alone."""
    top = place / "clone"
    out = top / "crates/office/out"
    out.mkdir(parents=True)
    for name in ("companions", "deploy", "docs", "examples", "page"):
        shutil.copytree(TOP / name, top / name, ignore=shutil.ignore_patterns("__pycache__"))
    for name in ("office", "crates.txt", "README.md", "CHANGELOG.md"):
        shutil.copy(TOP / name, top)
    shutil.copy(PROGRAM, out / "office")
    # the package's version names the last commit
    history = subprocess.run(["git", "rev-parse", "--absolute-git-dir"], cwd=TOP, check=True, stdout=subprocess.PIPE,
                             text=True)
    (top / ".git").write_text(f"gitdir: {history.stdout}")
    sums = subprocess.run(["cksum", "crates.txt"], cwd=top, check=True, stdout=subprocess.PIPE)
    (out / "launcher.sources").write_bytes(sums.stdout)
    return top / "office"


def judge_launcher(file: pathlib.Path, top: pathlib.Path, place: pathlib.Path) -> None:
    """`./office package` makes it, and `./office install` lays out the same files."""
    launcher, here, to = clone(place), place / "here", place / "destination"
    here.mkdir()
    to.mkdir()
    done = run([launcher, "package", here], **BY)
    made = here / file.name
    judge("./office package makes it with the same bytes again", done == (0, f"{made}\n", "")
          and made.read_bytes() == file.read_bytes(), done)
    done = run([launcher, "install"], DESTDIR=str(to), **BY)
    judge("./office install puts the same files into the same places", done.status == 0 and tree(to) == tree(top), done)
    (launcher.parent / "crates.txt").write_text("changed\n")
    done = run([launcher, "package", here])
    judge("after a change of a source it says to build", done.status == 2
          and done.err == "office: the sources changed since this program was built: run ./office build first\n", done)
    named = re.search(r"^    apt-get install \./(office_\S+)$", (TOP / "docs/INSTALL.md").read_text(), re.M)
    judge("INSTALL.md installs this file", named and fnmatch.fnmatch(file.name, named[1]), file.name)


def refused(name: str, words: list[object], says: str, **env: str) -> None:
    done = run(words, **env)
    judge(f"{name}: a line says what to do", done.status == 2 and done.err.startswith("office: ")
          and says in done.err and done.err.count("\n") == 1, done)


def judge_refusals(place: pathlib.Path) -> None:
    refused("a program that is a script", [MAKE, MAKE, "package", place], "is no program for amd64")
    bare = place / "bare.md"
    bare.write_text("# Changes\n")
    refused("no version", [MAKE, PROGRAM, "package", place], "has no heading as '## 1.0.0", CHANGELOG=str(bare))
    refused("no tools", ["/usr/bin/env", f"PATH={place}", "/usr/bin/python3", MAKE, PROGRAM, "package", place],
            "is missing: apt-get install")
    locked = place / "locked"
    locked.mkdir()
    subprocess.run(["mount", "-t", "tmpfs", "-o", "ro", "tmpfs", locked], check=True)
    try:
        refused("a folder that cannot be written", [MAKE, PROGRAM, "package", locked], "cannot be written by you")
    finally:
        subprocess.run(["umount", locked], check=True)


def judge_made(file: pathlib.Path, place: pathlib.Path) -> None:
    """All of it."""
    top = place / "unpacked"
    subprocess.run(["dpkg-deb", "-x", file, top], check=True)
    judge_list()
    judge_version(place)
    judge_manual(top)
    judge_completion(top)
    judge_tools(top)
    judge_named(top)
    copies.judge_list(top)
    judge_launcher(file, top, place)
    judge_refusals(place)
