"""The table of the checks: the name of each, what it looks at, the files that it takes, and its function."""
from __future__ import annotations

from collections.abc import Callable
from typing import NamedTuple

from checks import c_files, data, javascript, known, machine, mutants, nginx_files, package, page, python_files
from checks import shell, texts, type_counts, units
from checks.finding import Finding
from checks.tree import is_ours, is_python, is_shell, suffix


class Check(NamedTuple):
    """A check: its name, what it looks at, which files it takes, and how it looks at them."""

    name: str
    about: str
    takes: Callable[[str], bool]
    look: Callable[[list[str]], list[Finding]]


def is_script(name: str) -> bool:
    """Whether a file is read by a shell: a script, or the completion, which has no first line."""
    return is_shell(name) or name == "deploy/packaging/completion"


def is_javascript(name: str) -> bool:
    """Whether a file is a module of JavaScript."""
    return is_ours(name) and suffix(name) in (".js", ".mjs")


def is_of_page(name: str) -> bool:
    """Whether a file is a module of the page."""
    return name.startswith("page/") and suffix(name) == ".js"


def ends(*endings: str) -> Callable[[str], bool]:
    """Returns whether a name outside of the crates ends in one of these."""
    return lambda name: is_ours(name) and name.endswith(endings)


def is_of_texts(name: str) -> bool:
    """Whether a file has texts of the page, names them, or has the tables that they are compared with."""
    is_of_web = name.startswith("page/") and name.endswith((".js", ".html", ".json"))
    return is_of_web or name in ("docs/ERRORS.md", "docs/WEB.md")


# the longest come first, so that two at a time end together
CHECKS = (
    Check("mypy", "types of Python, as far as known.txt lets them be",
          lambda name: type_counts.is_typed(name) or name == known.NAME, type_counts.mypy),
    Check("pyflakes", "unused imports, names that are not there", is_python, python_files.pyflakes),
    Check("tsc", "types of the page, as far as known.txt lets them be",
          lambda name: is_of_page(name) or name == known.NAME, type_counts.tsc),
    Check("shellcheck", "scripts, by shellcheck's warnings", is_shell, shell.shellcheck),
    Check("python", "Python compiles without a warning", is_python, python_files.compiled),
    Check("shell", "scripts are read by their shells", is_script, shell.parsed),
    Check("texts", "texts of the page in each language, and what names them", is_of_texts, texts.texts),
    Check("javascript", "JavaScript is read by node", is_javascript, javascript.parsed),
    Check("imports", "what modules of the page import is there", is_of_page, page.imports),
    Check("html", "HTML is balanced, and what it names is there", ends(".html"), page.html_files),
    Check("css", "style sheets are balanced, and have known rules", ends(".css"), page.css_files),
    Check("json", "JSON can be read", ends(".json"), data.json_files),
    Check("yaml", "YAML can be read", ends(".yaml", ".yml"), data.yaml_files),
    Check("openapi", "the description of the paths has its form", lambda name: name == data.OPENAPI, data.openapi),
    Check("toml", "TOML can be read", ends(".toml"), data.toml_files),
    Check("xml", "XML and SVG are well-formed", ends(".svg", ".xml"), data.xml_files),
    Check("units", "units of systemd, by systemd-analyze", lambda name: units.is_unit(name) or units.is_drop_in(name),
          units.verified),
    Check("hardening", "what each service may reach, by systemd-analyze", units.is_service, units.exposed),
    Check("nginx", "the sites of nginx, by nginx", nginx_files.is_nginx, nginx_files.sites),
    Check("nft", "rules of nftables, by nft", ends(".nft"), machine.nft),
    Check("logrotate", "rotations, by logrotate", ends(".logrotate", "/office-acts"), machine.logrotate),
    Check("fail2ban", "the filter and the jail of fail2ban", lambda name: "/fail2ban/" in name, machine.fail2ban),
    Check("prometheus", "rules and configuration of Prometheus, by promtool",
          ends("office.rules.yml", "prometheus.yml"), machine.prometheus),
    Check("environment", "settings that units read", ends("city.conf", "city.intake", "city.mail", "etcd.conf"), machine.environment),
    Check("keepalived", "blocks of keepalived are balanced", ends("keepalived.conf"), machine.keepalived),
    Check("access", "settings of a gate, by office-gate", ends(".access"), machine.access),
    Check("members", "settings of a member, by the member", ends("companions/members/setup/city.json"), machine.members),
    Check("lists", "what the packages have is there, and what is there they have",
          lambda name: name in package.LISTS or name.startswith(package.OF_MACHINE), package.lists),
    Check("manual", "manual pages, by groff", package.has_page, package.manuals),
    Check("completion", "the completion as it is made, by bash", ends("deploy/packaging/completion"), package.completion),
    Check("hooks", "what Debian runs before and after, as it is made", ends("/postinst", "/prerm", "/postrm"),
          package.hooks),
    Check("changelog", "the versions, in Debian's form", lambda name: name == "CHANGELOG.md", package.changelog),
    Check("mutants", "planted mistakes of the companions can still be planted", mutants.is_planted, mutants.applied),
    Check("c", "C, by the compiler", ends(".c"), c_files.parsed),
    Check("copyright", "the copyright names a holder and a licence", ends("deploy/packaging/copyright"),
          package.copyright_text),
)
