"""The manual pages of files, section 5: the tables of the pages that say what each key is."""
from typing import NamedTuple

from making import roff
from making.words import TOP


class Format(NamedTuple):
    """A manual page of a file: its name, what the file is, and the sections of pages that it has."""

    name: str
    about: str
    file: str
    text: str
    sections: tuple[tuple[str, str, str], ...]


FORMATS = (
    Format("office.toml", "an office of a machine, for office\\-setup", "/etc/office/NAME.toml",
           "The file declares an office in TOML. After a change call\n.BR office\\-setup (8)\nwith the word apply.",
           (("THE FILE", "docs/SETUP.md", "## The file"), ("SIGN-IN", "docs/SIGNIN.md", "## The table"))),
    Format("office.access", "who may do what at the gate of an office", "/etc/office/NAME.access",
           "The file has the settings of a gate.\n.BR office\\-setup (8)\nmakes them of\n.BR office.toml (5),\nor you write them.",
           (("THE SETTINGS", "docs/ACCESS.md", "## The settings"),)),
)


def page(of: Format, version: str, day: str) -> str:
    """Returns the page of a file."""
    lines = [f'.TH {of.name.upper()} 5 {day} "office {version}" "File Formats"',
             ".SH NAME", f"{of.name} \\- {of.about}", ".SH SYNOPSIS", f"\\fI{roff.plain(of.file)}\\fP",
             ".SH DESCRIPTION", of.text]
    for title, source, heading in of.sections:
        lines += [f".SH {title}", *roff.body(roff.section((TOP / source).read_text(), heading))]
    return "\n".join([*lines, ".SH SEE ALSO", ".BR office\\-setup (8),", ".BR office\\-gate (8),",
                      "\\fI/usr/share/doc/office/docs/\\fP"]) + "\n"
