"""The program that trials run."""
import os
import pathlib
import subprocess

TOP = pathlib.Path(__file__).resolve().parent.parent
BUILT = TOP / "crates/office/out/office"
PREVIEW = TOP / "crates/office/out/preview/office"


def is_fresh() -> bool:
    """Whether the built program is there, and no source changed since."""
    if not BUILT.exists():
        return False
    sources = [TOP / "crates.txt", *TOP.glob("crates/*/src/**/*.rt"), *TOP.glob("crates/*/specs/**/*.rt")]
    return all(source.stat().st_mtime <= BUILT.stat().st_mtime for source in sources)


def program() -> pathlib.Path | None:
    """The program that OFFICE names, the built one if it is fresh, or a preview, which is compiled if necessary."""
    if "OFFICE" in os.environ:
        return pathlib.Path(os.environ["OFFICE"]).resolve()
    if is_fresh():
        return BUILT
    return PREVIEW if subprocess.run([TOP / ".ci/preview", "office"]).returncode == 0 else None
