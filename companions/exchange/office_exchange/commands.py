"""Other commands of the companions, found beside the one that runs or, in the repository, in their own folders."""
import sys
from pathlib import Path


def path_of(name: str) -> str:
    """Returns the path of a command."""
    here = Path(sys.argv[0]).resolve().parent
    return str(next((path for path in (here / name, *here.parent.glob(f"*/{name}")) if path.is_file()), here / name))
