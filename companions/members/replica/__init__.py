"""One member of an office that is kept on several machines: modules with one subject each.

The floor, office_common, lies beside the folder of the members in the repository, and on a machine in the folder
office beside it.
"""
import sys
from pathlib import Path

HERE = Path(__file__).resolve().parent.parent
sys.path += [str(place) for place in (HERE.parent, HERE.parent / "office")
             if (place / "office_common").is_dir() and str(place) not in sys.path]
