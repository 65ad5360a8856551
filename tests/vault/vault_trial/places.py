"""Where things are: the program, the commands of the vault, those of the service."""
import os
import pathlib
import sys

HERE = pathlib.Path(__file__).resolve().parent.parent
TOP = HERE.parent.parent
OFFICE = os.environ.get("OFFICE", "office")
VAULT = pathlib.Path(os.environ.get("VAULT_SOURCES", TOP / "companions/vault"))
COMMAND = str(VAULT / "office-vault")
NGINX = TOP / "deploy/nginx"

sys.dont_write_bytecode = True
# the floor lies beside the folder of the vault, also beside one with a planted mistake
sys.path[:0] = [str(VAULT), str(VAULT.parent)]
