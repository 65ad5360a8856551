"""Networks of a trial, one for each machine: made, cut, and asked from here."""
from __future__ import annotations

import ctypes
import os
import socket
import subprocess
from typing import NamedTuple

NEW_NETWORK = 0x40000000
LIBC = ctypes.CDLL(None, use_errno=True)


def make(names: list[str], address: str) -> None:
    """A network for each machine, joined by a bridge; `address` is the begin of an address."""
    subprocess.run(["ip", "link", "add", "bridge", "type", "bridge"], check=True)
    subprocess.run(["ip", "link", "set", "bridge", "up"], check=True)
    for number, name in enumerate(names):
        for words in (
                f"ip netns add {name}",
                f"ip link add {name} type veth peer name eth0 netns {name}",
                f"ip link set {name} master bridge up",
                f"ip -n {name} addr add {address}{number + 1}/24 dev eth0",
                f"ip -n {name} link set eth0 up",
                f"ip -n {name} link set lo up"):
            subprocess.run(words.split(), check=True)


def remove(names: list[str]) -> None:
    """Takes them away again."""
    for name in names:
        subprocess.run(["ip", "netns", "del", name], check=False)
    subprocess.run(["ip", "link", "del", "bridge"], check=False)


def cut(name: str, chains: list[str]) -> None:
    """The machine loses what it sends (`output`), what it gets (`input`), or both; or nothing.

    What stays on the machine itself is not touched.
    """
    rules = "add table inet cut; delete table inet cut;"
    if chains:
        rules += "add table inet cut;"
    for chain in chains:
        way = "oifname" if chain == "output" else "iifname"
        rules += (f"add chain inet cut {chain} {{ type filter hook {chain} priority 0; }};"
                  f"add rule inet cut {chain} {way} eth0 drop;")
    subprocess.run(["nsenter", f"--net=/run/netns/{name}", "nft", rules], check=True)


class Drop(NamedTuple):
    """What a machine loses: of what it sends (`output`) or gets (`input`), to or from one machine or all."""

    machine: int
    chain: str
    peer: int | None
    percent: int = 100


def lose(names: list[str], drops: list[Drop]) -> None:
    """From now on these machines lose what is named, and nothing else. What stays on a machine is not touched."""
    for number, name in enumerate(names):
        rules = "add table inet cut; delete table inet cut; add table inet cut;"
        for at, drop in enumerate(it for it in drops if it.machine == number):
            way, end = ("oifname", "daddr") if drop.chain == "output" else ("iifname", "saddr")
            peer = "" if drop.peer is None else f"ip {end} 10.77.0.{drop.peer + 1}"
            chance = "" if drop.percent == 100 else f"numgen random mod 100 < {drop.percent}"
            rules += (f"add chain inet cut {drop.chain}{at} {{ type filter hook {drop.chain} priority 0; }};"
                      f"add rule inet cut {drop.chain}{at} {way} eth0 {peer} {chance} drop;")
        subprocess.run(["nsenter", f"--net=/run/netns/{name}", "nft", rules], check=True)


def socket_in(network: str | None) -> socket.socket:
    """A socket of a network; this thread is in its own again afterwards."""
    if network is None:
        return socket.socket()
    own = os.open("/proc/thread-self/ns/net", os.O_RDONLY)
    other = os.open(f"/run/netns/{network}", os.O_RDONLY)
    try:
        enter(other)
        return socket.socket()
    finally:
        enter(own)
        os.close(other)
        os.close(own)


def enter(network: int) -> None:
    if LIBC.setns(network, NEW_NETWORK) != 0:
        raise OSError(ctypes.get_errno(), "setns")
