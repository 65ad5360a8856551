"""Guesses of passwords: each address and each name has so many, then it waits, longer after each further one."""
import ipaddress
from collections import OrderedDict

FREE_OF_NAME, FREE_OF_ADDRESS = 5, 20
"""so many wrong passwords cost nothing"""
FORGOTTEN_SECONDS = 900.0
"""after so many quiet seconds nothing is held against anybody"""
LONGEST_SECONDS = 60.0
MOST_KEPT = 20_000


def network_of(address: str) -> str:
    """Returns whose guess it counts as: an address, or the network of one customer at IPv6."""
    try:
        parsed = ipaddress.ip_address(address)
    except ValueError:
        return address
    return str(ipaddress.ip_network((address, 64), strict=False)) if parsed.version == 6 else address


class Counter:
    """How often something failed, by a key, and until when the key waits."""

    def __init__(self, free: int) -> None:
        self.free = free
        self.kept: OrderedDict[str, tuple[int, float, float]] = OrderedDict()

    def waits(self, key: str, now: float) -> float:
        """Returns how many seconds a key still waits."""
        return max(0.0, self.kept.get(key, (0, 0.0, 0.0))[1] - now)

    def note(self, key: str, now: float) -> None:
        """Notes a failure. Beyond the free ones the waiting doubles with each."""
        count, _, last = self.kept.get(key, (0, 0.0, 0.0))
        count = count + 1 if now - last < FORGOTTEN_SECONDS else 1
        over = min(count - self.free, 16)
        self.kept[key] = count, now + min(LONGEST_SECONDS, 2.0 ** over) if over > 0 else 0.0, now
        self.kept.move_to_end(key)
        while len(self.kept) > MOST_KEPT:
            self.kept.popitem(last=False)

    def forget(self, key: str) -> None:
        self.kept.pop(key, None)


class Attempts:
    """The wrong passwords of the last minutes."""

    def __init__(self) -> None:
        self.names, self.addresses = Counter(FREE_OF_NAME), Counter(FREE_OF_ADDRESS)

    def waits(self, name: str, address: str, now: float) -> float:
        """Returns how many seconds this name, or this address, waits before its next password is looked at."""
        return max(self.names.waits(name.casefold(), now), self.addresses.waits(network_of(address), now))

    def begin(self, name: str, address: str, now: float) -> None:
        """Counts an attempt before its password is looked at: of many at once each counts."""
        self.names.note(name.casefold(), now)
        self.addresses.note(network_of(address), now)

    def forgive(self, name: str, address: str) -> None:
        """Forgets the attempts of a name, and one of its address: a password was right, or none was looked at."""
        self.names.forget(name.casefold())
        network = network_of(address)
        if network in self.addresses.kept:
            count, until, last = self.addresses.kept[network]
            self.addresses.kept[network] = max(0, count - 1), until if count - 1 > self.addresses.free else 0.0, last
