"""Each byte of a small bag is changed, taken out and put in, and each change is seen before anything is made."""
import pathlib

from kit.judging import judge, same
from place import back, copied, files_in, judge_refused, names_in, tiny_bag, unjudging


def is_seen(bag: pathlib.Path) -> bool:
    """Returns whether the verification of a bag refuses it."""
    from office_common.errors import Refused
    from office_exchange import bag as bags
    try:
        bags.verify(bag).close()
    except Refused:
        return True
    return False


def changes(data: bytes, at: int, is_last: bool) -> list[bytes]:
    """Returns a file with a bit changed at a place, with a byte less and a byte more. What no other file vouches for is
    changed in each bit."""
    bits = [data[:at] + bytes([data[at] ^ 1 << bit]) + data[at + 1:] for bit in (range(8) if is_last else (at % 8,))]
    moved = [data[:at] + data[at + 1:], data[:at] + b"a" + data[at:]] if is_last or at % 7 == 0 else []
    return [each for each in (*bits, *moved) if each != data]


def bytes_(folder: pathlib.Path) -> None:
    bag = tiny_bag(folder)
    judge("the bag as it is", not is_seen(bag))
    unseen, count = [], 0
    for name, data in files_in(bag).items():
        path = bag / name
        step = 97 if name in ("schema.json", "README.txt") else 1
        for at in range(0, len(data), step):
            for changed in changes(data, at, name == "tagmanifest-sha256.txt"):
                path.write_bytes(changed)
                count += 1
                if not is_seen(bag):
                    unseen.append((name, at))
        path.write_bytes(data)
    print(f"    changes: {count}")
    same("changes that are not seen", unseen, [])
    judge("the bag is as it was", not is_seen(bag))
    by_command(folder, bag)


def by_command(folder: pathlib.Path, bag: pathlib.Path) -> None:
    """The same by the command: the file is named, and nothing is made."""
    program = unjudging(folder)
    for name in ("data/records.jsonl", "manifest-sha256.txt", "tagmanifest-sha256.txt", "bagit.txt", "bag-info.txt"):
        wrong = copied(bag, folder / "wrong")
        data = bytearray((wrong / name).read_bytes())
        data[len(data) // 2] ^= 1
        (wrong / name).write_bytes(data)
        before = names_in(folder)
        part = name.partition("-")[0] if name != "tagmanifest-sha256.txt" else "another SHA-256"
        judge_refused(f"a bit of {name}", back(wrong, folder / "new.db", OFFICE=program), part)
        same(f"what is left ({name})", names_in(folder), before)
