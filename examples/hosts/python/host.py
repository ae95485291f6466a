"""A host in Python: plug-ins over one table of words.

usage: host.py LIBRARY FOLDER
"""

import pathlib
import sys

import vino_host


def main() -> None:
    """Loads and calls a few plug-ins, one of which misbehaves, and one image that was changed."""
    library = vino_host.Library(sys.argv[1])
    folder = pathlib.Path(sys.argv[2])
    key = bytes(32)
    table = vino_host.Table([5, 6, 7])
    for name in ("count", "count", "bad-traps", "ask"):
        plugin = library.load(bytes.fromhex((folder / f"{name}.hex").read_text()), key)
        answer = plugin.call(table, host=lambda identifier, arguments: 41 if identifier == 2 else None)
        print(name, answer.kind, answer.detail, answer.steps, answer.registers[0], table.values())
    plugin = library.load(bytes.fromhex((folder / "shout.hex").read_text()), key)
    print("shout", plugin.call(table, (0, 6, 0, 0), b"python", point=6).given.decode())
    image = bytearray(bytes.fromhex((folder / "add.hex").read_text()))
    image[30] ^= 1
    try:
        library.load(bytes(image), key)
    except vino_host.Refused as refusal:
        print("changed image refused:", refusal)
    plugin = library.load(bytes.fromhex((folder / "count.hex").read_text()), key)
    loaded = plugin.check()
    plugin._loaded[50] ^= 1
    print("as loaded:", loaded, "after a stray write:", plugin.check())


if __name__ == "__main__":
    main()
