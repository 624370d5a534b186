"""The files on a disk, read from its bytes by the rules of an image of version 2 (docs: "Files on a disk image")."""

import re


def number(some):
    """A number whose high byte comes first."""
    return int.from_bytes(some, "big")


def files_of(disk):
    """For each title the kind (1 text, 2 code), the protection (0 or 1) and the bytes; or, as text, a broken rule."""
    disk = disk or b""
    blocks = [disk[at : at + 512] for at in range(0, len(disk) // 512 * 512, 512)]
    if not blocks:
        return {}
    if len(blocks) < 64:
        return "short"
    if blocks[0] != b"EDIS\0\2" + len(blocks).to_bytes(2, "big") + bytes(504):
        return "header"
    files, used = {}, set()

    def use(block):
        if not 33 <= block < len(blocks) or block in used:
            raise ValueError(f"block {block}")
        used.add(block)
        return blocks[block]

    for slot in range(256):
        entry = blocks[1 + slot // 8][slot % 8 * 64 :][:64]
        if entry == bytes(64):
            continue
        title, kind, protected = entry[:24].rstrip(b" ").decode(errors="replace"), entry[24], entry[25]
        first, second, length = number(entry[26:28]), number(entry[28:30]), number(entry[30:34])
        pages = (length + 511) // 512
        good = re.fullmatch("[A-Za-z][A-Za-z0-9_]{0,23}", title) and kind in (1, 2) and protected in (0, 1)
        if not good or length > 261120 or entry[34:] != bytes(30) or title in files or (pages > 255) != (second != 0):
            return f"entry {slot}"
        some = b""
        try:
            for map_block, count in ((first, min(pages, 255)), (second, pages - 255)):
                if map_block == 0 and count <= 0:
                    continue
                listed = use(map_block)
                if number(listed[:2]) != count:
                    return f"entry {slot}"
                some += b"".join(use(number(listed[2 + 2 * n : 4 + 2 * n])) for n in range(count))
        except ValueError as error:
            return f"slot {slot}: {error}"
        files[title] = (kind, protected, some[:length])
    return files
