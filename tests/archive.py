#!/usr/bin/env python3
"""What an archive of the library must be, read from its bytes (ELF of any processor, no other tool).

  archive.py HEADER ARCHIVE    no section that can be written to and holds something, none that is written and run, no constructor; the
                               stack not executable, said in every member; undefined symbols only of ALLOWED; what is exported exactly
                               the calls that the header declares. Prints what was found; status 1 if something is not so.
"""
import re
import struct
import sys

# what README promises; a copy or a comparison that becomes a call of libc would show here
ALLOWED = {"memset"}
WRITE, ALLOC, EXEC, TLS = 1, 2, 4, 0x400
SYMTAB, INIT_ARRAY, FINI_ARRAY, PREINIT_ARRAY, PROGBITS, NOBITS = 2, 14, 15, 16, 1, 8
COMMON = 0xFFF2


def members(archive):
    """Names and bytes of an archive's files, without its index."""
    assert archive[:8] == b"!<arch>\n", "no archive"
    at = 8
    while at < len(archive):
        name, size = archive[at:at + 16].decode().rstrip(), int(archive[at + 48:at + 58])
        if name not in ("/", "//", "/SYM64/"):
            yield name, archive[at + 60:at + 60 + size]
        at += 60 + size + size % 2


def text(table, at):
    return table[at:table.index(b"\0", at)].decode()


def sections(elf):
    """Dictionaries of an ELF file's sections (64 bits, low byte first)."""
    assert elf[:6] == b"\x7fELF\x02\x01", "no 64-bit ELF with the low byte first"
    start, = struct.unpack_from("<Q", elf, 40)
    size, count, names = struct.unpack_from("<HHH", elf, 58)
    assert count and size == 64, "sections"
    found = []
    for i in range(count):
        name, kind, flags, _, at, length, link, _, _, _ = struct.unpack_from("<IIQQQQIIQQ", elf, start + size * i)
        data = b"" if kind == NOBITS else elf[at:at + length]
        found.append({"at": name, "kind": kind, "flags": flags, "size": length, "link": link, "data": data})
    for section in found:
        section["name"] = text(found[names]["data"], section["at"])
    return found


def symbols(found):
    """Names of symbols that are not local, with their section's number."""
    for section in found:
        if section["kind"] == SYMTAB:
            names = found[section["link"]]["data"]
            for at in range(0, section["size"], 24):
                name, info, other, where = struct.unpack_from("<IBBH", section["data"], at)
                if info >> 4 and name:
                    yield text(names, name), where


def faults_of_sections(found):
    for s in found:
        if s["kind"] in (INIT_ARRAY, FINI_ARRAY, PREINIT_ARRAY) or s["name"].startswith((".ctors", ".dtors", ".init", ".fini")):
            yield f"section {s['name']} runs before or after main"
        elif s["flags"] & ALLOC and s["flags"] & (WRITE | TLS) and s["size"]:
            yield f"section {s['name']} of {s['size']} bytes can be written to"
        if s["flags"] & WRITE and s["flags"] & EXEC:
            yield f"section {s['name']} can be written to and run"
    stack = [s for s in found if s["name"] == ".note.GNU-stack"]
    if not stack:
        yield "no section .note.GNU-stack: the stack would be executable"
    elif any(s["flags"] & EXEC for s in stack):
        yield "the stack is executable"


def main():
    with open(sys.argv[1], encoding="utf-8") as file:
        calls = set(re.findall(r"^uint32_t (gw_\w+)\(", file.read(), re.M))
    with open(sys.argv[2], "rb") as file:
        archive = file.read()
    faults, undefined, defined, held = [], set(), [], {}
    for name, elf in members(archive):
        found = sections(elf)
        faults += [f"{name}: {fault}" for fault in faults_of_sections(found)]
        for s in found:
            kind = "code" if s["flags"] & EXEC else "written" if s["flags"] & WRITE else "constants"
            if s["flags"] & ALLOC:
                held[kind] = held.get(kind, 0) + s["size"]
        for symbol, where in symbols(found):
            if where == 0:
                undefined.add(symbol)
            else:
                defined.append(symbol)
                if where == COMMON:
                    faults.append(f"{name}: {symbol} is common, so it can be written to")
    faults += [f"undefined symbol {symbol}" for symbol in sorted(undefined - set(defined) - ALLOWED)]
    if sorted(defined) != sorted(calls):
        faults.append(f"exports {' '.join(sorted(defined))}, the header declares {' '.join(sorted(calls))}")
    for fault in faults:
        print(f"archive: {sys.argv[2]}: {fault}")
    if not faults:
        told = ", ".join(f"{count} bytes of {kind}" for kind, count in sorted(held.items()))
        print(f"archive: {sys.argv[2]}: {told}; exports the {len(calls)} calls, needs {' '.join(sorted(undefined)) or 'nothing'}")
    return 1 if faults else 0


sys.exit(main())
