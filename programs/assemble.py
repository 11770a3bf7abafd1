#!/usr/bin/env python3
"""Makes a load file from a program text: python3 assemble.py PROGRAM.asm PROGRAM.load

A line is `label: INSTRUCTION ; comment`, each part optional. An instruction is written as the
monitor writes it; a branch may name a label in the place of its number, and numbers may be
hexadecimal. `.org N` begins a block at physical address N, `.data N N ..` puts words there.
The encoder below is written from docs/MACHINE.md and not from the core, so that the monitor's
listing of the file compares two readings of the same tables.
"""
import re
import sys

THREE = {"AND": (0, 0), "OR": (0, 1), "XOR": (0, 2), "ADD": (0, 4), "SUB": (0, 5), "SHA": (0, 6), "SHL": (0, 7),
         "CMPLT": (1, 0), "CMPLE": (1, 1), "CMPEQ": (1, 3), "CMPLTU": (1, 4), "CMPLEU": (1, 5),
         "MUL": (8, 0), "MULH": (8, 1), "MULHU": (8, 2)}
JUMPS = {"JZ": 0, "JNZ": 1, "JAL": 4}
FIXED = {"EI": 0xF020, "DI": 0xF021, "RETI": 0xF024, "HALT": 0xFFFF}
ENTRIES = {"WRPI": 20, "WRVI": 21, "WRPD": 22, "WRVD": 23}


def number(text, bits, signed):
    n = int(text, 0)
    low, high = (-(1 << (bits - 1)), (1 << (bits - 1)) - 1) if signed else (0, (1 << bits) - 1)
    if not low <= n <= high:
        raise ValueError(f"{n} does not fit {bits} bits")
    return n & ((1 << bits) - 1)


def register(text, letter="R"):
    if not re.fullmatch(letter + "[0-7]", text):
        raise ValueError(f"{text} is no register")
    return int(text[1])


def encode(name, operands, at, labels):
    ops = [o.strip() for o in operands.split(",")] if operands else []
    if name in FIXED:
        return FIXED[name]
    if name in THREE:
        code, f = THREE[name]
        d, a, b = map(register, ops)
        return code << 12 | d << 9 | a << 6 | f << 3 | b
    if name == "NOT":
        return register(ops[0]) << 9 | register(ops[1]) << 6 | 3 << 3
    if name == "ADDI":
        return 2 << 12 | register(ops[0]) << 9 | register(ops[1]) << 6 | number(ops[2], 5, True)
    if name in JUMPS:
        return 2 << 12 | register(ops[0]) << 9 | register(ops[1]) << 6 | 1 << 5 | JUMPS[name]
    if name in ("JMP", "CALLS"):
        return 2 << 12 | register(ops[0]) << 6 | 1 << 5 | (3 if name == "JMP" else 7)
    if name in ("LD", "LDB", "ST", "STB"):
        r, place = (ops[0], ops[1]) if name in ("LD", "LDB") else (ops[1], ops[0])
        n, a = re.fullmatch(r"(.+)\((R[0-7])\)", place).groups()
        code = {"LD": 3, "LDB": 13, "ST": 4, "STB": 14}[name]
        return code << 12 | register(r) << 9 | register(a) << 6 | number(n, 6, True)
    if name in ("MOVI", "MOVIH"):
        return 5 << 12 | register(ops[0]) << 9 | (name == "MOVIH") << 8 | number(ops[1], 8, name == "MOVI")
    if name in ("BZ", "BNZ"):
        n = ops[1] if ops[1] not in labels else str((labels[ops[1]] - (at + 2)) // 2)
        return 6 << 12 | register(ops[0]) << 9 | (name == "BNZ") << 8 | number(n, 8, True)
    if name == "IN":
        return 7 << 12 | register(ops[0]) << 9 | number(ops[1], 8, False)
    if name == "OUT":
        return 7 << 12 | register(ops[1]) << 9 | 1 << 8 | number(ops[0], 8, False)
    if name == "GETIID":
        return 0xF028 | register(ops[0]) << 9
    if name == "RDS":
        return 0xF02C | register(ops[0]) << 9 | register(ops[1], "S") << 6
    if name == "WRS":
        return 0xF030 | register(ops[0], "S") << 9 | register(ops[1]) << 6
    if name in ENTRIES:
        return 0xF020 | ENTRIES[name] | register(ops[0]) << 9 | register(ops[1]) << 6
    if name == "FLUSH":
        return 0xF038 | register(ops[0]) << 6
    raise ValueError(f"no instruction {name}")


def lines(text):
    """(label, name, operands) of each line that has one."""
    for line in text.splitlines():
        line = line.split(";")[0].strip()
        label = re.match(r"(\w+):\s*", line)
        rest = line[label.end():] if label else line
        if label or rest:
            name, _, operands = rest.partition(" ")
            yield (label.group(1) if label else None), name, operands.strip()


def assemble(text):
    labels, at = {}, 0
    for label, name, operands in lines(text):
        if label:
            labels[label] = at
        if name == ".org":
            at = int(operands, 0)
        elif name == ".data":
            at += 2 * len(operands.split())
        elif name:
            at += 2
    blocks, at = [], 0
    for _, name, operands in lines(text):
        if name == ".org":
            at = int(operands, 0)
            blocks.append((at, bytearray()))
        elif name:
            words = [int(n, 0) for n in operands.split()] if name == ".data" else [encode(name, operands, at, labels)]
            for word in words:
                blocks[-1][1].extend(word.to_bytes(2, "little"))
                at += 2
    return blocks


def load_file(blocks):
    out, total = bytearray(), 0
    for address, body in blocks:
        out += b"S3\x01" + address.to_bytes(2, "little") + len(body).to_bytes(2, "little") + body
        total += len(body)
    return bytes(out + b"S3\x02" + total.to_bytes(2, "little"))


if __name__ == "__main__":
    with open(sys.argv[1]) as program, open(sys.argv[2], "wb") as file:
        file.write(load_file(assemble(program.read())))
