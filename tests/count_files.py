#!/usr/bin/env python3
"""Files of nodes, made byte by byte, and the least of each by trying every choice and every set of keys.

    count_files.py random FOLDER MANY SEED   MANY small files, and their leasts in FOLDER/expected
    count_files.py long FILE MANY            a file with MANY records
    count_files.py full FILE                 16 accounts, 32 ins and 32 outs each, all nexts under way
    count_files.py disorder FILE             a next that no change makes
    count_files.py ends FILE                 where the records of FILE end, a line each, and its beginning
"""
import hashlib
import itertools
import random
import sys


def payment(p):
    lock, amount, end = p
    return lock + amount.to_bytes(4, "big") + end.to_bytes(4, "big")


def sheet_bytes(s):
    numbers = bytes([s["account"]]) + b"".join(s[k].to_bytes(4, "big") for k in ("number", "own", "theirs"))
    lists = b"".join(bytes([len(s[k])]) + b"".join(map(payment, s[k])) for k in ("ins", "outs"))
    return numbers + lists


def first(account, own, theirs):
    return {"account": account, "number": 0, "own": own, "theirs": theirs, "ins": [], "outs": []}


def signed(s):
    return b"\x04" + sheet_bytes(s)


def both(s):
    return b"\x05" + sheet_bytes(s)


def key_of(i):
    return i.to_bytes(32, "big")


def lock_of(i):
    return hashlib.sha256(key_of(i)).digest()


def changed(s, change, p):
    """The sheet with one change, by the table of six, or None where own or theirs is too small."""
    n = {**s, "number": s["number"] + 1, "ins": list(s["ins"]), "outs": list(s["outs"])}
    if change == "offered":
        n["ins"].insert(0, p)
        n["theirs"] -= p[1]
    elif change == "passing on":
        n["outs"].insert(0, p)
        n["own"] -= p[1]
    elif change == "paying":
        n["outs"].remove(p)
        n["theirs"] += p[1]
    elif change == "getting":
        n["ins"].remove(p)
        n["own"] += p[1]
    elif change == "returned":
        n["outs"].remove(p)
        n["own"] += p[1]
    else:
        n["ins"].remove(p)
        n["theirs"] += p[1]
    return n if n["own"] >= 0 and n["theirs"] >= 0 else None


def least(accounts, known):
    """By brute force: every choice of sheets, every set of shown keys."""
    best = None
    for choice in itertools.product(*[[a for a in pair if a] for pair in accounts]):
        locks = sorted({p[0] for s in choice for p in s["ins"] + s["outs"]})
        for bits in itertools.product([False, True], repeat=len(locks)):
            shown = dict(zip(locks, bits))
            worth = sum(
                s["own"]
                + sum(p[1] for p in s["ins"] if shown[p[0]] or p[0] in known)
                + sum(p[1] for p in s["outs"] if not shown[p[0]])
                for s in choice
            )
            best = worth if best is None else min(best, worth)
    return best or 0


def random_file(rng):
    """Random changes, whatever the rules say of locks: locks may stand anywhere, outs may be more than ins."""
    accounts = [[first(i, rng.randrange(12), rng.randrange(12)), None] for i in range(rng.choice([2, 2, 3]))]
    deposits = sum(a[0]["own"] for a in accounts)
    out = b"".join(both(a[0]) for a in accounts)
    known = set()
    for _ in range(rng.randrange(14)):
        if rng.random() < 0.15:
            i = rng.randrange(4)
            known.add(lock_of(i))
            out += b"\x07" + key_of(i)
            continue
        a = rng.choice(accounts)
        if a[1]:
            if rng.random() < 0.5:
                out += both(a[1])
                a[0], a[1] = a[1], None
            continue
        change = rng.choice(["offered", "passing on", "offered", "passing on", "paying", "getting", "returned", "giving up"])
        side = {"paying": "outs", "returned": "outs", "getting": "ins", "giving up": "ins"}.get(change)
        if side and not a[0][side]:
            continue
        p = rng.choice(a[0][side]) if side else (lock_of(rng.randrange(4)), rng.randrange(6), rng.randrange(100))
        a[1] = changed(a[0], change, p)
        if a[1]:
            out += signed(a[1])
    return out, least(accounts, known), deposits


def long_file(path, many):
    """Two accounts; an in is offered and given up in turn, each next signed by both."""
    sheets = [first(0, 1000, 1000), first(1, 1000, 1000)]
    with open(path, "wb") as f:
        f.write(b"".join(map(both, sheets)))
        written = 2
        i = 0
        while written < many:
            k = i % 2
            s = sheets[k]
            n = changed(s, "giving up", s["ins"][0]) if s["ins"] else changed(s, "offered", (lock_of(i), 5, 100))
            f.write(signed(n) + both(n))
            sheets[k] = n
            written += 2
            i += 1


def full_file(path):
    """The outs of each account have the locks of the ins of the account before it. In every other account an out is being
    paid, with an amount of 64 and no key, so that it is lost if the in's key never comes; in the others one more is passed on."""
    out = b"".join(both(first(i, 4000, 4000)) for i in range(16))
    for i in range(16):
        s = first(i, 4000, 4000)
        for k in range(32):
            steps = [("offered", (lock_of(i * 32 + k), 50 + k, 500))]
            if k < 31 or i % 2:
                steps.append(("passing on", (lock_of((i + 15) % 16 * 32 + k), 40 + k, 300)))
            for change, p in steps:
                s = changed(s, change, p)
                out += signed(s) + both(s)
        if i % 2:
            out += signed(changed(s, "paying", s["outs"][7]))
        else:
            out += signed(changed(s, "passing on", (lock_of((i + 15) % 16 * 32 + 31), 71, 300)))
    with open(path, "wb") as f:
        f.write(out)


def disorder_file(path):
    s = first(1, 10, 10)
    n = {**s, "number": 1, "own": 7, "theirs": 8, "ins": [(lock_of(0), 5, 100)]}
    with open(path, "wb") as f:
        f.write(both(first(0, 10, 10)) + both(s) + signed(n))


def ends(path):
    """The record's first byte says how long it is, with the two counts of a sheet."""
    with open(path, "rb") as f:
        data = f.read()
    at = 0
    while at < len(data):
        print(at)
        if data[at] == 6:
            at += 35
        elif data[at] == 7:
            at += 33
        else:
            ins = data[at + 14]
            at += 16 + 40 * (ins + data[at + 15 + 40 * ins])
    print(at)


def main():
    kind = sys.argv[1]
    if kind == "random":
        folder, many, seed = sys.argv[2], int(sys.argv[3]), int(sys.argv[4])
        rng = random.Random(seed)
        with open(f"{folder}/expected", "w") as expected:
            for i in range(many):
                data, lowest, deposits = random_file(rng)
                with open(f"{folder}/{i}", "wb") as f:
                    f.write(data)
                expected.write(f"least {lowest} deposits {deposits} difference {lowest - deposits}\n")
    elif kind == "long":
        long_file(sys.argv[2], int(sys.argv[3]))
    elif kind == "full":
        full_file(sys.argv[2])
    elif kind == "disorder":
        disorder_file(sys.argv[2])
    else:
        ends(sys.argv[2])


main()
