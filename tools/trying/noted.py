"""Texts with the notes that each has to get: the line, and what is said. LITMUS has those of the tests of litmus/, each read by a
person; the others have none."""


def mp(*reads, check, flag="Atomics.load(U8, 1)", extra=""):
    """Message passing, with these lines after the load of the flag, which is line 7."""
    lines = ["test t", "bytes 4", "agent A", "U8[0] = 1", "Atomics.store(U8, 1, 1)", "agent B", f"r0 = {flag}", *reads]
    return "\n".join(lines + [f"check {check}", ""])


def two(*first, second, check="B.r0 == 1"):
    """Two agents; A's lines begin at line 4."""
    return "\n".join(["test t", "bytes 8", "agent A", *first, "agent B", *second, f"check {check}", ""])


NEVER = "are atomic and overlap, but their bytes differ: they never synchronize with each other"
GUARD = ("if r0 == 1 {", "r1 = U8[0]", "}")

TEXTS = [
    # Accesses through Atomics that overlap.
    (two("Atomics.store(U16, 0, 1)", second=["r0 = Atomics.load(U8, 0)"]),
     [(6, f"`r0 = Atomics.load(U8, 0)` and `Atomics.store(U16, 0, 1)` on line 4 {NEVER}")]),
    (two("Atomics.store(U32, 0, 1)", second=["r0 = Atomics.exchange(U16, 1, 1)"], check="B.r0 == 0"),
     [(6, f"`r0 = Atomics.exchange(U16, 1, 1)` and `Atomics.store(U32, 0, 1)` on line 4 {NEVER}")]),
    (two("Atomics.store(U16, 0, 1)", second=["r0 = Atomics.load(U16, 0)"]), []),
    (two("Atomics.store(U16, 0, 1)", second=["r0 = Atomics.load(U8, 2)"], check="B.r0 == 0"), []),
    (two("Atomics.store(U16, 0, 1)", second=["r0 = U8[0]"]), []),
    (two("r1 = Atomics.load(U16, 0)", second=["r0 = Atomics.load(U8, 0)"], check="B.r0 == 0"), []),
    (two("Atomics.store(U16, 0, 1)", "r1 = Atomics.load(U8, 0)", second=["r0 = U8[7]"], check="B.r0 == 0"), []),
    (two("Atomics.store(U16,  \t0, 1)", second=["r0 = Atomics.load(U8, 0)"] * 5),
     [(6, f"`r0 = Atomics.load(U8, 0)` and `Atomics.store(U16, 0, 1)` on line 4 {NEVER}"),
      (7, f"`r0 = Atomics.load(U8, 0)` and `Atomics.store(U16, 0, 1)` on line 4 {NEVER}"),
      (8, f"`r0 = Atomics.load(U8, 0)` and `Atomics.store(U16, 0, 1)` on line 4 {NEVER}"), (9, "2 more such pairs of atomic accesses")]),
    # A branch on a register that nothing has read into.
    (mp("if r1 == 1 {", "r2 = U8[0]", "}", check="B.r0 == 1 && B.r2 == 1"),
     [(8, "nothing before reads into r1, which is 0 here: `r1 == 1` never holds")]),
    (mp("if r1 != 1 {", "r1 = U8[0]", "}", check="B.r0 == 1 && B.r1 == 1"),
     [(8, "nothing before reads into r1, which is 0 here: `r1 != 1` always holds")]),
    (mp("if r1 == 0 {", "r1 = U8[0]", "}", check="B.r0 == 1 && B.r1 == 1"),
     [(8, "nothing before reads into r1, which is 0 here: `r1 == 0` always holds")]),
    (mp("if r0 == 1 {", "r1 = U8[0]", "}", "if r1 == 1 {", "r2 = U8[0]", "}", check="B.r0 == 1 && B.r2 == 1"), []),
    # A comparison with what nobody can have read.
    (mp("if r0 == 2 {", "r1 = U8[0]", "}", check="B.r0 == 1 && B.r1 == 1"),
     [(8, "nothing before can read 2 into r0: `r0 == 2` never holds")]),
    (mp("if r0 != 2 {", "r1 = U8[0]", "}", check="B.r0 == 1 && B.r1 == 1"),
     [(8, "nothing before can read 2 into r0: `r0 != 2` always holds")]),
    (mp(check="B.r0 == 7"), [(8, "B can't read 7 into r0: `B.r0 == 7` never holds")]),
    (mp(check="B.r0 != 256"), [(8, "B can't read 256 into r0: `B.r0 != 256` always holds")]),
    (mp(check="B.r0 == 1 || B.r0 == 7 || !(B.r0 == 7)"), [(8, "B can't read 7 into r0: `B.r0 == 7` never holds")]),
    (two("U16[0] = 258", second=["r0 = U16[0]"], check="B.r0 == 256 || B.r0 == 2"), []),
    (two("U16[0] = 258", second=["r0 = U16[0]"], check="B.r0 == 513"), [(7, "B can't read 513 into r0: `B.r0 == 513` never holds")]),
    (two("U8[0] = 3", "U8[1] = 4", second=["r0 = U16[0]"], check="B.r0 == 1027 || B.r0 == 1024"), []),
    (two("r0 = U8[0]", "U8[0] = 5", second=["r0 = U8[0]"], check="A.r0 == 5 && B.r0 == 5"),
     [(8, "A can't read 5 into r0: `A.r0 == 5` never holds")]),
    (two("U8[0] = 5", "r0 = U8[0]", second=["r0 = U8[0]"], check="A.r0 == 5 && B.r0 == 5"), []),
    (two("r0 = Atomics.exchange(U8, 0, 5)", second=["r0 = U8[0]"], check="A.r0 == 5"),
     [(7, "A can't read 5 into r0: `A.r0 == 5` never holds")]),
    (two("U8[0] = 5", second=["r0 = Atomics.compareExchange(U8, 0, 6, 7)"], check="B.r0 == 5"),
     [(6, "6 can't be read here: this compareExchange never stores")]),
    (two("U8[0] = 5", second=["r0 = Atomics.compareExchange(U8, 0, 0, 7)"], check="B.r0 == 5"), []),
    # A register that is 0 since a path doesn't read into it.
    (mp(*GUARD, check="B.r1 == 0"), [(11, "where line 9 isn't reached, nothing reads into B.r1: it is 0 there, and `B.r1 == 0` holds")]),
    (mp(*GUARD, check="B.r1 != 1"), [(11, "where line 9 isn't reached, nothing reads into B.r1: it is 0 there, and `B.r1 != 1` holds")]),
    (mp(*GUARD, check="B.r1 == 1"), []),
    (mp(*GUARD, check="B.r0 == 1 && B.r1 == 0"), []),
    (mp(*GUARD, check="!(B.r0 != 1 || B.r1 != 0)"), []),
    (mp(*GUARD, check="!(B.r0 == 1 && B.r1 == 0)"), []),
    (mp(*GUARD, check="B.r0 == 0 && B.r1 == 0"),
     [(11, "where line 9 isn't reached, nothing reads into B.r1: it is 0 there, and `B.r1 == 0` holds")]),
    (mp(*GUARD[:2], "} else {", "r1 = U8[2]", "}", check="B.r1 == 0"), []),
    (mp(*GUARD[:2], "} else {", "r2 = U8[2]", "}", check="B.r0 == 0 && B.r2 == 0"), []),
    (mp(*GUARD, "if r0 == 1 {", "r1 = U8[2]", "}", check="B.r1 == 0"),
     [(14, "where none of the lines 9, 12 is reached, nothing reads into B.r1: it is 0 there, and `B.r1 == 0` holds")]),
    # The path without a read can't be taken: its two decisions contradict each other.
    (mp("if r0 == 1 {", "if r0 == 0 {", "} else {", "r1 = U8[0]", "}", "}", check="B.r0 == 1 && B.r1 == 0"), []),
    # An example with a read that is torn needlessly, and one that needs to be.
    (two("U16[0] = 1", second=["r0 = U16[0]"]),
     [(6, "B.0 takes its bytes from A.0 and the first zeros in the example of outcome 2, and needn't: "
          "with all from A.0 the outcome is the same")]),
    (two("Atomics.store(U16, 0, 1)", second=["r0 = Atomics.load(U16, 0)"]), []),
    (two("U16[0] = 1", second=["r0 = DV.getUint16(0, true)"]),
     [(6, "B.0 takes its bytes from A.0 and the first zeros in the example of outcome 2, and needn't: "
          "with all from A.0 the outcome is the same")]),
    (two("U8[0] = 1", second=["r0 = U16[0]"]), []),
    (two("U16[0] = 257", second=["r0 = DV.getUint16(0, true)"], check="B.r0 == 257"), []),
    # Several at once, in the order of their lines.
    (mp("if r1 == 0 {", "r2 = U8[0]", "}", check="B.r0 == 9 && B.r2 == 1"),
     [(8, "nothing before reads into r1, which is 0 here: `r1 == 0` always holds"),
      (11, "B can't read 9 into r0: `B.r0 == 9` never holds")]),
]

LITMUS = {
    "casfail": [(8, "7 can't be read here: this compareExchange never stores")],
    "casfail-silent": [(8, "7 can't be read here: this compareExchange never stores")],
    "corw": [(9, "A can't read 1 into r0: `A.r0 == 1` never holds")],
    "invented-store": [(9, "nothing before can read 1 into r0: `r0 == 1` never holds")],
    "mixed-bytes": [(10, f"`r0 = Atomics.load(U8, 0)` and `Atomics.store(U16, 0, 257)` on line 8 {NEVER}"),
                    (11, f"`r1 = Atomics.load(U8, 1)` and `Atomics.store(U16, 0, 257)` on line 8 {NEVER}")],
    "mp-sizes": [(11, f"`r0 = Atomics.load(U8, 2)` and `Atomics.store(U16, 1, 1)` on line 9 {NEVER}")],
    "race-unreached": [(9, "nothing before can read 2 into r0: `r0 == 2` never holds")],
    "sbmixed": [(11, f"`Atomics.store(U16, 1, 1)` and `r0 = Atomics.load(U8, 2)` on line 9 {NEVER}"),
                (12, f"`r0 = Atomics.load(U8, 0)` and `Atomics.store(U16, 0, 1)` on line 8 {NEVER}")],
    "seqlock-words": [(15, "B.2 takes its bytes from A.2 and the first zeros in the example of outcome 4, and needn't: with all from A.2 "
                           "the outcome is the same; so it is in those of outcomes 5, 6, 7, 8, 9, 10 and others")],
    "ww-sizes": [(10, f"`r0 = Atomics.exchange(U8, 1, 2)` and `Atomics.store(U16, 0, 257)` on line 8 {NEVER}")],
}
