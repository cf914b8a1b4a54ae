"""First attempts at a text, each with what bin/jslit-explain has to say: a line in place of one of BASE, the token at the caret
('' where something is missing at the end), and words of the advice. WHOLE has whole texts, with the line at fault. SEVERAL has
texts with all their faults: of each the line, what the program says of it, and the last thing that is said."""
from litmus.program import LIMITS

BASE = """test t
bytes 4
agent A
U8[0] = 1
r0 = U8[1]
if r0 == 1 {
r1 = U8[2]
}
agent B
Atomics.store(U8, 1, 1)
r0 = Atomics.load(U8, 0)
check A.r0 == 0 && B.r0 == 0
"""
A = 'agent A\n'

LINES = [
    (1, "test mp-plain", "-", "write: test mp_plain"),
    (1, "test 2+2w", "2", "write: test _2_2w"),
    (1, 'test "sb"', '"', "write: test sb"),
    (1, "test: sb", ":", "write: test sb"),
    (1, "Test sb", "Test", "`test` has small letters\n  write: test sb"),
    (1, "name: sb", "name", "write: test sb"),
    (1, "test", "", "write: test mine"),
    (1, "test " + "x" * 33, "x", "at most 32"),
    (1, "// café", "\u00e9", "`é` (U+00E9) is no ASCII, and may not stand in a comment either"),
    (1, "test t // \v", "", "byte 11 (vertical tab) is a control character"),
    (1, "test t // \x7f", "", "byte 127 (delete) is a control character"),
    (1, "test t // \x85", "", "U+0085 is no ASCII"),
    (2, "bytes = 4", "=", "write: bytes 4"),
    (2, "bytes: 4", ":", "write: bytes 4"),
    (2, "size 4", "size", "write: bytes 4"),
    (2, "bytes 4 bytes", "bytes", "write: bytes 4"),
    (2, "bytes", "", "write: bytes 8"),
    (2, "bytes \u00b2", "\u00b2", "`\u00b2` (U+00B2) is no ASCII"),
    (1, "test t;\nbytes \u00b2", ";", "no `;` and no `,` ends a line"),
    (2, "bytes 0", "0", f"1 to {LIMITS['block']} bytes"),
    (2, "bytes 64", "64", f"1 to {LIMITS['block']} bytes"),
    (2, "bytes 0x10", "x10", "write: bytes 16"),
    (2, "// none", "agent", "`bytes N`, the size of the block: it is missing"),
    (3, "agent A:", ":", "write: agent A"),
    (3, "agent A {", "{", "write: agent A"),
    (3, "agent A { U8[0] = 1 }", "{", "an agent's line ends with its name, and each statement stands on a line of its own"),
    (3, "agent 0", "0", "write: agent P0"),
    (3, "agent", "", "write: agent A"),
    (3, "thread A", "thread", "write: agent A"),
    (3, "worker A:", "worker", "write: agent A"),
    (3, "P0:", "P0", "write: agent P0"),
    (3, "Agent A", "Agent", "write: agent A"),
    (3, "// nobody", "U8", "statements and the check stand after a line `agent NAME`"),
    (4, "U8[0] = 1;", ";", "write: U8[0] = 1"),
    (4, "U8[0] = 1; U8[1] = 1", ";", "each statement stands on a line of its own"),
    (4, "U8[0] = -1", "-", "write: U8[0] = 255"),
    (4, "U16[0] = -2", "-", "write: U16[0] = 65534"),
    (4, "U8[0] = 0x10", "x10", "write: U8[0] = 16"),
    (4, "U8[0] = 1n", "n", "write: U8[0] = 1"),
    (4, "U8[0] = 01", "01", "write: U8[0] = 1"),
    (4, "U8[0] = 1.5", ".", "numbers are whole"),
    (4, "I32[0] = 1", "I32", "write: U32[0] = 1"),
    (4, "i8[0] = 1", "i8", "write: U8[0] = 1"),
    (4, "Int32Array[0] = 1", "Int32Array", "write: U32[0] = 1"),
    (4, "F64[0] = 1", "F64", "no 64-bit arrays"),
    (4, "U8[r0] = 1", "r0", "an index is a number"),
    (4, "U8[0] = r0", "r0", "only numbers are stored"),
    (4, "U8[0] = U8[1]", "U8", "a line is one access"),
    (4, "U8[0] = 2 + 1", "+", "there is no arithmetic"),
    (4, "U8[0]++", "+", "there is no arithmetic"),
    (4, "U8[0] += 1", "+", "there is no arithmetic"),
    (4, "U8(0) = 1", "(", "write: U8[0] = 1"),
    (4, "x = 1", "x", "write `U8[0] = 1`"),
    (4, "U8[0] := 1", ":", "write: U8[0] = 1"),
    (4, "U8[0] == 1", "==", "`=` puts a value"),
    (4, "U8[0] = 1 # the data", "#", "write: U8[0] = 1"),
    (4, "U8[0] = 1 /* the data */", "/", "write: U8[0] = 1"),
    (4, "U8[0] = 256", "256", "the greatest number here is 255; 256 modulo 256 is 0; U16 takes more"),
    (4, "U8[4] = 1", "4", "here 0 to 3; with `bytes 5` the line stands"),
    (4, "U32[1] = 1", "1", "an index counts elements and not bytes, here 0 to 0; byte 1 is in U32[0]; with `bytes 8` the line stands"),
    (4, "DV.setUint16(3, 1, true)", "3", "here 0 to 2; with `bytes 5` the line stands"),
    (4, "DV.setUint16(0, 1)", ")", "write: DV.setUint16(0, 1, true)"),
    (4, "DV.setUint8(0, 1, true)", ",", "write: DV.setUint8(0, 1)"),
    (4, "DV.setInt16(0, 1, true)", "setInt16", "write: DV.setUint16(0, 1, true)"),
    (4, "while r0 == 0 {", "while", "there are no loops"),
    (4, "fence", "fence", "there are no fences"),
    (4, "}", "}", "no `if` is open here"),
    (4, "U8[0] = 1,", ",", "write: U8[0] = 1"),
    (4, "store(U8, 0, 1)", "store", "write: Atomics.store(U8, 0, 1)"),
    (4, "Atomics.store(U8, 0)", ")", "lines that begin so: `Atomics.store(VIEW, NUM, NUM)`"),
    (4, "U8[0] = true", "true", "write: U8[0] = 1"),
    (4, "[x] = 1", "[", "byte n is `U8[n]`"),
    (4, "U8[-1] = 1", "-", "an index counts from 0"),
    (4, "for (let i = 0; i < 3; i++) {", "for", "there are no loops"),
    (5, "r0 = mem[1]", "mem", "where `mem` is one of these, write that"),
    (5, "flag = U8[1]", "flag", "write: r0 = U8[1]"),
    (4, "U8[0] = Atomics.load(U8, 1)", "Atomics", "first `r2 = Atomics.load(U8, 1)`, and then for each value an `if` with a store of it"),
    (4, "ta[0] = 1", "ta", "where `ta` is one of these, write that"),
    (5, "r0 = Atomics.load(0)", "0", "write: r0 = Atomics.load(U8, 0)"),
    (5, "print r0", "print", "nothing is printed"),
    (5, "let r0 = U8[1]", "let", "write: r0 = U8[1]"),
    (5, "const r0 = U8[1];", "const", "write: r0 = U8[1]"),
    (5, "x = U8[1]", "x", "write: r0 = U8[1]"),
    (5, "r8 = U8[1]", "r8", "eight registers"),
    (5, "R0 = U8[1]", "R0", "write: r0 = U8[1]"),
    (5, "U8[1]", "", "write: r0 = U8[1]"),
    (5, "r0 = r1", "r1", "a register only takes what an access reads"),
    (5, "r0 = 1", "1", "a register only takes what an access reads"),
    (5, "r0 = x", "x", "memory has no names"),
    (5, "r0 = DV.getUint16(0)", ")", "write: r0 = DV.getUint16(0, true)"),
    (5, "r0 = DV.getUint16(0, false)", "false", "write: r0 = DV.getUint16(0, true)"),
    (5, "r0 = DV.getUint8(0, true)", ",", "write: r0 = DV.getUint8(0)"),
    (5, "r0 = DV[0]", "[", "a DataView is used by its calls"),
    (6, "if (r0 == 1) {", "(", "write: if r0 == 1 {"),
    (6, "if (r0 === 1) {", "(", "write: if r0 == 1 {"),
    (6, "If r0 == 1 {", "If", "write: if r0 == 1 {"),
    (6, "if (r0 == 1)\n{", "(", "an if is one line, here lines 6 to 7\n  an if has no parentheses\n  write: if r0 == 1 {"),
    (6, "if (\n  r0 === 1\n) {", "(",
     "an if is one line, here lines 6 to 8\n  equal is `==`\n  an if has no parentheses\n  write: if r0 == 1 {"),
    (6, "if r0 == 1\n{", "", "an if is one line, here lines 6 to 7\n  write: if r0 == 1 {"),
    (6, "if flag == 1 {", "flag", "an if looks at a register of its agent"),
    (6, "if r0 === 1 {", "=", "write: if r0 == 1 {"),
    (6, "if r0 !== 1 {", "=", "write: if r0 != 1 {"),
    (6, "if r0 == 1", "", "write: if r0 == 1 {"),
    (6, "if r0 == 1:", ":", "write: if r0 == 1 {"),
    (6, "if r0 = 1 {", "=", "write: if r0 == 1 {"),
    (6, "if r0 {", "{", "write: if r0 != 0 {"),
    (6, "if A.r0 == 1 {", "A", "write: if r0 == 1 {"),
    (6, "if 1 == r0 {", "1", "write: if r0 == 1 {"),
    (6, "if r0 > 0 {", ">", "comparisons are `==` and `!=` alone"),
    (6, "if r0 == r1 {", "r1", "a register is compared with a number"),
    (6, "if r0 == 1 && r1 == 1 {", "&&", "put one `if` into the other"),
    (6, "if U8[0] == 1 {", "U8", "load it on the line before"),
    (6, "if r0 == 1 { r1 = U8[2] }", "r1", "stand on lines of their own"),
    (6, "if r0 == 1 {\nU8[3] = 1\n}\nelse {", "else", "write: } else {"),
    (6, "if r0 == 1 {\nU8[3] = 1\n} else if r0 == 2 {", "if", "there is no `else if`"),
    (7, "if r1 == 1 {", "agent", "the `if` on line 6 isn't ended"),
    (8, "}\n} else {", "}", "no `if` is open here"),
    (8, "// the end", "agent", "the `if` on line 6 isn't ended"),
    (9, "agent A", "A", "the agent on line 3 is named so too"),
    (10, "atomics.store(U8, 1, 1)", "atomics", "write: Atomics.store(U8, 1, 1)"),
    (10, "Atomics.Store(U8, 1, 1)", "Store", "write: Atomics.store(U8, 1, 1)"),
    (10, "Atomics.store(U8[1], 1)", "[", "write: Atomics.store(U8, 1, 1)"),
    (10, "r1 = Atomics.store(U8, 1, 1)", "store", "write: Atomics.store(U8, 1, 1)"),
    (10, "Atomics.add(U8, 1, 1)", "add", "there is no Atomics.add"),
    (10, "Atomics.wait(U32, 0, 0)", "wait", "no waiting and no waking"),
    (10, "Atomics.exchange(U8, 1, 1)", "exchange", "write: r1 = Atomics.exchange(U8, 1, 1)"),
    (10, "Atomics.store(U8, 1, Atomics.load(U8, 0))", "Atomics",
     "first `r1 = Atomics.load(U8, 0)`, and then for each value an `if` with a store of it"),
    (10, "Atomics.store(ta, 1, 1)", "ta", "where `ta` is one of these, write that"),
    (10, "flag = Atomics.load(U8, 1)", "flag", "write: r1 = Atomics.load(U8, 1)"),
    (10, "r9 = Atomics.load(U8, 1)", "r9", "write: r1 = Atomics.load(U8, 1)"),
    (10, "r0 = U64[0]", "U64", "there are no floating and no 64-bit arrays"),
    (10, "r0 = BigUint64Array[0]", "BigUint64Array", "there are no floating and no 64-bit arrays"),
    (10, "BigInt64Array[0] = 1n", "BigInt64Array", "there are no floating and no 64-bit arrays"),
    (10, "r0 = Atomics.load(BigInt64Array, 0)", "BigInt64Array", "there are no floating and no 64-bit arrays"),
    (10, "{", "{", "an agent's statements have no braces: they follow its line, up to the next agent\n  write: nothing in its place"),
    (11, "Atomics.load(U8, 0)", "load", "write: r0 = Atomics.load(U8, 0)"),
    (11, "r0 = Atomics.load(U8[0])", "[", "write: r0 = Atomics.load(U8, 0)"),
    (11, "r0 = Atomics.cas(U8, 0, 0, 1)", "cas", "write: r0 = Atomics.compareExchange(U8, 0, 0, 1)"),
    (11, "r0 = Atomics.load(I32, 0)", "I32", "write: r0 = Atomics.load(U32, 0)"),
    (12, "exists (0:r0=0 /\\ 1:r0=0)", "exists", "write: check (A.r0 == 0 && B.r0 == 0)"),
    (12, "exists A.r0 == 0", "exists", "write: check A.r0 == 0"),
    (12, "check A.r0 = 0", "=", "write: check A.r0 == 0"),
    (12, "check A.r0 === 0", "=", "write: check A.r0 == 0"),
    (12, "check A.r0 == 0;", ";", "write: check A.r0 == 0"),
    (12, "check A.r0 == 0 and B.r0 == 0", "and", "write: check A.r0 == 0 && B.r0 == 0"),
    (12, "check A:r0 == 0", ":", "write: check A.r0 == 0"),
    (12, "check r0 == 0", "==", "registers are named with their agent"),
    (12, "check r1 == 0", "==", "write: check A.r1 == 0"),
    (12, "check flag == 0", "==", "registers are named with their agent, as A.r0 or B.r0; a name alone is none"),
    (12, "check x == 1 && B.r0 == 0", "==", "and what memory holds at the end can't be asked"),
    (12, "check A.r0", "", "write: check A.r0 != 0"),
    (12, "check A.r0 == B.r0", "B", "a register is compared with a number"),
    (12, "check A.r0 < 1", "<", "comparisons are `==` and `!=` alone"),
    (12, "check U8[0] == 1", "[", "what memory holds at the end can't be asked"),
    (12, "check (A.r0 == 0", "", "something is missing here"),
    (12, "check C.r0 == 0", "C", "the agents are A, B; `C` is none of them"),
    (12, "check A.r5 == 0", "r5", "agent A writes only r0, r1"),
    (12, "check A.r0 == 0\ncheck B.r0 == 0", "check", "the check on line 12 is the last line"),
    (12, "check " + "!" * 9 + "A.r0 == 0", "check", "at most 8 `!` and `(`"),
    # Slips that look like others.
    (5, "r0 = Atomics.laod(U8, 1)", "laod", "write: r0 = Atomics.load(U8, 1)"),
    (5, "r0 = Atomics.or(U8, 1, 4)", "or", "`r0 = Atomics.compareExchange(U8, 1, n, n | 4)` with the numbers put in does it"),
    (4, "Atomics.isLockFree(4)", "isLockFree", "there is no Atomics.isLockFree: it accesses nothing, so leave it out"),
    (4, "init U8[0] = 5", "init", "memory begins as 0: a first value is stored by an agent"),
    (4, "U8[0] = 1 U8[1] = 2", "U8[1]", "write: U8[0] = 1"),
    (5, "r0 = (wr + 1) % 2", "(", "there is no arithmetic: the values stored and compared are plain numbers"),
    (4, "agnet C", "agnet", "write: agent C"),
    (12, "check A.r0 == 0 => B.r0 == 0", "=", "there is no `=>`: `a => b` is `!(a) || b`"),
    (12, "check 0:r0 == 1", "0", "write: check A.r0 == 1"),
    (12, "check A.r0" + " " * 60_000 + "x", "x", "`x` can't stand here: `==` or `!=` could"),
    (12, "check " + "U8[r0" * 12_000, "[", "`[` can't stand here"),
    (12, "// no question", "", "`check B.r0 == 0`, of the registers A.r0, A.r1, B.r0"),
]

LOADS = "r0 = U8[0]\n"
WHOLE = [
    ("\ufeff" + BASE, 1, "the file begins with a byte order mark"),
    (BASE.replace("\n", "\r"), 1, "the lines end with CR alone"),
    ("X86 SB\n{ x=0; y=0; }\n P0 | P1 ;\n MOV [x],$1 | MOV [y],$1 ;\nexists (0:EAX=0)\n", 1, "this is a test for herd7"),
    ("const sab = new SharedArrayBuffer(4);\nconst U8 = new Uint8Array(sab);\n", 1, "this is JavaScript"),
    ("", 1, "the text is empty"),
    ("test t\nbytes 4\n" + A + LOADS + "if r0 == 1 {\n" + LOADS, 6, "the `if` on line 5 isn't ended"),
    ("test t\nbytes 4\n" + A + "U8[0] = 1\n", 4, "none does"),
    ("test t\nbytes 4\n" + "".join(f"agent a{n}\n" for n in range(LIMITS["agents"] + 1)) + "check a0.r0 == 0\n", LIMITS["agents"] + 3,
     f"a test has {LIMITS['agents']} agents at most"),
    ("test t\nbytes 4\n" + A + LOADS + "if r0 == 0 {\n" * 9 + "}\n" * 9 + "check A.r0 == 0\n", 13,
     "8 ifs can be open, here those on lines 5, 6"),
    ("test t\n" + "\n" * 65_000 + "x\n", 65_002, "`x` can't stand here"),
    ("test t\n" + " " * 65_000 + "\nx\n", 3, "`x` can't stand here"),
    ("test t\nbytes 4\n" + A + LOADS + "check A.r0 == 0\n" + " " * 65536, 1, f"the text has more than {LIMITS['text']} bytes:"),
    ("test t\nbytes 4\n" + A + LOADS * (LIMITS["accesses"] - 1) + "agent B\n" + LOADS * 3 + "check A.r0 == 0\n", None,
     f"A {LIMITS['accesses'] - 1}, B 3 accesses: {LIMITS['accesses'] + 2} together, and {LIMITS['accesses']} at most"),
    ("test t\nbytes 4\n" + A + LOADS + "if r0 == 0 {\n}\n" * 13 + "check A.r0 == 0\n", None,
     "A has 8192 paths (lines 5, 7, 9, 11, 13, 15, 17, 19, 21, 23, 25, 27, 29): 8192 combinations"),
    ("test t\nbytes 4\n" + A + "r0 = U32[0]\n" * 7 + "agent B\nU32[0] = 1\nU32[0] = 2\nU32[0] = 3\ncheck A.r0 == 0\n", None,
     "A: line 4, `r0 = U32[0]`, 4 * 4 * 4 * 4 = 256 ways"),
    ("test t\nbytes 4\n" + A + "r0 = U32[0]\n" * 7 + "agent B\nU32[0] = 1\nU32[0] = 2\nU32[0] = 3\ncheck A.r0 == 0\n", None,
     "all accesses are of one size: a test of words whose accesses are all atomic or of one size often fits with `U8`"),
]

SLOPPY = """Test mp
bytes 8
agent producer {
  ta[0] = 42;
  Atomics.store(ta, 1, 1);
}
agent consumer {
  const flag = Atomics.load(ta, 1);
  if (flag === 1)
  {
    const datum = ta[0];
  }
}
check flag === 1 && datum !== 42
"""
# Two arrays: each has cells of its own.
PASTED = """test mp
bytes 8
agent A
data[0] = 42; Atomics.store(flag, 0, 1);
agent B
if (Atomics.load(flag, 0) === 1) {
  r1 = data[0]
}
check B.r0 === 1 && B.r1 !== 42
"""
SEVERAL = [
    # An if on a load, one with two comparisons, and `else if`: what is said has one end more.
    ("test t\nbytes 4\nagent A\nif (U8[0] === 1) {\n} else if (r0 === 2) {\n}\n}\nif r0 == 1 && r0 != 3 {\n}\n}\nagent B { r0 = U8[1] }\n"
     "check A.r0 == 0\n",
     [(4, "3 syntax", "       if r0 == 1 {"), (5, "3 syntax", "       if r0 == 2 {"), (8, "3 syntax", "       if r0 != 3 {"),
      (11, "3 syntax", "       r0 = U8[1]")]),
    # `}` and `else {` on two lines.
    ("test t\nbytes 4\nagent A\nr0 = U8[0]\nif r0 == 1 {\nU8[1] = 1\n}\nelse {\nU8[1] = 2\n}\ncheck A.r0 == 0\n",
     [(8, "3 syntax", "write: } else {")]),
    (PASTED, [(4, "3 syntax", "       Atomics.store(U32, 1, 1) // flag: U32[1]"), (6, "3 syntax", "       if r0 == 1 {"),
              (7, "3 syntax", "write: r1 = U32[0] // data: U32[0]"), (9, "3 syntax", "write: check B.r0 == 1 && B.r1 != 42")]),
    # An index that is no number: where the elements stand can't be told, and nothing is written.
    ("test t\nbytes 8\nagent A\ndata[i] = 1\nflag[0] = 1\nr0 = Atomics.load(U32, 0)\ncheck A.r0 == 0\n",
     [(4, "3 syntax", "docs/FORMAT.md has the forms of a line, \"Forms of a line\""),
      (5, "3 syntax", "where it is another array, give it elements that no other line has")]),
    # A mark of bytes, and a blank that is none: what is behind them is as it would be without.
    ("\ufefftest t\nbytes 1\nagent A\nr0\u00a0= U8[0]\ncheck A.r0 == 0\n",
     [(1, "2 not_ascii", "write: test t"), (4, "2 not_ascii", "write: r0 = U8[0]")]),
    ("test mp\nbytes 8\nagent P\nU32[0] = 42\nAtomics.store(U32, 1, 1)\nagent C\nflag = Atomics.load(U32, 1)\nif flag == 1 {\n"
     "datum = U32[0]\n}\ncheck flag == 1 && datum != 42\n",
     [(7, "3 syntax", "write: r0 = Atomics.load(U32, 1)"), (8, "3 syntax", "write: if r0 == 1 {"), (9, "3 syntax", "write: r1 = U32[0]"),
      (11, "3 syntax", "write: check C.r0 == 1 && C.r1 != 42")]),
    (SLOPPY, [(1, "3 syntax", "write: test mp"), (3, "3 syntax", "write: agent producer"),
              (4, "3 syntax", "write: U32[0] = 42 // ta[0]: U32[0]"), (5, "3 syntax", "write: Atomics.store(U32, 1, 1) // ta[1]: U32[1]"),
              (6, "4 misplaced", "write: nothing in its place"), (7, "3 syntax", "write: agent consumer"),
              (8, "3 syntax", "write: r0 = Atomics.load(U32, 1) // ta[1]: U32[1]"),
              (9, "3 syntax", "write: if r0 == 1 {"), (11, "3 syntax", "write: r1 = U32[0] // ta[0]: U32[0]"),
              (13, "4 misplaced", "write: nothing in its place"), (14, "3 syntax", "write: check consumer.r0 == 1 && consumer.r1 != 42")]),
    # Two loads without a register, and one that stands: each gets its own.
    ("test t\nbytes 4\nagent A\nU8[0]\nAtomics.load(U8, 1)\nr0 = U8[2]\ncheck A.r0 == 0\n",
     [(4, "3 syntax", "write: r1 = U8[0]"), (5, "3 syntax", "write: r2 = Atomics.load(U8, 1)")]),
    # All eight registers are used.
    ("test t\nbytes 4\nagent A\n" + "".join(f"r{n} = U8[0]\n" for n in range(LIMITS["registers"])) + "U8[1]\ncheck A.r0 == 0\n",
     [(12, "3 syntax", "what is read goes to a register, always, and this agent uses all eight: let one of them go")]),
    # A line for which there is nothing to write: what follows of its own is told, and nothing that might come of it.
    ("test t\nbytes 4\nagent A\nwhile r0 == 0 {\nr0 = U8[0];\n}\nU8[1] = 256\nagent B\ncheck A.r1 == 0\n",
     [(4, "3 syntax", "there are no loops: write the turns out, one in the `if` of the other"), (5, "3 syntax", "write: r0 = U8[0]"),
      (7, "8 literal_range", "the greatest number here is 255; 256 modulo 256 is 0; U16 takes more")]),
    # An if that isn't ended, and what comes behind it.
    ("test t\nbytes 4\nagent A\nr0 = U8[0]\nif r0 == 1 {\nU8[1] = 1\nagent B\nr0 = U8[1];\ncheck A.r0 == 0\n",
     [(7, "4 misplaced", "       agent B"), (8, "3 syntax", "write: r0 = U8[1]")]),
    ("test t\nbytes 4\nagent A\nr0 = U8[0]\nif r0 == 1 {\nagent B\nr0 = U8[1]\nif r0 == 1 {\ncheck A.r0 == 0 && B.r1 == 0\n",
     [(6, "4 misplaced", "       agent B"), (9, "4 misplaced", "       check A.r0 == 0 && B.r1 == 0"),
      (9, "10 unknown_name", "agent B writes only r0: ask for a register that some access reads into")]),
    ("test t\nbytes 4\nagent A\nr0 = U8[0]\nif r0 == 1 {\nagent B\nr0 = U8[1]\nif r0 == 1 {\n} else {\n} else {\n}\ncheck A.r0 == 0\n",
     [(6, "4 misplaced", "       agent B"), (10, "4 misplaced", "the `if` on line 8 has an else on line 9 already")]),
    # A fault behind another of the same line.
    ("test t\nbytes 4\nagent A\nI32[1] = 1;\nr0 = U8[0]\ncheck A.r0 == 0\n",
     [(4, "3 syntax", "write: U32[1] = 1"), (4, "9 out_of_block", "here 0 to 0; byte 1 is in U32[0]; with `bytes 8` the line stands")]),
    # A comment alone is no ASCII, and a text that isn't one of this format has one fault.
    ("test t\nbytes 4 // \u00e9\nagent A\nr0 = U8[0]; // \u00e9\ncheck A.r0 == 0\n",
     [(2, "2 not_ascii", "`\u00e9` (U+00E9) is no ASCII, and may not stand in a comment either"),
      (4, "2 not_ascii", "`\u00e9` (U+00E9) is no ASCII, and may not stand in a comment either"), (4, "3 syntax", "write: r0 = U8[0]")]),
    ("const sab = new SharedArrayBuffer(4);\nfoo;\nbar;\n",
     [(1, "3 syntax", "this is JavaScript: jslit-js takes it as it is; or keep the accesses alone, under an `agent` line for "
      "each worker, as in docs/FORMAT.md, \"From JavaScript\"")]),
    # No more than twelve.
    ("test t\nbytes 4\nagent A\n" + "r0 = U8[0];\n" * 20 + "check A.r0 == 0\n",
     [(n, "3 syntax", "write: r0 = U8[0]" if n < 15 else "these are the first 12 faults; there may be more") for n in range(4, 16)]),
]
