"""What tools/check-draw wants of pictures of the tests of litmus/, worked out by hand."""

GREEN, RED, BLUE, ORANGE = "darkgreen", "firebrick", "mediumblue", "darkorange3"

# A choice by its sources: the clause that refuses it, and the words on that.
REFUSED = [
    ("sb", {"A.1": "init[1]", "B.1": "init[0]"}, "memory-order",
     ["1. A.0 before A.1: agent-order", "2. A.1 before B.0: B.0 may not stand between init[1] and A.1",
      "3. B.0 before B.1: agent-order", "4. B.1 before A.0: A.0 may not stand between init[0] and B.1", "so A.0 before itself"]),
    ("sb", {"A.1": "init[1]", "B.1": "A.0"}, None, []),
    ("mp", {"B.0": "A.1", "B.1": "init[0]"}, "coherent-reads",
     ["B.1 reads byte 0 from init[0], which A.0 writes over before the read", "1. init[0] before A.0: makes its byte",
      "2. A.0 before A.1: agent-order", "3. A.1 before B.0: synchronizes-with", "4. B.0 before B.1: agent-order"]),
    ("own", {"A.1": "init[0]"}, "coherent-reads",
     ["A.1 reads byte 0 from init[0], which A.0 writes over before the read", "1. init[0] before A.0: makes its byte",
      "2. A.0 before A.1: agent-order"]),
    ("tear", {"C.0": "A.0,B.0"}, "tear-free-reads",
     ["C.0 reads bytes of A.0 and of B.0, which have its range; none of the three may tear"]),
    ("teardv", {"C.0": "A.0,B.0"}, None, []),
    ("lb-atomic", {"A.0": "B.1", "B.0": "A.1"}, "happens-before",
     ["1. A.0 before A.1: agent-order", "2. A.1 before B.0: synchronizes-with", "3. B.0 before B.1: agent-order",
      "4. B.1 before A.0: synchronizes-with", "so A.0 before itself"]),
]

# A choice by its sources, and its pairs in a data race.
RACES = [
    ("mp", {"B.0": "init[1]", "B.1": "A.0"}, [("A.0", "B.1")]),
    ("mp", {"B.0": "init[1]", "B.1": "init[0]"}, []),
    ("mp", {"B.0": "A.1", "B.1": "A.0"}, []),
    ("mask", {"B.0": "init[0]"}, []),
    ("mask", {"B.0": "A.0"}, [("A.0", "B.0")]),
    ("twin", {"C.0": "B.0"}, [("A.0", "B.0"), ("B.0", "C.0")]),
    ("ww", {"C.0": "A.0", "C.1": "B.0"}, []),
    ("ww-half", {"A.1": "init[1]"}, [("A.0", "B.0")]),
    ("ww-sizes", {"B.0": "init[1]"}, [("A.0", "B.0")]),
    ("mixed-bytes", {"B.0": "A.0", "B.1": "init[1]"}, [("A.0", "B.0")]),
    ("swap", {"A.0": "init[0]", "B.0": "A.0"}, []),
    ("neighbour-stores", {"A.1": "A.0", "B.1": "B.0"}, []),
    ("lb", {"A.0": "B.1", "B.0": "A.1"}, [("A.0", "B.1"), ("A.1", "B.0")]),
]

# Words for bin/jslit-draw, with the picture's title, and the labels on its edges with their colors.
MARKED = [
    (["--why", "litmus/sb.lit"], r"sb: never, 1 attempt\nrefused by memory-order (29.7.4 sequentially consistent atomics)",
     [("1: agent-order", GREEN), ("2: before", GREEN), ("3: agent-order", GREEN), ("4: before", GREEN), ("byte 1", RED), ("byte 0", RED)]),
    (["--why", "litmus/lb-atomic.lit"], r"lb_atomic: never, 1 attempt\nrefused by happens-before (29.7.5 valid executions)",
     [("1: agent-order", GREEN), (r"byte 1\n2: synchronizes-with", GREEN), ("3: agent-order", GREEN),
      (r"byte 0\n4: synchronizes-with", GREEN)]),
    (["--why", "litmus/tear.lit"], r"tear: never, 2 attempts\n2 refused by tear-free-reads (29.7.3 tear free reads), this one first",
     [("byte 0", RED), ("byte 1", RED)]),
    (["--why", "--unmet", "litmus/own.lit"], r"own: always, 1 attempt\nrefused by coherent-reads (29.7.2 coherent reads)",
     [("1: makes its byte", GREEN), ("2: agent-order", GREEN), ("byte 0", RED)]),
    (["--why", "litmus/mpplain.lit"], r"mpplain: a valid execution that meets the condition\ndata race of A.1 and B.0",
     [("byte 1", RED), ("byte 0", RED), ("data race", ORANGE)]),
    (["--race", "litmus/mpplain.lit"], r"mpplain: the first data race\ndata race of A.0 and B.1",
     [("byte 1", RED), ("byte 0", RED), ("least racing pair", ORANGE)]),
    (["litmus/mp.lit", "B.0=A.1", "B.1=A.0"], r"mp: B.0 from A.1, B.1 from A.0\nvalid\nno data race",
     [(r"byte 1\nsynchronizes-with", BLUE), ("byte 0", RED)]),
]

# Words that nothing is drawn for, with the status and what is said.
WRONG = [
    (["litmus/none.lit"], 4, "litmus/none.lit: No such file or directory"),
    (["litmus/sb.lit"], 1, "no outcome meets the condition; draw one of the outcomes 1 to 3"),
    (["litmus/sb.lit", "4"], 1, "the report has the outcomes 1 to 3"),
    (["litmus/sb.lit", "one"], 2, "after the file stands one number of an outcome"),
    (["litmus/sb.lit", "A.1=init[1]"], 1, "B.1 has no source, as in B.1=init[0]: each read needs one for each of its bytes"),
    (["litmus/sb.lit", "A.1=init[0]", "B.1=init[0]"], 1, "A.1 reads byte 1, which init[0] does not write on any path"),
    (["litmus/sb.lit", "A.1=B.1", "B.1=init[0]"], 1, "A.1 reads byte 1, which B.1 does not write on any path"),
    (["litmus/sb.lit", "C.1=init[0]"], 1, "C.1 is no access: the agents are A, B"),
    (["litmus/sb.lit", "A.0=init[0]", "A.1=init[1]", "B.1=init[0]"], 1, "A.0 reads nothing on any path with the other reads given"),
    (["litmus/tear.lit", "C.0=A.0"], 1, "C.0 reads 2 bytes and has 1 sources"),
    (["litmus/lb.lit", "A.0=B.1", "B.0=init[1]"], 1, "the values read don't allow the paths that have these reads"),
    (["litmus/pub.lit", "B.0=A.1"], 1,
     "the values read don't allow the path of B that has these reads alone; on another one B.1 has no source, as in B.1=init[0]"),
    (["litmus/swap.lit", "A.0=A.0", "B.0=A.0"], 1, "A.0 is no source of its own"),
    (["litmus/sb.lit", "A.1="], 2, "is no EVENT=SOURCE"),
    (["litmus/sb.lit", "A.1=init[1],;", "B.1=init[0]"], 2, "A.1=init[1],; is no EVENT=SOURCE"),
    (["litmus/sb.lit", "A.1=init[1]", "2"], 2, "2 is no EVENT=SOURCE"),
    (["litmus/sb.lit", "A.1=init[1]", "A.1=B.0", "B.1=init[0]"], 2, "each read is named once"),
    (["litmus/sb.lit", "A.1=init[99]", "B.1=init[0]"], 1, "A.1 reads byte 1, which init[99] does not write on any path"),
    (["litmus/sb.lit", "\u00b2"], 2, "after the file stands one number of an outcome"),
    (["litmus/sb.lit", "9" * 5000], 2, "after the file stands one number of an outcome"),
    (["/dev/zero"], 1, "/dev/zero: refused 1 too_long line 1"),
    (["/dev/zero", "A.0=B.0"], 1, "/dev/zero: refused 1 too_long line 1"),
    (["--why", "/dev/zero"], 1, "/dev/zero: refused 1 too_long line 1"),
    (["--race", "/dev/zero"], 1, "/dev/zero: refused 1 too_long line 1"),
    (["a\x1b[31m\n\udcff.lit"], 4, "a\\x1b[31m\\x0a\\xff.lit: No such file"),
    (["litmus/sb.lit", "A\x1b=B\n"], 2, "A\\x1b=B\\x0a is no EVENT=SOURCE"),
    (["--why", "--unmet", "litmus/mask.lit"], 1, "always: there is no attempt, since no path can make B.r0 != 0 true"),
    (["--race", "litmus/sb.lit"], 1, "no execution has a data race"),
    (["--why", "--race", "litmus/sb.lit"], 2, "--why and --race don't go together"),
    (["--unmet", "litmus/sb.lit"], 2, "--unmet goes with --why"),
    (["--why", "litmus/sb.lit", "1"], 2, "nothing stands with --why and --race"),
]
