"""Rows for tools/ported_test: what stands in f.dk, the lines that are listed of it, and what `--write` makes of it. The lines stand
without the file's name and without the last one, which counts them; None for the text means that nothing changes."""

NAT = "nat : Type.\nzero : nat.\n"
HIDDEN = (
    "since the symbol has rules; a `def` hides what left sides find in its arguments: where a rule is then E21, "
    "write the variable in place of `_`"
)
CUT = "cut it by definitions: `def part := t.` in front, for a closed part t"
LISTS = (
    "Set : Type.\nlist : Set -> Set.\narr : Set -> Set -> Set.\n%s El : Set -> Type.\n[a, b] El (arr a b) --> El a -> El b.\n"
    "cons : a : Set -> El a -> El (list a) -> El (list a).\ndef head : a : Set -> El a -> El (list a) -> El a.\n"
    "[a, d, x, l] head a d (cons _ x l) --> x.\n"
)
PLAIN_MODULE = "a plain name for this module and for its file"
DELETED = "delete it: a module is named by its file"

ROWS = [
    # Bytes.
    ("\ufeffnat : Type.\n", ["1:1: \\xef\\xbb\\xbf: a byte order mark: delete it (safe)"], "nat : Type.\n"),
    (
        NAT + "x#1 : nat.\ndef y : nat := x#1.\n",
        ["3:1: x#1: {|x#1|}, at each place of the name (safe)", "4:16: x#1: {|x#1|}, at each place of the name (safe)"],
        NAT + "{|x#1|} : nat.\ndef y : nat := {|x#1|}.\n",
    ),
    ("'a : Type.\nx:'a.\n", ["1:1: 'a: {|'a|}, at each place of the name (safe)", "2:3: 'a: {|'a|}, at each place of the name (safe)"],
     "{|'a|} : Type.\nx:{|'a|}.\n"),
    (NAT + "def x : nat.\n[]x-->zero.\nf : nat->nat.\n", [], None),
    (NAT + "x : set-theory.a -> m.a-b.\n", ["3:5: set-theory.a: %s (look)" % PLAIN_MODULE,
     "3:21: m.a-b: m.{|a-b|}, at each place of the name (safe)"], NAT + "x : set-theory.a -> m.{|a-b|}.\n"),
    ("* : Type.\n", ["1:1: *: {|*|}, at each place of the name, where this is one (look)"], None),
    ("nat : Type.\nf : nat → nat.\n", ["2:9: →: `->` (look)"], None),
    ("nat : Type.\nx = nat.\n", ["2:3: =: {|=|}, at each place of the name, where this is one (look)"], None),
    ("{|a\nb|} : Type.\n", ["1:1: {|a b|}: a newline in a quoted name (look)"], None),
    ("\x7fELF\x00\x01\x02*;\x00.\n", ["1:5: \\x00: no file of Dedukti: it has bytes that no text has (look)"], None),
    (
        "// numbers\nconstant symbol nat : TYPE;\nsymbol plus : nat → nat → nat;\nrule plus $n 0 ↪ $n;\n",
        ["2:1: symbol: no file of Dedukti: Lambdapi's own syntax; `lambdapi export -o dk` writes Dedukti's (look)"],
        None,
    ),
    (NAT + "x : nat;\n", ["3:8: ;: no token begins with this (look)"], None),
    # Names.
    ("nat : Type.\nm.x : nat.\n1.5 : Type.\n", ["2:1: m.x: {|m.x|}, at each place of the name (look)",
     "3:1: 1.5: {|1.5|}, at each place of the name (look)"], None),
    ("nat : Type.\nf.x : nat.\n", ["2:1: f.x: x alone: a module declares its own names (look)"], None),
    ("nat : Type.zero : nat.def one : nat := zero.\n", ["1:7: Type.zero: a blank behind the dot, which ends the command (safe)",
     "1:19: nat.def: a blank behind the dot, which ends the command (safe)"], "nat : Type. zero : nat. def one : nat := zero.\n"),
    (NAT + "one : nat.two : nat.\n", ["3:7: nat.two: a blank behind the dot, which ends the command (safe)"],
     NAT + "one : nat. two : nat.\n"),
    (NAT + "one : m.two : nat.\n", ["3:7: m.two: a blank behind the dot, which ends the command (look)"], None),
    ("#REQUIRE m.\n#CHECK m.zero : m.nat.\n", [], None),
    ("x : {|a b|}.type.\n", ["1:5: {|a b|}.: %s (look)" % PLAIN_MODULE], None),
    ("{|a b|} : Type.\nx : {|a b|}.y : {|a b|}.\n", [], None),
    ("Kind : Type.\nx : Kind.\n", [], None),
    ("a" * 256 + " : Type.\n", ["1:1: %s ...: a shorter name, at each place of it (look)" % ("a" * 200)], None),
    ("{|%s|} : Type.\n" % ("a" * 255), [], None),
    # Directives.
    ("#NAME a-b.\nnat : Type.\n", ["1:1: #NAME a-b: %s (safe)" % DELETED], "\nnat : Type.\n"),
    ("#NAME {|SET001+1|}.\nnat : Type.\n", ["1:1: #NAME {|SET001+1|}: %s (safe)" % DELETED], "\nnat : Type.\n"),
    ("#NAME SYN040-1.\nnat : Type.\n", ["1:1: #NAME SYN040-1: %s (safe)" % DELETED], "\nnat : Type.\n"),
    ("#NAME f.nat : Type.\n", ["1:1: #NAME f.nat: a blank behind the dot, which ends the command (safe)"], "#NAME f. nat : Type.\n"),
    ("#REQUIRE {|a b|}.\n#REQUIRE a-b.\n",
     ["1:1: #REQUIRE {|a b|}: %s (look)" % PLAIN_MODULE, "2:1: #REQUIRE a-b: %s (look)" % PLAIN_MODULE], None),
    (NAT + '#PRINT "one. two".\n#WHNF zero.\n', ["3:1: #PRINT: delete the command: it asks and claims nothing (safe)",
     "4:1: #WHNF: delete the command: it asks and claims nothing (safe)"], NAT + "\n\n"),
    # Words in front, braces.
    (NAT + "{x} : nat.\n", ["3:1: { x }: without the braces (safe)"], NAT + "x : nat.\n"),
    (NAT + "{x} : nat := zero.\n", ["3:1: { x }: `thm` and the name without braces (safe)"], NAT + "thm x : nat := zero.\n"),
    (NAT + "{x} := zero.\n", ["3:1: { x }: `thm`, the name without braces, and its type (look)"], None),
    (NAT + "private one : nat := zero.\n", ["3:1: private: delete the word (safe)"], NAT + "def one : nat := zero.\n"),
    (NAT + "injective one : nat := zero.\n", ["3:1: injective: `def` in its place: it has a body (safe)"],
     NAT + "def one : nat := zero.\n"),
    (LISTS % "injective", ["4:1: injective: `def` in its place, " + HIDDEN + " (look)"], None),
    (
        "set : Type.\narr : set -> set -> set.\ninjective El : set -> Type.\n[a, b] El (arr a b) --> El a -> El b.\n",
        ["3:1: injective: `def` in its place, since the symbol has rules (safe)"],
        "set : Type.\narr : set -> set -> set.\ndef El : set -> Type.\n[a, b] El (arr a b) --> El a -> El b.\n",
    ),
    (
        "set : Type. arr : set -> set -> set.\ninjective El : set -> Type.\n[a, b] El (arr a b) --> El a -> El b.\n"
        "def same : a : set -> b : set -> El a -> El b -> set.\n[a, b, x] same a b x x --> a.\n",
        ["2:1: injective: `def` in its place, " + HIDDEN + " (look)"],
        None,
    ),
    ((LISTS % "").replace("\n El", "\nEl"), ["4:1: El: `def` in front, " + HIDDEN + " (look)"], None),
    (NAT + "def id : nat -> nat.\nid zero --> zero.\n",
     ["4:1: a rule without a context: `[x, y]` in front, with the rule's variables, `[]` where it has none (look)"], None),
    (NAT + "zero-or : nat -> nat := x => x.\n", ["3:1: zero-or: `def` in front: it has a body (safe)",
     "3:1: zero-or: {|zero-or|}, at each place of the name (safe)"], NAT + "def {|zero-or|} : nat -> nat := x => x.\n"),
    # Prefixes and brackets.
    (NAT + "f : ! x : nat. nat.\n", ["3:5: !: `x : A -> B` for `! x : A. B`; brackets round an A that is an arrow (safe)"],
     NAT + "f : x : nat -> nat.\n"),
    (NAT + "def lam : ! x : nat. nat := x => x.\n",
     ["3:11: !: `x : A -> B` for `! x : A. B`; brackets round an A that is an arrow (safe)"],
     NAT + "def lam : x : nat -> nat := x => x.\n"),
    (NAT + "f : nat -> ! g : nat -> nat. ! y : nat. nat.\nx : nat.\n",
     ["3:12: !: `x : A -> B` for `! x : A. B`; brackets round an A that is an arrow (safe)",
      "3:30: !: `x : A -> B` for `! x : A. B`; brackets round an A that is an arrow (safe)"],
     NAT + "f : nat -> g : (nat -> nat) -> y : nat -> nat.\nx : nat.\n"),
    (NAT + "def f : (nat -> nat) -> nat -> nat := \\g : nat -> nat. \\x. g x.\n",
     ["3:39: \\: `x : A => t` for `\\x : A. t`; brackets round an A that is an arrow (safe)",
      "3:56: \\: `x : A => t` for `\\x : A. t`; brackets round an A that is an arrow (safe)"],
     NAT + "def f : (nat -> nat) -> nat -> nat := g : (nat -> nat) => x => g x.\n"),
    (NAT + "f : (nat -> nat) -> nat.\ndef x : nat := f \\y : nat. y.\n",
     ["4:18: \\: `x : A => t` for `\\x : A. t`; brackets round an A that is an arrow (look)"], None),
    (NAT + "! : nat -> nat.\ndef x : nat -> nat := ! => !.\n", [], None),
    (NAT + "def f : (nat -> nat) -> nat := (g : nat -> nat) => g zero.\n",
     ["3:32: (x : A) =>: `x : A =>`, without the brackets; brackets round an A that is an arrow (safe)"],
     NAT + "def f : (nat -> nat) -> nat := g : (nat -> nat) => g zero.\n"),
    (NAT + "def f : (nat -> nat) -> nat.\n[] f ((x : nat) => x) --> zero.\n",
     ["4:7: (x : A) =>: `x =>`: in a left side a variable has no type (look)"], None),
    (NAT + "f : (nat -> nat) -> nat.\ndef x : nat := f (y : nat) => y.\n",
     ["4:18: (x : A) =>: `x : A =>`, without the brackets; brackets round an A that is an arrow (look)"], None),
    # Limits.
    (NAT + "x : %snat%s.\n" % ("(" * 1000, ")" * 1000), [], None),
    (NAT + "x : %snat%s.\n" % ("(" * 1001, ")" * 1001), ["3:1005: level 1,001: %s (look)" % CUT], None),
    (NAT + "f : %snat.\n" % ("nat -> " * 1001), ["3:7009: level 1,001: %s (look)" % CUT], None),
    (NAT + "def f %s: nat -> nat.\n" % ("(x : nat) " * 1000), ["3:10013: level 1,001: %s (look)" % CUT], None),
    (NAT + "f : nat.\nthm t : nat := f%s.\n" % (" zero" * 1000), [], None),
    (NAT + "f : nat.\nthm t : nat := f%s.\n" % (" zero" * 1001), ["4:5018: argument 1,001: %s (look)" % CUT], None),
    (NAT + "def f : nat -> nat.\n[] f%s (zero) --> zero.\n" % (" zero" * 1000), ["4:5006: argument 1,001: %s (look)" % CUT], None),
]
# Files that belong together: what stands in them, the lines that are listed, and what is written where something is.
TOGETHER = [
    (
        {"cic.dk": "nat : Type.\nEl : nat -> Type.\n", "own.dk": "nat : Type.\ndef El : nat -> nat.\n[x] El x --> x.\n"},
        [],
        {},
    ),
    (
        {"cic.dk": "nat : Type.\ninjective El : nat -> Type.\n", "own.dk": "#REQUIRE cic.\n[x] cic.El x --> cic.nat.\n"},
        ["cic.dk:2:1: injective: `def` in its place, since the symbol has rules (safe)"],
        {"cic.dk": "nat : Type.\ndef El : nat -> Type.\n"},
    ),
]
