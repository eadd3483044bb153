"""Rows for tools/where_test: files, the words behind the program, what stands on standard input, the status, and what the lines are
that have to be told. FILE in a line stands for the file's name."""

LISTS = """Set : Type. list : Set -> Set. arr : Set -> Set -> Set.
def El : Set -> Type.
[a, b] El (arr a b) --> El a -> El b.
cons : a : Set -> El a -> El (list a) -> El (list a).
def head : a : Set -> El a -> El (list a) -> El a.
"""
PAIRS = """Set : Type. bool : Set. arr : Set -> Set -> Set.
def El : Set -> Type.
[a, b] El (arr a b) --> El a -> El b.
sub : t : Set -> (El t -> El bool) -> Set.
pair : t : Set -> p : (El t -> El bool) -> El t -> El (sub t p).
def fst : t : Set -> p : (El t -> El bool) -> El (sub t p) -> El t.
"""
VECTORS = """nat : Type. z : nat. s : nat -> nat. vec : nat -> Type. nil : vec z. c : n : nat -> vec n -> vec (s n).
def p : nat -> nat. d : n : nat -> vec (p n). def tail : n : nat -> vec (s n) -> vec n.
def copy : n : nat -> vec n -> vec n.
"""
DOUBLE = "the right side has another type than the left side"
COMPARED = "the rule is accepted; each match then compares them"

TOLD = [
    # Types of rules, and variables in the place of wildcards.
    ({"f.dk": LISTS + "[a, d, x, l] head a d (cons _ x l) --> x."}, [], None, 1, [
        "at line 6 column 40: x", "    " + DOUBLE, "    expected: El a", "    its type: El _29",
        "    with `a` at columns 19 and 29 " + COMPARED, "    line 5: def head : a : Set -> El a -> El (list a) -> El a."]),
    ({"f.dk": LISTS + "[a, d, x, l] head a d (cons a x l) --> l."}, [], None, 1, [
        "    expected: El a", "    its type: El (list a)", "    line 5: def head : a : Set -> El a -> El (list a) -> El a."]),
    ({"f.dk": LISTS + "[a, d, x, l] head a d (cons a x l) --> head (list a) l d."}, [], None, 1, [
        "at line 6 column 56: d", "    expected: El (list (list a))", "    its type: El a"]),
    ({"f.dk": PAIRS + "[m] fst _ _ (pair _ _ m) --> m."}, [], None, 1, [
        "    expected: El _9", "    its type: El _19", "    with `a` at columns 9 and 19 " + COMPARED]),
    ({"f.dk": PAIRS + "def snd : t : Set -> u : Set -> El (arr t u) -> El t -> El u.\n"
      "both : t : Set -> u : Set -> El t -> El u -> El (arr u t).\n[x, y] snd _ _ (both _ _ x y) y --> x."}, [], None, 1, [
          "    " + DOUBLE, "    with `a` at columns 14 and 22 " + COMPARED]),
    ({"f.dk": VECTORS + "[n, v] tail n (c _ v) --> nil."}, [], None, 1, ["    expected: vec n", "    its type: vec z"]),
    ({"f.dk": VECTORS + "[n, m, v] copy n (c m v) --> v."}, [], None, 1, ["    " + DOUBLE]),
    ({"f.dk": "nat : Type. bool : Type. z : nat. vec : nat -> Type.\nthm t : n : nat -> vec n -> vec n := m => v => z."}, [], None, 1, [
        "at line 2 column 48: z", "    expected: vec m", "    its type: nat"]),
    # Names.
    ({"f.dk": "nat : Type.\n{|zero|} : nat.\nthm t : nat := zero."}, [], None, 1,
     ["at line 3 column 16: zero", "    line 2 declares {|zero|}: quotes make another name"]),
    ({"f.dk": "nat : Type.\nzero : nat.\nthm t : nat := {|zero|}."}, [], None, 1, ["    line 2 declares zero: quotes make another name"]),
    ({"f.dk": "nat : Type.\nzero : Nat."}, [], None, 1, ["    line 1 declares nat"]),
    ({"f.dk": "#REQUIRE m.\nx : Type.\nz : nat.", "m.dk": "a : Type.\nnat : Type."}, [], None, 1, ["    m.dk, line 2, declares m.nat"]),
    ({"f.dk": "x : m.refl.", "m.dk": "a : Type.\n{|refl|} : Type."}, [], None, 1,
     ["    m.dk, line 2, declares m.{|refl|}: quotes make another name"]),
    ({"f.dk": "#NAME cic.\nx : Type.\ny : cic.x.", "cic.dk": "z : Type."}, [], None, 1,
     ["    line 2 of this file declares x, and its #NAME gives it no name"]),
    ({"f.dk": "#NAME cic.\nx : Type.\ny : cic.x."}, [], None, 3,
     ["    the #NAME of this file says cic, and a module is named by its file: rename it"]),
    # One line.
    ({"f.dk": "nat : Type.\nz : nat.\nthm t : nat := x => z."}, ["--short"], None, 1,
     ["FILE:3:16: E24: an abstraction, but no function is expected: x => z; expected: nat"]),
    ({"f.dk": "nat : Type.\n" + "x" * 300 + " : nat."}, ["--short"], None, 1,
     ["FILE:2:1: E05: too long: %s ..." % ("x" * 60)]),
    ({"f.dk": "nat : Type. bool : Type. z : nat.\nthm t : bool := z."}, ["--short"], None, 1,
     ["FILE:2:17: E21: types not convertible: z: this has another type than is expected: bool; its type: nat"]),
    # Reports that are given.
    ({"f.dk": "nat : Type. bool : Type. z : nat.\nthm t : bool := z."}, ["--short", "--report", "refused 4 line 2 E21"], None, 1,
     ["FILE:2:17: E21: types not convertible: z: this has another type than is expected: bool; its type: nat"]),
    ({"f.dk": "nat : Type. bool : Type. z : nat.\nthm t : bool := z."}, ["--short", "--report=-"],
     "ok 1 nat\nok 2 bool\nok 3 z\nrefused 4 line 2 E21\n", 1,
     ["FILE:2:17: E21: types not convertible: z: this has another type than is expected: bool; its type: nat"]),
    ({"f.dk": "nat : Type."}, ["--report", "accepted 1"], None, 0, ["accepted 1"]),
    ({"f.dk": "nat : Type."}, ["--report", "refused 9 line 7 E21"], None, 1, ["the command is at line 7; this script can't find its text"]),
    ({"f.dk": "nat : Type. z : nat. eq : nat -> nat -> Type. refl : n : nat -> eq n n.\ndef f : nat -> nat. [n] f n --> f n.\n"
      "thm t : eq z (f z) := refl z."}, ["--report", "budget 7 line 3 1000"], None, 6, ["budget 7 line 3 1000", "at line 3 column 28: z"]),
    ({"f.dk": "nat : Type. z : nat. eq : nat -> nat -> Type. refl : n : nat -> eq n n.\ndef f : nat -> nat. [n] f n --> f n.\n"
      "thm t : eq z (f z) := refl z."}, ["--report", "budget 7 line 3 1000000000"], None, 6,
     ["its place is looked for with `--budget 1000000` or less"]),
    # Bytes that aren't seen.
    ({"f.dk": "\ufeffnat : Type."}, [], None, 1, ["    \\xef\\xbb\\xbfnat : Type.", "at line 1 column 1: \\xef\\xbb\\xbf"]),
]
# What `--json` has of a file: the fields that are compared.
OBJECTS = [
    (LISTS + "[a, d, x, l] head a d (cons _ x l) --> x.", [], {
        "report": "refused 8 line 6 E21", "status": 1, "file": "FILE", "line": 6, "column": 40, "end": {"line": 6, "column": 41},
        "code": "E21", "title": "types not convertible", "part": "x", "said": DOUBLE, "expected": "El a", "found": "El _29",
        "hints": ["with `a` at columns 19 and 29 " + COMPARED]}),
    ("nat : Type.\nf : nat -> nat.\nthm t : nat :=\n  f\n    (nat nat)\n  .", [], {
        "line": 5, "column": 10, "end": {"line": 5, "column": 13}, "code": "E20", "found": "Type", "expected": None}),
    ("nat : Type.\n", [], {"report": "accepted 1", "status": 0}),
]  # fmt: skip
# Of files of conformance/producers that are E21 by what a `def` hides, what is told.
PRODUCERS = {
    "pvs_words": ["at line 15 column 36: m", "    expected: El _9", "    its type: El _25", "    with `a` at columns 9 and 25 " + COMPARED],
    "hol_words": ["at line 16 column 35: x", "    expected: El _9", "    its type: El _22", "    with `a` at columns 9 and 22 " + COMPARED],
    "krajono_match_words": [
        "at line 14 column 62: c", "    expected: Term s (P _45 (refl _53 _55))", "    its type: Term s (P x (refl A x))",
        "    with `A` at columns 37 and 53, and `x` at columns 39, 45 and 55 " + COMPARED],
    "coqine_cast_words": ["at line 12 column 29: t", "    expected: T _15 a", "    its type: T _13 a",
                          "    with `b` at columns 13 and 15 " + COMPARED],
}  # fmt: skip
