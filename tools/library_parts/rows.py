"""Theories for tools/library_test, with what the scripts are to write of them, by docs/library.md and by hand."""

# Of each theory what its files hold, FILE's first; the merged text; and of each command its line, column, file and both names.
MERGED = {
    "two modules, one needed twice": (
        {
            "f.dk": "#NAME f.\nthm one : b.t := b.c (; a comment ;) a.x.\n(; between ;) two : a.t. three : f.two -> b.t.\n",
            "a.dk": "t : Type.\n\n  x : t.",
            "b.dk": "#REQUIRE a.\nt : Type.\nc : a.t -> t.\n",
        },
        "a_t : Type.\na_x : a_t.\nb_t : Type.\nb_c : a_t -> b_t.\nthm one : b_t := b_c (; a comment ;) a_x.\n"
        "two : a_t.\nthree : two -> b_t.\n",
        "1 1 a.dk a.t a_t\n3 3 a.dk a.x a_x\n2 1 b.dk b.t b_t\n3 1 b.dk b.c b_c\n2 1 f.dk one one\n3 15 f.dk two two\n"
        "3 26 f.dk three three\n",
    ),
    "a directive comes first, and a need in the middle": (
        {"f.dk": "a : Type. #REQUIRE n. b : m.a.", "m.dk": "a : Type.", "n.dk": "a : Type.\nb : m.a. c : b."},
        "a : Type.\nn_a : Type.\nm_a : Type.\nn_b : m_a.\nn_c : n_b.\nb : m_a.\n",
        "1 1 f.dk a a\n1 1 n.dk n.a n_a\n1 1 m.dk m.a m_a\n2 1 n.dk n.b n_b\n2 10 n.dk n.c n_c\n1 23 f.dk b b\n",
    ),
    "names that stand in the theory already": (
        {"f.dk": "m_a : Type. thm t : m.a -> m.a := m_b : m.a => m_b. {|m.b|} : m.b. q : m.c. {|m.d|} : {|m.d.2|} : m_d -> m.d.",
         "m.dk": "a : Type. b : Type. c : Type. d : Type."},
        "m_a : Type.\n{|m.a|} : Type.\n{|m.b.2|} : Type.\nm_c : Type.\n{|m.d.3|} : Type.\n"
        "thm t : {|m.a|} -> {|m.a|} := m_b : {|m.a|} => m_b.\n"
        "{|m.b|} : {|m.b.2|}.\nq : m_c.\n{|m.d|} : {|m.d.2|} : m_d -> {|m.d.3|}.\n",
        None,
    ),
    "symbols that would be one": (
        {"f.dk": "x : a.b_c -> a_b.c -> a.{|b|} -> a.b.", "a.dk": "b_c : Type. b : Type. {|b|} : Type.", "a_b.dk": "c : Type."},
        "a_b_c : Type.\n{|a.b|} : Type.\n{|a.b.2|} : Type.\n{|a_b.c|} : Type.\nx : a_b_c -> {|a_b.c|} -> {|a.b.2|} -> {|a.b|}.\n",
        None,
    ),
    "quoted names, and what only looks like a name": (
        {
            "f.dk": "{|a b|} : m.{|a.b (; c|}. (;m.a;) {|m.a|} : (; m.a {| ;) m.{|'x'|} -> m.{||}.",
            "m.dk": "{|a.b (; c|} : Type. {|'x'|} : Type. {||} : Type.",
        },
        "{|m.a.b (; c|} : Type.\n{|m.'x'|} : Type.\n{|m.|} : Type.\n{|a b|} : {|m.a.b (; c|}.\n"
        "{|m.a|} : (; m.a {| ;) {|m.'x'|} -> {|m.|}.\n",
        "1 1 m.dk m.{|a.b (; c|} {|m.a.b (; c|}\n1 22 m.dk m.{|'x'|} {|m.'x'|}\n1 38 m.dk m.{||} {|m.|}\n1 1 f.dk {|a b|} {|a b|}\n"
        "1 35 f.dk {|m.a|} {|m.a|}\n",
    ),
    "binders keep their names": (
        {"f.dk": "#REQUIRE m.",
         "m.dk": "a : Type. x : a. f (x : a) (y : x -> x) : x -> a. g : (a : Type) -> a -> m.a. h : x : a -> a.\n"
         "thm i : a -> a := a => a. def j := x : a => (x => x) x. k : (x : a -> a) -> x. thm l : (a -> x) := (x : a => y : x => x) x."},
        "m_a : Type.\nm_x : m_a.\nm_f (x : m_a) (y : x -> x) : x -> m_a.\nm_g : (a : Type) -> a -> m_a.\nm_h : x : m_a -> m_a.\n"
        "thm m_i : m_a -> m_a := a => a.\ndef m_j := x : m_a => (x => x) x.\nm_k : (x : m_a -> m_a) -> m_x.\n"
        "thm m_l : (m_a -> m_x) := (x : m_a => y : x => x) m_x.\n",
        None,
    ),
    "rules": (
        {"f.dk": "[] m.f m.a --> m.a. {m.r} [m : m.t] m.g m --> m.f m [f] m.g f --> m.f f.",
         "m.dk": "t : Type. a : t. def f : t -> t. def g : t -> t. def h : (t -> t) -> t.\n"
         "{r} [a, f : t, g : f] h (a => f a) --> (x => f) {h} [x] (h) (t => x t {t}) --> x a. [] f _ --> a."},
        "m_t : Type.\nm_a : m_t.\ndef m_f : m_t -> m_t.\ndef m_g : m_t -> m_t.\ndef m_h : (m_t -> m_t) -> m_t.\n"
        "{r} [a, f : m_t, g : f] m_h (a => f a) --> (x => f) {h} [x] (m_h) (t => x t {m_t}) --> x m_a.\n[] m_f _ --> m_a.\n"
        "[] m_f m_a --> m_a.\n{m_r} [m : m_t] m_g m --> m_f m [f] m_g f --> m_f f.\n",
        "1 1 m.dk m.t m_t\n1 11 m.dk m.a m_a\n1 18 m.dk m.f m_f\n1 34 m.dk m.g m_g\n1 50 m.dk m.h m_h\n2 1 m.dk m.h m_h\n"
        "2 85 m.dk m.f m_f\n1 1 f.dk m.f m_f\n1 21 f.dk m.g m_g\n",
    ),
    "queries": (
        {
            "f.dk": "#ASSERT m.a : m.t. #CHECK m.a == (x : m.t => x) m.a.\n#EVAL x : m.t => x. #INFER m.a.",
            "m.dk": "t : Type. a : t. #CHECK a : t.",
        },
        "m_t : Type.\nm_a : m_t.\n#CHECK m_a : m_t.\n#ASSERT m_a : m_t.\n#CHECK m_a == (x : m_t => x) m_a.\n"
        "#EVAL x : m_t => x.\n#INFER m_a.\n",
        "1 1 m.dk m.t m_t\n1 11 m.dk m.a m_a\n1 18 m.dk #CHECK #CHECK\n1 1 f.dk #ASSERT #ASSERT\n1 20 f.dk #CHECK #CHECK\n"
        "2 1 f.dk #EVAL #EVAL\n2 21 f.dk #INFER #INFER\n",
    ),
    "the file's own names, qualified": (
        {"f.dk": "a : Type. b : f.a. g : (a : Type) -> f.a -> a -> f.b. {|a|} : f.{|a|}."},
        "f_a : Type.\nb : f_a.\ng : (a : Type) -> f_a -> a -> b.\n{|a|} : {|a|}.\n",
        None,
    ),
    "dots": (
        {"f.dk": "a : m.t.b : m.{|u|}.c : (m.t).d : Type (;;).e : Type (;;).{|g|} : Type.", "m.dk": "t : Type (;;).{|u|} : Type."},
        "m_t : Type (;;).\n{|m.u|} : Type.\na : m_t.\nb : {|m.u|}.\nc : (m_t).\nd : Type (;;).\ne : Type (;;).\n{|g|} : Type.\n",
        None,
    ),
    "names that mean nothing": (
        {"f.dk": "x : Type. #REQUIRE m. y : m.z.", "m.dk": "y : x."},
        "x : Type.\nm_y : m_x.\ny : m_z.\n",
        None,
    ),
    "a file without a module's name": ({"a-b": "x : m.x. y : x.", "m.dk": "x : Type."}, "m_x : Type.\nx : m_x.\ny : x.\n", None),
    "an empty file": ({"f.dk": ""}, "", ""),
    "a file of directives and comments": ({"f.dk": "#NAME f. (; ;) #REQUIRE m.", "m.dk": "(; empty ;)"}, "", ""),
    "a comment that isn't closed": (
        {"f.dk": "#REQUIRE m. a : Type.", "m.dk": "a : Type.\n b : a (; a (; ;)\n"},
        "m_a : Type.\nb : a (; a (; ;)\n",
        "1 1 m.dk m.a m_a\n2 2 m.dk - -\n",
    ),
    "a byte that begins no token": (
        {"f.dk": "a : m.t. b : \\x. x : a.", "m.dk": "t : Type."},
        "m_t : Type.\na : m_t.\nb : \\x. x : a.",
        None,
    ),
    "what can't be read needs nothing": ({"f.dk": "a : Type. b := absent.c. d : a."}, "a : Type.\nb := absent.c.\n", None),
    "a name is missing": ({"f.dk": "a : Type. : : m.b. b : a."}, "a : Type.\n: : m.b.\n", None),
    "a directive that can't be read": ({"f.dk": "#REQUIRE m.a. b : Type."}, "#REQUIRE m.a.\n", "1 1 f.dk - -\n"),
}

# Theories that aren't lists of commands: the line that is told, and the status.
UNMERGED = {
    "a module that isn't there": ({"f.dk": "a : Type. b : m.a."}, "unopened m.dk", 3),
    "a folder": ({"f.dk": "b : sub.a.", "sub.dk/x": ""}, "unread 1 in sub.dk", 3),
    "a ring": ({"f.dk": "a : Type.\nb : m.a.", "m.dk": "c : Type.\n\n  a : f.a."}, "refused 3 line 3 E14 in m.dk", 1),
    "a module that requires itself": ({"f.dk": "a : Type.\n#REQUIRE f."}, "refused 2 line 2 E14", 1),
}

LOGIC = """prop : Type.
def proof : prop -> Type.
true : prop.
I :
  proof true.
def not : prop -> prop.
[] not true --> true.
[a] proof (not (not a)) --> proof a.
thm lemma : proof true := I. {|a b|} : proof true -> Type.
"""
TOP = """#REQUIRE logic.
thm used : logic.proof logic.true := logic.I.
unused : Type.
def same (p : logic.prop) := p.
thm top : logic.proof logic.true := same_proof.
"""
THEORY = {"f.dk": TOP.replace("same_proof", "used"), "logic.dk": LOGIC}
PROOF = """logic.dk:1:1: prop : Type.
logic.dk:2:1: def proof : prop -> Type.
logic.dk:3:1: true : prop.
"""
RULES = """logic.dk:6:1: def not : prop -> prop.
logic.dk:7:1: [] not true --> true.
logic.dk:8:1: [a] proof (not (not a)) --> proof a.
"""
# A theory, a name, and what tools/axioms writes, with its status.
AXIOMS = [
    (THEORY, "top", PROOF + "logic.dk:4:1: I : proof true.\n" + RULES + "top: 5 declarations without a body, 2 commands of rules\n", 0),
    (THEORY, "f.top", PROOF + "logic.dk:4:1: I : proof true.\n" + RULES + "f.top: 5 declarations without a body, 2 commands of rules\n", 0),
    (THEORY, "logic.true", "logic.dk:1:1: prop : Type.\nlogic.dk:3:1: true : prop.\n"
     "logic.true: 2 declarations without a body, 0 commands of rules\n", 0),
    # `prune` leaves out a symbol's own rules.
    (THEORY, "logic.not", "logic.dk:1:1: prop : Type.\nlogic.dk:3:1: true : prop.\n" + "".join(RULES.splitlines(True)[:2])
     + "logic.not: 3 declarations without a body, 1 command of rules\n", 0),
    (THEORY, "same", "logic.dk:1:1: prop : Type.\nsame: 1 declaration without a body, 0 commands of rules\n", 0),
    (THEORY, "unused", "f.dk:3:1: unused : Type.\nunused: 1 declaration without a body, 0 commands of rules\n", 0),
    (THEORY, "logic.{|a b|}", PROOF + RULES + "logic.dk:9:30: {|a b|} : proof true -> Type.\n"
     "logic.{|a b|}: 5 declarations without a body, 2 commands of rules\n", 0),
    (THEORY, "I", "unknown I\nthere is logic.I\n", 1),
    (THEORY, "logic.top", "unknown logic.top\n", 1),
    ({"f.dk": TOP, "logic.dk": LOGIC}, "used", "refused 13 line 5 E10\n", 1),
    ({"f.dk": TOP, "logic.dk": LOGIC.replace("= I", "= not")}, "used", "refused 8 line 9 E21 in logic.dk\n", 1),
    ({"f.dk": "#REQUIRE m."}, "a", "unopened m.dk\n", 3),
    # Rules of the name in FILE, behind the module that declares it, and a rule of another symbol further behind.
    ({"f.dk": "[] m.f m.a --> m.b. c : m.t. [] m.g m.a --> c.", "m.dk": "t : Type. a : t. b : t. def f : t -> t. def g : t -> t."}, "m.f",
     "m.dk:1:1: t : Type.\nm.dk:1:11: a : t.\nm.dk:1:18: b : t.\nm.dk:1:25: def f : t -> t.\nf.dk:1:1: [] m.f m.a --> m.b.\n"
     "m.f: 4 declarations without a body, 1 command of rules\n", 0),
]

# What tools/replay_of writes, and what a session answers to it.
REPLAYED = [
    ({"f.dk": "#NAME f.\na :\n  Type. (; b ;)\nthm t : (;\n;) f.a -> a\r\n := x\t=> x."},
     "insert 1 a :   Type.\ninsert 2 thm t : (; ;) a -> a\r  := x\t=> x.\nreport\n", "ok 1 a\nok 2 t\naccepted 2\nchecked 2\n"),
    ({"f.dk": "b : m.a.", "m.dk": "a :\nType."}, "insert 1 m_a : Type.\ninsert 2 b : m_a.\nreport\n",
     "ok 1 m_a\nok 2 b\naccepted 2\nchecked 2\n"),
    ({"f.dk": ""}, "report\n", "accepted 0\nchecked 0\n"),
    ({"f.dk": "a : Type. b a. c : a."}, "insert 1 a : Type.\ninsert 2 b a.\ninsert 3 c : a.\nreport\n",
     "bad 2\nbad 3\nok 1 a\naccepted 1\nchecked 1\n"),
    ({"f.dk": "a : Type. {|b\n|} : a. c : a."}, "insert 1 a : Type.\ninsert 2 {|b\nreport\n",
     "bad 2\nok 1 a\naccepted 1\nchecked 1\n"),
    ({"f.dk": "a : Type. b : a -> a.\nb : a."}, "insert 1 a : Type.\ninsert 2 b : a -> a.\ninsert 3 b : a.\nreport\n",
     "ok 1 a\nok 2 b\nrefused 3 line 3 E11\nchecked 2\n"),
]

GOOD, WRONG = "a : Type. b : a.", "a : Type.\nb : b."
ENDLESS = "t : Type. def f : t -> t. [x] f x --> f x. p : t -> Type. q : x : t -> p x. a : t. thm r : p a := q (f a)."
# The files, the words, what tools/checked writes, and its status.
CHECKED = [
    ({"a b.dk": GOOD, "{|.dk": GOOD}, ["a b.dk", "{|.dk"], "a b.dk: accepted 2\n{|.dk: accepted 2\n2 accepted\n", 0),
    ({"a.dk": GOOD, "w.dk": WRONG, "e.dk": ""}, ["w.dk", "a.dk", "e.dk", "w.dk"],
     "w.dk: refused 2 line 2 E10\na.dk: accepted 2\ne.dk: accepted 0\nw.dk: refused 2 line 2 E10\n2 accepted, 2 refused\n", 1),
    ({"w.dk": WRONG, "n.dk": "a : m.a."}, ["w.dk", "no.dk", "n.dk", "."],
     "w.dk: refused 2 line 2 E10\nno.dk: unopened no.dk\nn.dk: unopened m.dk\n.: unread 1\n1 refused, 2 not opened, 1 not read\n", 3),
    ({"l.dk": ENDLESS, "a.dk": GOOD, "w.dk": WRONG}, ["--budget", "1000", "--jobs", "1", "l.dk", "a.dk"],
     "l.dk: budget 7 line 1 1000\na.dk: accepted 2\n1 accepted, 1 ended by the budget\n", 6),
    ({"l.dk": ENDLESS, "w.dk": WRONG}, ["--budget", "1000", "w.dk", "l.dk"],
     "w.dk: refused 2 line 2 E10\nl.dk: budget 7 line 1 1000\n1 ended by the budget, 1 refused\n", 1),
    ({"a\nb.dk": GOOD}, ["a\nb.dk", "c\nd"], "a\\x0ab.dk: accepted 2\nc\\x0ad: unopened c\\x0ad\n1 accepted, 1 not opened\n", 3),
    ({"x/f.dk": "b : m.a.", "x/m.dk": "a : Type.", "y/f.dk": "b : m.a.", "y/m.dk": "c : Type."}, ["--workers", "2", "x/f.dk", "y/f.dk"],
     "x/f.dk: accepted 2\ny/f.dk: refused 2 line 1 E10\n1 accepted, 1 refused\n", 1),
]

# Files of the suite whose least budget INDEX.tsv has, found by hand there.
BUDGETS = {"exact_budget": 55, "hol_prop": 152, "units_guard": 67, "definitions": 60}
