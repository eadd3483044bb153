"""Small databases with the verdict of their translations, by hand from Metamath's rules; and faults."""

PROPOSITIONS = """$( Implication, by three axioms $)
$c ( ) -> -. wff |- $. $v ph ps ch $.
wph $f wff ph $. wps $f wff ps $. wch $f wff ch $.
wn $a wff -. ph $.  wi $a wff ( ph -> ps ) $.
ax-1 $a |- ( ph -> ( ps -> ph ) ) $.
ax-2 $a |- ( ( ph -> ( ps -> ch ) ) -> ( ( ph -> ps ) -> ( ph -> ch ) ) ) $.
${ min $e |- ph $. maj $e |- ( ph -> ps ) $. ax-mp $a |- ps $. $}
"""
# |- ( ph -> ph ): its proof step by step, and the same one compressed, with two expressions that are saved.
ID = """id $p |- ( ph -> ph ) $=
  wph wph wph wi wi  wph wph wi  wph wph ax-1
    wph wph wph wi wph wi wi  wph wph wph wi wi wph wph wi wi  wph wph wph wi ax-1  wph wph wph wi wph ax-2  ax-mp  ax-mp $.
"""
ID_SHORT = "idc $p |- ( ph -> ph ) $= ( wi ax-1 ax-2 ax-mp ) AAABBZAABZAACAGABBFGBAGC AGADEE $.\n"
A1I = "${ a1i.1 $e |- ph $.  a1i $p |- ( ps -> ph ) $= wph wps wph wi a1i.1 wph wps ax-1 ax-mp $. $}\n"
# Nested scopes: two hypotheses inside, one of them outside.
NESTED = """${ outer.1 $e |- ph $.
  ${ inner.1 $e |- ( ph -> ps ) $.  inner $p |- ps $= wph wps outer.1 inner.1 ax-mp $. $}
  outer $p |- ( ch -> ph ) $= wph wch outer.1 a1i $. $}
user $p |- ( ch -> ( ph -> ( ps -> ph ) ) ) $= wph wps wph wi wi wch wph wps ax-1 outer $.
"""
# Twenty labels that a compressed proof names besides the ones of the hypotheses: UB is the 22nd.
MANY_NAMES = ["c%02d" % at for at in range(20)]
MANY = (
    "$c %s $.\n" % " ".join("s" + it for it in MANY_NAMES)
    + "".join("%s $a wff s%s $.\n" % (it, it) for it in MANY_NAMES)
    + "many $p |- ( sc19 -> ( ph -> sc19 ) ) $= ( %s ax-1 ) UAAUB $.\n" % " ".join(MANY_NAMES)
)

SETS = """$c ( ) -> A. = wff set |- $. $v ph ps ch x y z w $.
wph $f wff ph $. wps $f wff ps $. wch $f wff ch $. vx $f set x $. vy $f set y $. vz $f set z $. vw $f set w $.
wi $a wff ( ph -> ps ) $.  wal $a wff A. x ph $.  weq $a wff x = y $.
${ r.1 $e |- ( ph -> ps ) $. r.2 $e |- ( ps -> ph ) $. round $a |- ( ph -> ph ) $. $}
${ s.1 $e |- ( ph -> ps ) $. s.2 $e |- ( ps -> ch ) $. s.3 $e |- ( ch -> ph ) $. three $a |- ( ph -> ph ) $. $}
ax-4 $a |- ( A. x ph -> ph ) $.
${ $d x ph $. ax-5 $a |- ( ph -> A. x ph ) $. $}
${ $d ph ps $. ax-far $a |- ( ph -> ps ) $. $}
${ $d x y $. ax-two $a |- ( x = y -> A. x x = y ) $. $}
"""


def under(pairs, statement):
    """A theorem in a scope with these $d."""
    return "${ %s %s $}\n" % (" ".join("$d %s $." % it for it in pairs), statement)


FIVE = "five $p |- ( y = z -> A. x y = z ) $= vy vz weq vx ax-5 $."
FIVE_BY = "used $p |- ( y = x -> A. w y = x ) $= vw vy vx five $."
SELF = "bad $p |- ( x = y -> A. x x = y ) $= vx vy weq vx ax-5 $."
BOUND = "bad $p |- ( A. x ph -> A. x A. x ph ) $= wph vx wal vx ax-5 $."
FAR = "far $p |- ( x = y -> A. z z = w ) $= vx vy weq vz vw weq vz wal ax-far $."
FAR_PAIRS = ["x z", "x w", "y z", "y w"]
# Proofs over variables that the statement doesn't have: one, and two that have to be apart from each other too.
DUMMY = "dummy $p |- ( ph -> ph ) $= wph wph vz wal wph vz ax-5 wph vz ax-4 round $."
DUMMIES = """dummies $p |- ( ph -> ph ) $= wph vz vw weq vz vw weq vz wal
  wph vz vw weq ax-far  vz vw ax-two  vz vw weq vz wal wph ax-far  three $."""
FIVES = SETS + under(["x y", "x z"], FIVE)

NAMES = """$c ( ) -> Type |- $. $v _ x' |} {| 'a | } $.
def $f Type _ $. thm $f Type x' $. a-b $f Type |} $. a.b $f Type {| $. q $f Type 'a $. r $f Type | $. s $f Type } $.
- $a Type ( _ -> x' ) $.  . $a |- ( |} -> ( {| -> |} ) ) $.  T $p |- ( _ -> ( 'a -> _ ) ) $= def q . $.
${ $d | } |} $. Kind $a |- ( | -> ( } -> |} ) ) $.  5 $p |- ( } -> ( | -> |} ) ) $= a-b s r Kind $. $}
"""
SYNTAX = "wnn $p wff -. -. ph $= wph wn wn $. t $p |- ( -. -. ph -> ( ps -> -. -. ph ) ) $= wph wnn wps ax-1 $.\n"
QUOTED = "$c ' $. wq $a wff ph ' $. t $p |- ( ph ' ' -> ( %s -> ph ' ' ) ) $= wph wq wq %s ax-1 $.\n"
# Steps in one another, 2,000 of them; and each used twice by the next, 60 times.
LONG = "${ l.1 $e |- ph $. same $a |- ph $. long $p |- ph $= %s l.1 %s $. $}\n" % ("wph " * 2000, "same " * 2000)
TWICE = "${ t.1 $e |- ph $. t.2 $e |- ph $. both $a |- ph $. $}\n"


OFTEN = """$c V $. wv $a wff V $. a-label-of-thirty-six-letters-at-all $a |- V $.
often $p |- V $= %s $.
""" % ("wv " * 30 + "a-label-of-thirty-six-letters-at-all " + "a-label-of-thirty-six-letters-at-all both " * 30)


def number(value):
    """A number as compressed proofs write it."""
    text, value = chr(ord("A") + value % 20), value // 20
    while value:
        text, value = chr(ord("T") + (value - 1) % 5 + 1) + text, (value - 1) // 5
    return text


def doubled(times):
    """A proof of so many steps, each of which takes the one before twice: as it stands on the stack, and as it was saved."""
    steps = "".join(number(1 if at == 0 else at + 2) + "CZ" for at in range(times))
    return "${ d.1 $e |- ph $. doubled $p |- ph $= ( both ) %sB%s $. $}\n" % ("A" * times, steps[:-1])


# Name, database, and what becomes of it: `accepted`, with or without a number; a code and the theorem; words of the translator.
ROWS = [
    ("normal", PROPOSITIONS + ID, "accepted 8"),
    ("compressed", PROPOSITIONS + ID_SHORT, "accepted 8"),
    ("hypothesis", PROPOSITIONS + ID + A1I, "accepted 9"),
    ("nested", PROPOSITIONS + A1I + NESTED, "accepted 11"),
    ("numbers of two letters", PROPOSITIONS + MANY, "accepted 28"),
    ("steps in one another", PROPOSITIONS + LONG, "accepted"),
    ("steps used twice", PROPOSITIONS + TWICE + doubled(60), "accepted"),
    ("an axiom without parts used often", PROPOSITIONS + TWICE + OFTEN, "accepted 11"),
    ("a theorem of syntax", PROPOSITIONS + SYNTAX, "accepted 8"),
    ("signs behind", PROPOSITIONS + QUOTED % ("ps '", "wps wq"), "accepted 9"),
    ("signs behind, two trees", PROPOSITIONS + QUOTED % ("-. ps '", "wps wq wn"), "2 trees"),
    ("names", NAMES, "accepted"),
    ("wrong step", PROPOSITIONS + ID_SHORT + ID.replace("wph wph ax-1\n", "wph idc\n"), "E21 id"),
    ("another axiom", PROPOSITIONS + A1I.replace("wph wps ax-1", "wph wps wph ax-2"), "E21 a1i"),
    ("another statement", PROPOSITIONS + A1I.replace("|- ( ps -> ph )", "|- ( ph -> ps )"), "E21 a1i"),
    ("swapped substitution", PROPOSITIONS + A1I.replace("wph wps ax-1", "wps wph ax-1"), "E21 a1i"),
    ("swapped in a compressed proof", PROPOSITIONS + ID_SHORT.replace("AGADEE", "GAADEE"), "E21 idc"),
    ("another saved one", PROPOSITIONS + ID_SHORT.replace("AGABB", "AFABB"), "E21 idc"),
    ("hypothesis of another theorem", PROPOSITIONS + A1I + "bad $p |- ( ps -> ph ) $= wph wps a1i.1 a1i $.", "E10 bad"),
    ("hypothesis of an inner scope", PROPOSITIONS + A1I + NESTED.replace("wph wch outer.1 a1i", "wph wch inner.1 a1i"), "E10 outer"),
    ("hypotheses swapped", PROPOSITIONS + A1I + NESTED.replace("outer.1 inner.1", "inner.1 outer.1"), "E21 inner"),
    ("expression for a proof", PROPOSITIONS + A1I.replace("wi a1i.1", "wi wph"), "E21 a1i"),
    ("proof for an expression", PROPOSITIONS + A1I.replace("$= wph", "$= a1i.1"), "E21 a1i"),
    ("a step that isn't known", PROPOSITIONS + A1I.replace("wi a1i.1", "wi ?"), "E10 a1i"),
    ("no proof", PROPOSITIONS + "open $p |- ( ph -> ph ) $= ? $.", "E10 open"),
    ("no proof, compressed", PROPOSITIONS + "open $p |- ( ph -> ph ) $= ( ) ? $.", "E10 open"),
    ("itself", PROPOSITIONS + "loop $p |- ( ph -> ph ) $= wph loop $.", "E10 loop"),
    ("a later one", PROPOSITIONS + "early $p |- ( ph -> ph ) $= late $. late $p |- ( ph -> ph ) $= ? $.", "E10 early"),
    ("too few steps", PROPOSITIONS + A1I.replace("wi a1i.1", "wi"), "ax-mp lacks hypotheses"),
    ("too many steps", PROPOSITIONS + A1I.replace("$= wph", "$= wph wph"), "leaves 2 steps"),
    ("distinct", FIVES, "accepted"),
    ("distinct, at once and turned round", SETS + under(["z y x"], FIVE), "accepted"),
    ("a pair lacks", SETS + under(["x y"], FIVE), "E10 five"),
    ("another pair instead", SETS + under(["x y", "y z"], FIVE), "E10 five"),
    ("pairs of a closed scope", SETS + under(["x y", "x z"], "") + FIVE, "E10 five"),
    ("a variable and itself", SETS + under(["x y"], SELF), "E10 bad"),
    ("bound in what is substituted", SETS + under(["x ph"], BOUND), "E10 bad"),
    ("two expressions", SETS + under(FAR_PAIRS, FAR), "accepted"),
    *(("two expressions without " + it, SETS + under([of for of in FAR_PAIRS if of != it], FAR), "E10 far") for it in FAR_PAIRS),
    ("distinct by a theorem", FIVES + under(["w y", "w x"], FIVE_BY), "accepted"),
    ("a theorem's pair lacks", FIVES + under(["w y"], FIVE_BY), "E10 used"),
    ("one for two", SETS + "bad $p |- ( z = z -> A. z z = z ) $= vz vz ax-two $.", "E10 bad"),
    ("two for two", SETS + under(["z w"], "good $p |- ( z = w -> A. z z = w ) $= vz vw ax-two $."), "accepted"),
    ("two variables of wffs", SETS + under(["ph ps"], "good $p |- ( ph -> ps ) $= wph wps ax-far $."), "accepted"),
    ("two variables of wffs without a pair", SETS + "bad $p |- ( ph -> ps ) $= wph wps ax-far $.", "E10 bad"),
    ("a wff and itself", SETS + under(["ph ps"], "bad $p |- ( ph -> ph ) $= wph wph ax-far $."), "E10 bad"),
    ("a variable of the proof alone", SETS + under(["z ph"], DUMMY), "accepted"),
    ("a variable of the proof without its pair", SETS + DUMMY, "E10 dummy"),
    ("two of them", SETS + under(["z ph", "w ph", "z w"], DUMMIES), "accepted"),
    *(("two of them without " + it, SETS + under([of for of in ("z ph", "w ph", "z w") if of != it], DUMMIES), "E10 dummies")
      for it in ("z ph", "w ph", "z w")),
    ("a label that is a symbol", PROPOSITIONS + "ph $a |- ( ph -> ph ) $.", "a label that is a symbol"),
    ("a label there twice", PROPOSITIONS + "wn $a |- ( ph -> ph ) $.", "there twice"),
    ("two trees", PROPOSITIONS + "$c V $. wo $a wff ph V ps $. t $a |- ph V ps V ch $.", "2 trees"),
    ("no tree", PROPOSITIONS + "t $a |- ( ph -> $.", "0 trees"),
    ("nothing and more of it", "$c wff |- $. $v x y $. wx $f wff x $. wy $f wff y $. e $a wff $. b $a wff x y $. t $a |- x $.",
     "with nothing"),
    ("two typecodes", PROPOSITIONS + "$c set $. s $f set ph $.", "two typecodes"),
    ("a hypothesis of syntax", PROPOSITIONS + "${ h $e wff -. ph $. t $a |- ph $. $}", "a hypothesis that something is a wff"),
    ("syntax under a condition", PROPOSITIONS + "${ $d ph ps $. w $a wff -. ( ph -> ps ) $. $}", "under a condition"),
]  # fmt: skip
