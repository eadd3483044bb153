$( Implication, quantification and equality, with two axioms and a theorem $)
$c ( ) -> A. = wff set |- $.  $v ph ps x y z $.
wph $f wff ph $.  wps $f wff ps $.  vx $f set x $.  vy $f set y $.  vz $f set z $.
wi $a wff ( ph -> ps ) $.
wal $a wff A. x ph $.
weq $a wff x = y $.
${ min $e |- ph $.  maj $e |- ( ph -> ps ) $.  ax-mp $a |- ps $. $}
${ $d x ph $.  ax-5 $a |- ( ph -> A. x ph ) $. $}
${ $d x y $.  $d x z $.  every.1 $e |- y = z $.
   every $p |- A. x y = z $=
     vy vz weq vy vz weq vx wal every.1 vy vz weq vx ax-5 ax-mp $. $}
