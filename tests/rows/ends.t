Ends of ranges
==============

Each limit from both sides: what still stands is read, and one more is refused.

  $ first() { sidb "$@" | head -n 1; }
  $ table() { printf '%s\n' "$@" end | first --form table; }

Levels and potentials
---------------------

A level is from -4·10^12 to 4·10^12 (in 10^-12 V), and mu_plus is not above mu_minus.

  $ levels() { table 'sidb-table 1' 'sites 0' 'base 3' "mu $1 $2"; }
  $ levels 4000000000000 -4000000000000
  sidb-ground 1
  $ levels -4000000000000 -4000000000000
  sidb-ground 1
  $ levels 4000000000000 4000000000000
  sidb-ground 1
  $ levels 4000000000001 0
  fault input table line 4 range
  $ levels 0 -4000000000001
  fault input table line 4 range
  $ levels -1 0
  fault input table line 4 range

A potential is from 0 to 10^13.

  $ potential() { table 'sidb-table 1' 'sites 2' 'base 3' 'mu -1 -2' "class $1 $2" 'pair 0 1 0'; }
  $ potential 0 10000000000000
  sidb-ground 1
  $ potential 10000000000000 10000000000000
  sidb-ground 1
  $ potential 0 10000000000001
  fault input table line 5 range
  $ potential -1 0
  fault input table line 5 range

A number has at most seventeen digits: with more it is no number.

  $ levels 99999999999999999 0
  fault input table line 4 range
  $ levels 100000000000000000 0
  fault input table line 4 form
  $ potential 0 99999999999999999
  fault input table line 5 range
  $ potential 0 100000000000000000
  fault input table line 5 form

The ends of the depth and of the gap give the least levels.

  $ sidb --task potentials --depth 2 --gap 2 < /dev/null | grep mu
  mu -2000000000000 -4000000000000
  $ sidb --task potentials --depth 0 --gap 0 < /dev/null | grep mu
  mu 0 0

Sites, fixed charges and classes
--------------------------------

Eight fixed charges are read, of at most three elementary charges each.

  $ fixes() { for n in $(seq $1); do echo fix $n 0 0 3; done; }
  $ fixes 8 | sidb
  sidb-ground 2
  sites 0
  fix 0 1 0 0 3
  fix 1 2 0 0 3
  fix 2 3 0 0 3
  fix 3 4 0 0 3
  fix 4 5 0 0 3
  fix 5 6 0 0 3
  fix 6 7 0 0 3
  fix 7 8 0 0 3
  skipped 0
  entries 1
  . certain
  end
  $ fixes 9 | sidb
  fault input too-many-fixes
  [3]
  $ for charge in -3 -1 1 3; do echo fix 0 0 0 $charge | first; done
  sidb-ground 2
  sidb-ground 2
  sidb-ground 2
  sidb-ground 2
  $ for charge in -4 0 4; do echo fix 0 0 0 $charge | first; done
  fault input out-of-range 1
  fault input out-of-range 1
  fault input out-of-range 1

The same of a table.

  $ fixed() { (printf '%s\n' 'sidb-table 2' 'sites 0' "fixed $1" 'base 3' 'mu -1 -2'
  >   for n in $(seq $1); do echo charge $2; done; echo end) | first --form table; }
  $ fixed 8 3
  sidb-ground 1
  $ fixed 8 -3
  sidb-ground 1
  $ fixed 9 3
  fault input table too-many-fixed
  $ for charge in -4 0 4; do fixed 1 $charge; done
  fault input table line 6 range
  fault input table line 6 range
  fault input table line 6 range

Sixty-four sites and eight fixed charges: 64·63/2 pairs of sites and 64·8 of a site and a fixed charge, each with a
potential of its own, are 2,528 classes. One more has no pair left. One site more or one fixed charge more is told before.

  $ full() { awk -v sites=$1 -v fixed=$2 -v classes=$3 'BEGIN {
  >   print "sidb-table 2"; print "sites", sites; print "fixed", fixed; print "base 3"; print "mu 0 0"
  >   for (a = 0; a < fixed; a++) print "charge 3"
  >   for (k = 0; k < classes; k++) print "class", k, k
  >   for (i = 0; i < sites; i++) for (j = i + 1; j < sites; j++) print "pair", i, j, c++
  >   for (i = 0; i < sites; i++) for (a = 0; a < fixed; a++) print "near", i, a, c++
  >   print "end"
  > }'; }
  $ full 64 8 2528 > full
  $ sidb --form table --task potentials < full | cmp - full
  $ full 64 8 2529 | sidb --form table --task potentials
  fault input table line 2542 range
  [3]
  $ full 65 8 2528 | sidb --form table --task potentials
  fault input table too-many
  [3]
  $ full 64 9 2528 | sidb --form table --task potentials
  fault input table too-many-fixed
  [3]

Without fixed charges they are 2,016.

  $ full 64 0 2016 | sed '1s/2/1/; 3d' > full
  $ sidb --form table --task potentials < full | cmp - full
  $ full 64 0 2017 | sed '1s/2/1/; 3d' | sidb --form table --task potentials
  fault input table line 2021 range
  [3]

A layout of so many, no two pairs of which have the same distance, by a fixed sequence of numbers.

  $ scattered() { awk -v sites=$1 -v fixed=$2 'BEGIN {
  >   s = 1
  >   for (k = 0; k < sites + fixed; k++) {
  >     s = s * 69621 % 2147483647; n = s % 4001 - 2000
  >     s = s * 69621 % 2147483647; m = s % 2001 - 1000
  >     s = s * 69621 % 2147483647
  >     if (k < sites) print n, m, s % 2; else print "fix", n, m, s % 2, 1
  >   }
  > }'; }
  $ scattered 64 8 | sidb --task potentials > potentials
  $ grep -c '^class ' potentials
  2528
  $ sidb --form table --task potentials < potentials | cmp - potentials
  $ scattered 65 8 | sidb --task potentials
  fault input too-many
  [3]
  $ scattered 64 9 | sidb --task potentials
  fault input too-many-fixes
  [3]

As many dots in a file of SiQAD:

  $ dots() { echo '<siqad>'; for n in $(seq $1); do echo "<dbdot><latcoord n='$((10 * n))' m='0' l='0'/></dbdot>"; done
  >   echo '</siqad>'; }
  $ dots 64 | sidb --form sqd | sed -n 2p
  sites 64
  $ dots 65 | sidb --form sqd
  fault input too-many
  [3]

Places and lattices
-------------------

Columns and rows go from -5000 to 5000, atoms are 0 and 1, and a number has at most nine digits.

  $ for place in '5000 5000 1' '-5000 -5000 0' '5001 0 0' '-5001 0 0' '0 5001 0' '0 -5001 0' '0 0 2' '0 0 -1' \
  >   '999999999 0 0' '1000000000 0 0'; do
  >   echo $place | first
  > done
  sidb-ground 1
  sidb-ground 1
  fault input out-of-range 1
  fault input out-of-range 1
  fault input out-of-range 1
  fault input out-of-range 1
  fault input out-of-range 1
  fault input out-of-range 1
  fault input out-of-range 1
  fault input bad-line 1

The same of a file of SiQAD.

  $ dot() { echo "<siqad><dbdot><latcoord n='$1' m='$2' l='$3'/></dbdot></siqad>" | first --form sqd; }
  $ dot 5000 -5000 1
  sidb-ground 1
  $ dot 5001 0 0
  fault input out-of-range 7
  $ dot 0 -5001 0
  fault input out-of-range 7
  $ dot 0 0 2
  fault input out-of-range 7
  $ dot 999999999 0 0
  fault input out-of-range 7
  $ dot 1000000000 0 0
  fault input bad-site 7

The steps of a lattice, from column to column and from row to row, are together at most 800 long in each direction, and
that to the second atom at most 400.

  $ while read -r steps; do echo lattice $steps | first; done << END
  > 800 800 0 0 0 0
  > -300 0 500 -800 0 0
  > 0 0 0 0 -400 400
  > 801 0 0 0 0 0
  > 300 0 -501 0 0 0
  > 0 801 0 0 0 0
  > 0 -301 0 500 0 0
  > 0 0 0 0 401 0
  > 0 0 0 0 -401 0
  > 0 0 0 0 0 401
  > 0 0 0 0 0 -401
  > END
  sidb-ground 2
  sidb-ground 2
  sidb-ground 2
  fault input out-of-range 1
  fault input out-of-range 1
  fault input out-of-range 1
  fault input out-of-range 1
  fault input out-of-range 1
  fault input out-of-range 1
  fault input out-of-range 1
  fault input out-of-range 1

Two places have a squared distance of at least 50,625 (in 10^-4 Å²), which is that of the steps (225, 0), (63, 216) and
(135, 180). The next ones below are 50,618 and 50,617, of (97, 203) and (21, 224): 50,624 is no sum of two squares, and
neither are the other numbers between.

  $ steps() { printf '%s\n' "lattice $1 $2 0 500 0 225" '0 0 0' '1 0 0' | first; }
  $ steps 225 0
  sidb-ground 2
  $ steps 63 216
  sidb-ground 2
  $ steps -135 180
  sidb-ground 2
  $ steps 97 203
  fault input too-close 2 3
  $ steps 21 224
  fault input too-close 2 3
  $ awk 'BEGIN { for (a = 0; a < 226; a++) for (b = a; b < 226; b++) {
  >   d = a * a + b * b; if (d > 50610 && d <= 50625) print d } }' | sort -u
  50612
  50617
  50618
  50625

A fixed charge stands as far away.

  $ printf '%s\n' 'lattice 63 216 0 500 0 225' '0 0 0' 'fix 1 0 0 1' | first
  sidb-ground 2
  $ printf '%s\n' 'lattice 97 203 0 500 0 225' '0 0 0' 'fix 1 0 0 1' | first
  fault input too-close 2 3

Bytes
-----

An input has at most 1,048,576 bytes, whatever its form; nothing but blanks is a list of no sites, but neither a table nor a file.

  $ blanks() { head -c $1 /dev/zero | tr '\0' ' '; }
  $ blanks 1048576 | first
  sidb-ground 1
  $ blanks 1048577 | first
  fault input too-long
  $ blanks 1048576 | first --form table
  fault input table line 1 form
  $ blanks 1048577 | first --form table
  fault input too-long
  $ blanks 1048576 | first --form sqd
  fault input not-siqad
  $ blanks 1048577 | first --form sqd
  fault input too-long

A certificate has at most 268,435,456 of them.

  $ blanks 268435456 | first --task check
  fault input certificate line 1 form
  $ blanks 268435457 | first --task check
  fault input too-long

Entries, tokens and nodes
-------------------------

A ground list has at most 4,096 entries. Twelve sites in base 2 stand each beside a fixed electron at a potential of its
own, known to be 0 to 10^9, and see nothing of each other. With the levels -2 and -2·10^9 each may be negative or
neutral, and none is certainly so: 4,096 lists. The thirteenth site has a potential of 1 with each of them and one of
10 or 11 with a positive fixed charge. Beside twelve electrons it is at 10 - 12 = -2 or at 11 - 12 = -1. So it may be negative
everywhere; and it may be neutral beside twelve electrons at -2, but not at -1.

  $ thirteen() { awk -v held=$1 'BEGIN {
  >   print "sidb-table 2"; print "sites 13"; print "fixed 2"; print "base 2"; print "mu -2 -2000000000"
  >   print "charge -1"; print "charge 1"
  >   for (i = 0; i < 12; i++) print "class 0 1000000000"
  >   print "class 0 0"; print "class 1 1"; print "class", held, held
  >   for (i = 0; i < 13; i++) for (j = i + 1; j < 13; j++) print "pair", i, j, j == 12 ? 13 : 12
  >   for (i = 0; i < 13; i++) { print "near", i, 0, i; print "near", i, 1, i == 12 ? 14 : 12 }
  >   print "end"
  > }'; }
  $ thirteen 11 | sidb --form table > answer
  $ sed -n 4p answer
  entries 4096
  $ grep -c '^[-0]\{12\}- unresolved ' answer
  4096
  $ thirteen 10 | sidb --form table
  fault list-too-long
  [6]
  $ for task in window occupation certify; do thirteen 10 | sidb --form table --task $task; done
  fault list-too-long
  fault list-too-long
  fault list-too-long
  [6]

A certificate has at most as many, and with more the line that says so is refused.

  $ front() { printf '%s\n' 'sidb-certificate 1' 'sidb-table 1' 'sites 0' 'base 3' 'mu 0 0' end "$@"; }
  $ front 'entries 4096' | sidb --task check
  fault input certificate line 8 form
  [3]
  $ front 'entries 4097' | sidb --task check
  fault input certificate line 7 range
  [3]

The number of a token has at most four digits.

  $ front 'entries 1' '. certain' tokens 'l 9999' end | sidb --task check
  fault certificate token 0 number
  [4]
  $ front 'entries 1' '. certain' tokens 'l 10000' end | sidb --task check
  fault input certificate line 10 range
  [3]

There are at most 30,000,001 tokens.

  $ tokens() { front 'entries 1' '. certain' tokens; yes n | head -n $1; echo end; }
  $ tokens 30000001 | sidb --task check
  fault certificate token 0 shape
  [4]
  $ tokens 30000002 | sidb --task check
  fault input certificate line 30000011 range
  [3]

A search tree has at most 1,000,000 nodes where nothing is said, and 10,000,000 may be said. Thirteen sites in base 3 that see
nothing of each other, with both levels at 0 V, have (3^14 - 1)/2 = 2,391,484 prefixes.

  $ full 13 0 1 | sed '1s/2/1/; 3d; s/^pair \(.* .*\) .*/pair \1 0/' > zeros
  $ sidb --form table < zeros
  fault budget 1000000
  [5]
  $ echo 0 0 0 | first --limit 10000000
  sidb-ground 1
  $ echo 0 0 0 | first --limit 10000001
  fault words

Windows, temperatures and ranges
--------------------------------

  $ taken() { echo 0 0 0 | first --task "$@"; }
  $ taken window --window 2
  sidb-window 1
  $ taken window --window 2.000000000001
  fault words
  $ taken occupation --kt 0.001
  sidb-occupation 1
  $ taken occupation --kt 0.000999999999
  fault words
  $ taken occupation --kt 1
  sidb-occupation 1
  $ taken occupation --kt 1.000000000001
  fault words
  $ taken range --range 0:2
  sidb-range 1
  $ taken range --range 2:2
  sidb-range 1
  $ taken range --range 0:2.000000000001
  fault words
