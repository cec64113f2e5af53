Ranges of levels
================

With `--range A:B` (depths in V) the answer has the ground list at each mu_minus from -B through -A, by parts with
equal lists and equal certainty.

One site alone has no potential: below 0 it is negative, and at 0 it may be negative or neutral.

  $ sidb --task range --range 0:0.000000000002 << END
  > 0 0 0
  > END
  sidb-range 1
  sites 1
  parts 2
  part -2 -1 entries 1
  - certain
  part 0 0 entries 2
  - certain
  0 certain
  end

The limit is compared with the number of prefixes that are open at the levels, taken together: here the empty
one, `-` and `0`.

  $ sidb --task range --range 0:0.000000000002 --limit 2 << END
  > 0 0 0
  > END
  fault budget 2
  [5]
  $ sidb --task range --range 0:0.000000000002 --limit 3 << END | head -3
  > 0 0 0
  > END
  sidb-range 1
  sites 1
  parts 2

A pair whose potential lies between 1 and 3. At -4 both are negative. At -3 and -2 both may be, where the potential
is at most that, or one alone, where it is at least that. At -1 one alone is, since with both the energy is higher,
and at 0 that one may be neutral too.

  $ cat > pair.table << END
  > sidb-table 1
  > sites 2
  > base 3
  > mu -2 -590000000002
  > class 1 3
  > pair 0 1 0
  > end
  > END
  $ sidb --form table --task range --range 0:0.000000000004 < pair.table
  sidb-range 1
  sites 2
  parts 4
  part -4 -4 entries 1
  -- certain
  part -3 -2 entries 3
  -- unresolved
  -0 unresolved
  0- unresolved
  part -1 -1 entries 2
  -0 certain
  0- certain
  part 0 0 entries 3
  -0 certain
  0- certain
  00 certain
  end

At the level of the table that is what its ground list says, with what decides.

  $ sidb --form table < pair.table
  sidb-ground 1
  sites 2
  skipped 0
  entries 3
  -- unresolved population 0 above-minus -1 1
  -0 unresolved population 1 below-minus -1 1
  0- unresolved population 0 below-minus -1 1
  end

So it is at each level, around each cut and at both ends: a table with that level, and the same gap, has the lists of
its part, and the same of them certain.

  $ sidb --form table --task range --range 0:0.000000000004 < pair.table > pair
  $ part_of() { awk -v level=$2 '/^part /{ inside = $2 <= level && level <= $3; next } inside && !/^end/' $1; }
  $ ground_at() { sed "s/^mu .*/mu $2 $(($2 - $3))/" $1.table | sidb --form table |
  >   sed -n '/^[-0+]/s/\( unresolved\).*/\1/p; / certain$/p'; }
  $ for level in -4 -3 -2 -1 0; do
  >   ground_at pair $level 590000000000 > ground
  >   [ -s ground ] && part_of pair $level | cmp - ground
  > done

More than 256 parts. Eight sites in base 2 stand beside a fixed charge of -1, each at a potential of its own between 0
and 10^9, and the pairs of sites have the potentials 1, 2, 4 and so on, up to 2^27. So a neutral site, whose potential
is at least -10^9 less those of its pairs with negative sites, is possible from there on, and a negative one up to minus
those of its pairs. Below -10^9 no list is possible but those whose neutral sites all may be: each list other than
`--------` begins where the last of its neutral sites may be, at -10^9 less a sum of some powers of 2. No two of these
are the same but for the lists with one negative site, 0 or 1, whose pair is that of 2^0. These are 254 levels, so that
at the 255th part all 256 lists are possible, up to minus the greatest sum of one site's pairs. That is site 7, with
2^6 + 2^12 + 2^17 + 2^21 + 2^24 + 2^26 + 2^27, which is 220336192; that of site 6 is 177276960. From there on lists
end one by one.

  $ {
  >   printf '%s\n' 'sidb-table 2' 'sites 8' 'fixed 1' 'base 2' 'mu 0 -2000000000' 'charge -1'
  >   for i in $(seq 0 7); do echo 'class 0 1000000000'; done
  >   for k in $(seq 0 27); do echo "class $((1 << k)) $((1 << k))"; done
  >   k=8
  >   for i in $(seq 0 6); do
  >     for j in $(seq $((i + 1)) 7); do echo "pair $i $j $k"; k=$((k + 1)); done
  >   done
  >   for i in $(seq 0 7); do echo "near $i 0 $i"; done
  >   echo end
  > } > eight.table
  $ sidb --form table --task range --range 0:2 < eight.table > eight
  $ sed -n '1,8p' eight
  sidb-range 1
  sites 8
  parts 256
  part -2000000000000 -1220336193 entries 1
  -------- certain
  part -1220336192 -1177276961 entries 2
  -------- unresolved
  -------0 unresolved
  $ grep '^part ' eight | tail -2
  part -1000000000 -220336192 entries 256
  part -220336191 0 split
  $ tail -1 eight
  end

Each part begins behind the one before it.

  $ grep '^part ' eight | awk 'NR > 1 && $2 != last + 1 { print "not", $0 } { last = $3 }'

Around the first cuts, some in the middle, and the last one, the ground list of that level is that of its part.

  $ for level in $(awk '/^part .* entries / { k++; if (k < 4 || k == 100 || k > 254) print $2, $3 }' eight); do
  >   ground_at eight $level 2000000000 > ground
  >   [ -s ground ] && part_of eight $level | cmp - ground
  > done

At most 256 parts are whole. The first list to end is that of eight electrons, and the next is that of all but the site
whose pair with site 7 is 2^6, up to -220336128. A range that ends there has 256 parts, and the last one has 255 lists;
one level more splits it.

  $ sidb --form table --task range --range 0.000220336128:2 < eight.table | grep '^part ' | tail -1
  part -220336191 -220336128 entries 255
  $ sidb --form table --task range --range 0.000220336127:2 < eight.table | grep '^part ' | tail -1
  part -220336191 -220336127 split

Each site can be negative or neutral at some level, so there are 2^9 - 1 prefixes.

  $ sidb --form table --task range --range 0:2 --limit 510 < eight.table
  fault budget 510
  [5]
  $ sidb --form table --task range --range 0:2 --limit 511 < eight.table | cmp - eight

The same without pairs, for twelve sites: 4,096 lists, all possible from -10^9 on. At 0 none of them has less energy than
the one without electrons, which is valid there whatever the potentials are. With thirteen sites they are too many.

  $ apart() {
  >   printf '%s\n' 'sidb-table 2' "sites $1" 'fixed 1' 'base 2' 'mu 0 -2000000000' 'charge -1'
  >   for i in $(seq 1 $1); do echo 'class 0 1000000000'; done
  >   echo 'class 0 0'
  >   for i in $(seq 0 $(($1 - 2))); do
  >     for j in $(seq $((i + 1)) $(($1 - 1))); do echo "pair $i $j $1"; done
  >   done
  >   for i in $(seq 0 $(($1 - 1))); do echo "near $i 0 $i"; done
  >   echo end
  > }
  $ apart 12 | sidb --form table --task range --range 0:2 > twelve
  $ grep -v unresolved twelve
  sidb-range 1
  sites 12
  parts 3
  part -2000000000000 -1000000001 entries 1
  ------------ certain
  part -1000000000 -1 entries 4096
  part 0 0 entries 4096
  000000000000 certain
  end
  $ apart 13 | sidb --form table --task range --range 0:2
  fault list-too-long
  [6]
  $ apart 13 | sidb --form table --task range --range 0:2 --limit 16382
  fault budget 16382
  [5]

Words: the task needs its range, which is two depths of at most 2 V, the lesser one first.

  $ sidb --task range < eight.table
  fault words
  [2]
  $ sidb --task range --range 0.5:0.4 < eight.table
  fault words
  [2]
  $ sidb --task range --range 0:2.1 < eight.table
  fault words
  [2]
  $ sidb --task range --range 1 < eight.table
  fault words
  [2]
