Limits
======

`--limit` is compared with the number of nodes of the search tree, which belongs to the layout and the
settings alone (docs/MODEL.md, "Prefixes"): where it is the number of nodes there is an answer, where it is
one less there is none, and the status is 5.

A lone site has two nodes, the empty prefix and the site negative.

  $ echo 0 0 0 > one
  $ sidb --limit 2 < one
  sidb-ground 1
  sites 1
  site 0 0 0 0
  skipped 0
  entries 1
  - certain
  end

  $ sidb --limit 1 < one
  fault budget 1
  [5]

A limit of 0 is no limit.

  $ sidb --limit 0 < one
  fault words
  [2]

Four nodes:

  $ printf '%s\n' '0 0 0' '6 0 0' '8 0 0' > gap
  $ sidb --limit 4 < gap
  sidb-ground 1
  sites 3
  site 0 0 0 0
  site 1 6 0 0
  site 2 8 0 0
  skipped 0
  entries 1
  -0- certain
  end

  $ sidb --limit 3 < gap
  fault budget 3
  [5]

Where no list is certainly valid, the tree has all that may be valid: here six prefixes.

  $ cat > two.table << END
  > sidb-table 1
  > sites 2
  > base 3
  > mu -2 -590000000002
  > class 1 3
  > pair 0 1 0
  > end
  > END
  $ sidb --form table --limit 6 < two.table
  sidb-ground 1
  sites 2
  skipped 0
  entries 3
  -- unresolved population 0 above-minus -1 1
  -0 unresolved population 1 below-minus -1 1
  0- unresolved population 0 below-minus -1 1
  end

  $ sidb --form table --limit 5 < two.table
  fault budget 5
  [5]

Sites that are far from each other
----------------------------------

Every tenth column of a row: no site sees enough of the others to lose its electron, so the tree is one path,
and has a node more than there are sites. The lines of sites are those of the input, in its order.

  $ row() { for n in $(seq 0 $2 $(($2 * ($1 - 1)))); do echo $n 0 0; done; }
  $ row 40 10 > row40
  $ sidb --limit 41 < row40 > answer
  $ grep -v '^site ' answer
  sidb-ground 1
  sites 40
  skipped 0
  entries 1
  ---------------------------------------- certain
  end
  $ sed -n 's/^site [0-9]* //p' answer | cmp - row40
  $ grep '^site ' answer | cut -d ' ' -f 2 > numbers
  $ seq 0 39 | cmp - numbers

  $ sidb --limit 40 < row40
  fault budget 40
  [5]

The number of workers changes no byte.

  $ for n in 1 2 4 16; do sidb --limit 41 --workers $n < row40 | cmp - answer; done

One site more, and the most that there may be:

  $ row 41 10 | sidb --limit 42 | grep -v '^site '
  sidb-ground 1
  sites 41
  skipped 0
  entries 1
  ----------------------------------------- certain
  end

  $ row 64 10 > row64
  $ sidb --limit 65 < row64 | grep -v '^site '
  sidb-ground 1
  sites 64
  skipped 0
  entries 1
  ---------------------------------------------------------------- certain
  end
  $ sidb --limit 65 < row64 | sed -n 's/^site [0-9]* //p' | cmp - row64

  $ sidb --limit 64 < row64
  fault budget 64
  [5]

Trees that another program counted
----------------------------------

A row of 40 sites in every fourth column has 129,585 nodes.

  $ row 40 4 > row40
  $ sidb --limit 129585 < row40 | grep -c certain
  1
  $ sidb --limit 129584 < row40
  fault budget 129584
  [5]

A wire of 18 pairs, two columns wide and eight columns apart, has 346,151.

  $ for n in $(seq 0 8 136); do echo $n 0 0; echo $((n + 2)) 0 0; done > wire36
  $ sidb --limit 346151 < wire36 | grep -c certain
  1
  $ sidb --limit 346150 --workers 2 < wire36
  fault budget 346150
  [5]

Ground lists that are too long
------------------------------

A ground list has at most 4,096 entries. Eight sites that see nothing of each other, with both levels at 0 V,
have 3^8 = 6,561 charge lists of energy 0, each a ground state. Their tree has 9,841 prefixes, and the limit
of nodes is told first.

  $ zeros() { printf '%s\n' 'sidb-table 1' "sites $1" "base $2" 'mu 0 0' 'class 0 0'
  >   for i in $(seq 0 $(($1 - 2))); do
  >     for j in $(seq $((i + 1)) $(($1 - 1))); do echo pair $i $j 0; done
  >   done
  >   echo end; }
  $ zeros 8 3 > zeros
  $ sidb --form table < zeros
  fault list-too-long
  [6]

  $ sidb --form table --limit 9841 < zeros
  fault list-too-long
  [6]

  $ sidb --form table --limit 9840 < zeros
  fault budget 9840
  [5]

In base 2 there are 256, and all of them are printed, in order.

  $ zeros 8 2 | sidb --form table > answer
  $ head -n 6 answer
  sidb-ground 1
  sites 8
  skipped 0
  entries 256
  -------- certain
  -------0 certain
  $ tail -n 3 answer
  0000000- certain
  00000000 certain
  end
  $ grep -c '^[-0]\{8\} certain$' answer
  256
  $ sed -n 's/ certain$//p' answer | tr -- '-0' '01' | LC_ALL=C sort -cu

Nine such sites in base 3 are too many again. Their potentials are no report, and are printed.

  $ zeros 9 3 > zeros
  $ sidb --form table < zeros
  fault list-too-long
  [6]
  $ sidb --form table --task potentials < zeros | cmp - zeros
