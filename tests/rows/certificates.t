Certificates
============

The task `certify` prints the ground list of a layout together with the table of its potentials and a walk
over the whole search tree, token by token, from which a reader can check that no list is missing.

  $ printf '%s\n' '0 0 0' '1 0 0' > two
  $ sidb --task certify < two > two.certificate
  $ cat two.certificate
  sidb-certificate 1
  sidb-table 1
  sites 2
  base 3
  mu -320000000000 -910000000000
  class 620124254312 620124254313
  pair 0 1 0
  end
  entries 2
  -0 certain
  0- certain
  tokens
  n
  n
  s 0
  l 0
  s 1
  n
  l 1
  s 0
  s 0
  s 0
  end

The task `check` reads one, and prints the ground list where it is accepted.

  $ sidb --task check < two.certificate
  sidb-ground 1
  sites 2
  skipped 0
  entries 2
  -0 certain
  0- certain
  end

Sites far from each other: one path down, and each other charge closes at its own site.

  $ for n in $(seq 0 10 390); do echo $n 0 0; done > row40
  $ sidb --task certify < row40 > row40.certificate
  $ (echo sidb-certificate 1; sidb --task potentials < row40) > front
  $ head -n $(grep -c '' front) row40.certificate | cmp - front
  $ tail -n +$(($(grep -c '' front) + 1)) row40.certificate > rest
  $ head -n 3 rest
  entries 1
  ---------------------------------------- certain
  tokens
  $ (yes n | head -n 40; echo l 0; for k in $(seq 39 -1 0); do echo s $k; echo s $k; done; echo end) > wanted
  $ tail -n +4 rest | cmp - wanted

A fixed charge makes it a certificate of version 2.

  $ printf '%s\n' '0 0 0' 'fix 1 0 0 -1' | sidb --task certify
  sidb-certificate 2
  sidb-table 2
  sites 1
  fixed 1
  base 3
  mu -320000000000 -910000000000
  charge -1
  class 620124254312 620124254313
  near 0 0 0
  end
  entries 1
  0 certain
  tokens
  n
  s 0
  l 0
  s 0
  end

The report of `check` has no layout, so it is of version 1 and names no fixed charge.

  $ printf '%s\n' '0 0 0' 'fix 1 0 0 -1' | sidb --task certify | sidb --task check
  sidb-ground 1
  sites 1
  skipped 0
  entries 1
  0 certain
  end

Tokens
------

A certificate need not be the one that `certify` writes: any token whose claim holds is taken. Here the list of
two electrons is left because site 1 cannot have its charge, because its energy lies above that of entry 0, and
because entry 0 beats it.

  $ token() { sed "$((13 + $1))s/.*/$2/" two.certificate | sidb --task check; }
  $ token 2 's 1'
  sidb-ground 1
  sites 2
  skipped 0
  entries 2
  -0 certain
  0- certain
  end

  $ token 2 'e 0'
  sidb-ground 1
  sites 2
  skipped 0
  entries 2
  -0 certain
  0- certain
  end

  $ token 2 'b 0'
  sidb-ground 1
  sites 2
  skipped 0
  entries 2
  -0 certain
  0- certain
  end

One whose claim does not hold is refused, with its number and the reason, and the status is 4. A token at the
wrong place: a list where the prefix has unassigned sites, one more branch where it has none.

  $ token 0 'l 0'
  fault certificate token 0 shape
  [4]

  $ token 3 n
  fault certificate token 3 shape
  [4]

A number that no entry has, and a hop that no charge list allows:

  $ token 3 'l 2'
  fault certificate token 3 number
  [4]

  $ token 4 'h 1 0'
  fault certificate token 4 number
  [4]

A site that has a charge left; an energy that is not above that of the entry; the list of another entry; a
test, a hop and a comparison that hold:

  $ token 3 's 0'
  fault certificate token 3 site-can
  [4]

  $ token 0 'e 0'
  fault certificate token 0 not-above
  [4]

  $ token 3 'l 1'
  fault certificate token 3 other-list
  [4]

  $ token 3 'p 0'
  fault certificate token 3 population-holds
  [4]

  $ token 4 'h 0 1'
  fault certificate token 4 hop-holds
  [4]

  $ token 4 'b 0'
  fault certificate token 4 not-beaten
  [4]

An energy is only worth something where its entry is certainly valid.

  $ sidb --task check << END
  > sidb-certificate 1
  > sidb-table 1
  > sites 2
  > base 3
  > mu -2 -590000000002
  > class 1 3
  > pair 0 1 0
  > end
  > entries 3
  > -- unresolved population 0 above-minus -1 1
  > -0 unresolved population 1 below-minus -1 1
  > 0- unresolved population 0 below-minus -1 1
  > tokens
  > e 0
  > end
  > END
  fault certificate token 0 not-certain
  [4]

The tree has to be whole, and nothing follows it.

  $ sed '$d' two.certificate | sed '$d' | (cat; echo end) | sidb --task check
  fault certificate short
  [4]

  $ sed '$d' two.certificate | (cat; echo s 0; echo end) | sidb --task check
  fault certificate long
  [4]

Entries
-------

Entries are weighed before the tokens: their order, that each is possibly valid, that none is beaten, and the
mark of each.

  $ entries() { (head -n 8 two.certificate; printf '%s\n' "$@"; tail -n +12 two.certificate) | sidb --task check; }
  $ entries 'entries 2' '0- certain' '-0 certain'
  fault certificate entry 1 order
  [4]

  $ entries 'entries 3' '-0 certain' '0- certain' '00 certain'
  fault certificate entry 2 not-possible
  [4]

  $ entries 'entries 2' '-0 unresolved rival 1 0 0' '0- certain'
  fault certificate entry 0 mark
  [4]

  $ sidb --task check << END
  > sidb-certificate 1
  > sidb-table 1
  > sites 4
  > base 3
  > mu -50 -1000
  > class 100 100
  > class 12 12
  > class 10 10
  > class 11 11
  > pair 0 1 0
  > pair 0 2 1
  > pair 0 3 2
  > pair 1 2 3
  > pair 1 3 1
  > pair 2 3 0
  > end
  > entries 2
  > -00- certain
  > 0--0 certain
  > tokens
  > end
  > END
  fault certificate entry 1 beaten
  [4]

Where one is left out, the walk comes to its list, and the token there names another.

  $ entries 'entries 1' '0- certain'
  fault certificate token 3 other-list
  [4]

A text that is no certificate is a fault of the input.

  $ printf hello | sidb --task check
  fault input certificate line 1 form
  [3]
