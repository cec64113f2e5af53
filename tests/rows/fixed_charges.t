Fixed charges
=============

A line `fix N M L Q` of a list of sites is a fixed charge of Q elementary charges. It shifts potentials and
is no part of the answer's charge lists. Reports of such layouts have version 2.

A fixed electron next to the site takes the place of the neighbour's: the site is neutral.

  $ sidb << END
  > 0 0 0
  > fix 1 0 0 -1
  > END
  sidb-ground 2
  sites 1
  site 0 0 0 0
  fix 0 1 0 0 -1
  skipped 0
  entries 1
  0 certain
  end

A positive one holds the electron of the site all the more.

  $ sidb << END
  > 0 0 0
  > fix 1 0 0 1
  > END
  sidb-ground 2
  sites 1
  site 0 0 0 0
  fix 0 1 0 0 1
  skipped 0
  entries 1
  - certain
  end

Two electrons lower the potential to -1.24 V, below the level of -0.91 V: the site is positive.

  $ printf '%s\n' '0 0 0' 'fix 1 0 0 -2' > pushed
  $ sidb < pushed
  sidb-ground 2
  sites 1
  site 0 0 0 0
  fix 0 1 0 0 -2
  skipped 0
  entries 1
  + certain
  end

In base 2 it cannot be, and a neutral site needs at least -0.91 V there too: no charge list is valid.

  $ sidb --base 2 < pushed
  sidb-ground 2
  sites 1
  site 0 0 0 0
  fix 0 1 0 0 -2
  skipped 0
  entries 0
  end

A fixed charge at the place of a site is refused; so are a charge of 0, one beyond 3, and a ninth one.

  $ printf '%s\n' '0 0 0' 'fix 0 0 0 1' | sidb
  fault input duplicate 1 2
  [3]

  $ echo fix 1 0 0 0 | sidb
  fault input out-of-range 1
  [3]

  $ echo fix 1 0 0 4 | sidb
  fault input out-of-range 1
  [3]

  $ for n in 1 2 3 4 5 6 7 8 9; do echo fix $n 0 0 1; done | sidb
  fault input too-many-fixes
  [3]
