Potentials
==========

The task `potentials` prints the enclosed potentials of a layout as a table text, in 10^-12 V: the two
levels, a span for each class of pairs, by rising distance, and the class of each pair.

Three neighbours have two distances: one column, and two.

  $ printf '%s\n' '0 0 0' '1 0 0' '2 0 0' > three
  $ sidb --task potentials < three
  sidb-table 1
  sites 3
  base 3
  mu -320000000000 -910000000000
  class 620124254312 620124254313
  class 287140799939 287140799940
  pair 0 1 0
  pair 0 2 1
  pair 1 2 0
  end

What is printed is read back: the same ground list comes out of the table, without the lines of sites.

  $ sidb --task potentials < three | sidb --form table
  sidb-ground 1
  sites 3
  skipped 0
  entries 1
  -+- certain
  end

A table text that is read and printed again stays as it is.

  $ sidb --task potentials < three > three.table
  $ sidb --task potentials --form table < three.table | cmp - three.table

The flags and limits of the other tasks change nothing here.

  $ sidb --task potentials --json --energies --limit 1 --workers 1 < three | cmp - three.table

Base and levels are those of the words.

  $ echo 0 0 0 | sidb --task potentials --base 2 --depth 0.5 --gap 0.1
  sidb-table 1
  sites 1
  base 2
  mu -500000000000 -600000000000
  end

So are permittivity, screening length and Coulomb number: 15 V·Å / 3.84 Å · exp(-0.000384), and
15 V·Å / (11.7 · 7.68 Å) · exp(-7.68 / 42.5).

  $ printf '%s\n' '0 0 0' '1 0 0' | sidb --task potentials --eps 1 --coulomb 15 --lambda 1000 | grep class
  class 3904750287963 3904750287964

  $ printf '%s\n' '0 0 0' '2 0 0' | sidb --task potentials --eps=11.7 --coulomb=15.000000 --lambda 4.25 | grep class
  class 139336407744 139336407745

At 19,200 screening lengths the true potential is far below the unit; the span says so, and no more.

  $ sidb --lambda 0.1 --depth 0 --task potentials << END
  > 0 0 0
  > 5000 0 0
  > END
  sidb-table 1
  sites 2
  base 3
  mu 0 -590000000000
  class 0 1
  pair 0 1 0
  end

A fixed charge beside the site makes it a table of version 2: the charge, and a line `near` with the class
of the site and the charge.

  $ sidb --task potentials << END
  > 0 0 0
  > fix 1 0 0 -1
  > END
  sidb-table 2
  sites 1
  fixed 1
  base 3
  mu -320000000000 -910000000000
  charge -1
  class 620124254312 620124254313
  near 0 0 0
  end

Behind three neighbours its distances are three, two and one columns, of which two are those of pairs too.

  $ (cat three; echo fix 3 0 0 -1) | sidb --task potentials
  sidb-table 2
  sites 3
  fixed 1
  base 3
  mu -320000000000 -910000000000
  charge -1
  class 620124254312 620124254313
  class 287140799939 287140799940
  class 177275953792 177275953793
  pair 0 1 0
  pair 0 2 1
  pair 1 2 0
  near 0 0 2
  near 1 0 1
  near 2 0 0
  end
