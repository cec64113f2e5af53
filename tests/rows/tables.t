Tables of potentials
====================

A table text brings potentials, levels and base with it, each potential as a span of two whole numbers of
10^-12 V. The answer holds whatever the potentials in their spans are; where it depends on them, an entry is
unresolved, and names the first comparison that fails under some choice.

A table without sites:

  $ sidb --form table << END
  > sidb-table 1
  > sites 0
  > base 3
  > mu -1 -2
  > end
  > END
  sidb-ground 1
  sites 0
  skipped 0
  entries 1
  . certain
  end

Three neighbours on silicon, as `--task potentials` prints them:

  $ sidb --form table << END
  > sidb-table 1
  > sites 3
  > base 3
  > mu -320000000000 -910000000000
  > class 620124254312 620124254313
  > class 287140799939 287140799940
  > pair 0 1 0
  > pair 0 2 1
  > pair 1 2 0
  > end
  > END
  sidb-ground 1
  sites 3
  skipped 0
  entries 1
  -+- certain
  end

Comparisons that are not settled
--------------------------------

**A test of a charge.** The potential is 1, 2 or 3, and the level -2: at 3 the second of two electrons does
not fit, at 1 a neutral site beside an electron does not. Each list may be valid, and none is under all.

  $ cat > two.table << END
  > sidb-table 1
  > sites 2
  > base 3
  > mu -2 -590000000002
  > class 1 3
  > pair 0 1 0
  > end
  > END
  $ sidb --form table < two.table
  sidb-ground 1
  sites 2
  skipped 0
  entries 3
  -- unresolved population 0 above-minus -1 1
  -0 unresolved population 1 below-minus -1 1
  0- unresolved population 0 below-minus -1 1
  end

**A hop.** An electron that hops from site 0 to site 1 of the list `-0-` exchanges the pair 0 2, of 50 to 52,
for the pair 1 2, of 51: it may lower the energy by 1.

  $ sidb --form table << END
  > sidb-table 1
  > sites 3
  > base 3
  > mu -60 -1000
  > class 50 50
  > class 50 52
  > class 51 51
  > pair 0 1 0
  > pair 0 2 1
  > pair 1 2 2
  > end
  > END
  sidb-ground 1
  sites 3
  skipped 0
  entries 2
  --0 certain
  -0- unresolved hop 0 1 -1 1
  end

**A rival.** Both lists are valid whatever the potentials are. The energy of `-00-` is between 9 and 11, that
of `0--0` is 10: each may lie below the other.

  $ sidb --form table << END
  > sidb-table 1
  > sites 4
  > base 3
  > mu -50 -1000
  > class 100 100
  > class 12 12
  > class 9 11
  > class 10 10
  > pair 0 1 0
  > pair 0 2 1
  > pair 0 3 2
  > pair 1 2 3
  > pair 1 3 1
  > pair 2 3 0
  > end
  > END
  sidb-ground 1
  sites 4
  skipped 0
  entries 2
  -00- unresolved rival 1 -1 1
  0--0 unresolved rival 0 -1 1
  end

What cancels
------------

The outer sites have the same potential at the middle one, from 5 to 6: where one of them is positive and the
other negative it is 0 whichever it is, so that the middle one may be negative, and neutral, whatever the
potentials are. The energy is that of the outer pair alone.

  $ sidb --form table --energies << END
  > sidb-table 1
  > sites 3
  > base 3
  > mu 0 -10
  > class 5 6
  > class 30 30
  > pair 0 1 0
  > pair 0 2 1
  > pair 1 2 0
  > end
  > END
  sidb-ground 1
  sites 3
  skipped 0
  entries 4
  --+ certain energy -30 -30
  -0+ certain energy -30 -30
  +-- certain energy -30 -30
  +0- certain energy -30 -30
  end

Versions
--------

Fixed charges make a table of version 2. One without them may be written so too; it is printed as version 1.

  $ sidb --form table --task potentials << END
  > sidb-table 2
  > sites 1
  > fixed 0
  > base 3
  > mu -1 -2
  > end
  > END
  sidb-table 1
  sites 1
  base 3
  mu -1 -2
  end

A class that no pair has is allowed, and stays. Lines of pairs come in any order, and are printed by their
sites.

  $ sidb --form table --task potentials << END
  > sidb-table 1
  > sites 3
  > base 2
  > mu -1 -2
  > class 5 6
  > class 7 7
  > pair 1 2 0
  > pair 0 2 0
  > pair 0 1 0
  > end
  > END
  sidb-table 1
  sites 3
  base 2
  mu -1 -2
  class 5 6
  class 7 7
  pair 0 1 0
  pair 0 2 0
  pair 1 2 0
  end

So do the lines of the classes of sites and fixed charges, which are printed behind those of the pairs.

  $ sidb --form table --task potentials << END
  > sidb-table 2
  > sites 2
  > fixed 1
  > base 2
  > mu -2 -5
  > charge -1
  > class 1 3
  > class 4 4
  > near 1 0 1
  > pair 0 1 0
  > near 0 0 1
  > end
  > END
  sidb-table 2
  sites 2
  fixed 1
  base 2
  mu -2 -5
  charge -1
  class 1 3
  class 4 4
  pair 0 1 0
  near 0 0 1
  near 1 0 1
  end
