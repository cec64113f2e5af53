Occupations
===========

With `--task occupation` each list of the window list has the share that it has at a temperature, among these
lists, by Boltzmann's factors: an enclosure, between a decimal that is not above it and one that is not below.

Two lists of equal energy have half each, and exactly: their difference is 0 under every choice of the
potentials, so nothing is rounded.

  $ printf '%s\n' '0 0 0' '1 0 0' > two
  $ sidb --task occupation < two
  sidb-occupation 1
  window 0
  kt 25000000000
  sites 2
  entries 2
  -0 0.500000000 0.500000000
  0- 0.500000000 0.500000000
  end

A lone entry has the whole. Without a site too there is one list.

  $ echo 0 0 0 | sidb --task occupation
  sidb-occupation 1
  window 0
  kt 25000000000
  sites 1
  entries 1
  - 1.000000000 1.000000000
  end
  $ sidb --task occupation --kt 1 < /dev/null
  sidb-occupation 1
  window 0
  kt 1000000000000
  sites 0
  entries 1
  . 1.000000000 1.000000000
  end

Two lists whose energies differ by one unit of 10^-12 eV, at the least kT, 1 mV: their shares differ from a half
by a quarter of 10^-9.

  $ cat > four.table << END
  > sidb-table 1
  > sites 4
  > base 3
  > mu -50 -1000
  > class 100 100
  > class 12 12
  > class 10 10
  > class 11 11
  > pair 0 1 0
  > pair 0 2 1
  > pair 0 3 2
  > pair 1 2 3
  > pair 1 3 1
  > pair 2 3 0
  > end
  > END
  $ sidb --form table --task occupation --window 0.000000000001 --kt 0.001 < four.table
  sidb-occupation 1
  window 1
  kt 1000000000
  sites 4
  entries 2
  -00- 0.500000000 0.500000001
  0--0 0.499999999 0.500000000
  end

The shares are those among the entries of the window list: at window 0 there is one entry, with the whole.

  $ sidb --form table --task occupation --kt 0.001 < four.table
  sidb-occupation 1
  window 0
  kt 1000000000
  sites 4
  entries 1
  -00- 1.000000000 1.000000000
  end

One site beside a fixed electron, whose electron costs 0.1 eV. At a kT of 0.1 V the shares are 1 / (1 + e) and
e / (1 + e), and e is 2.71828182..; the exponential is 4 times as far at 0.025 V, without the word.

  $ cat > beside.table << END
  > sidb-table 2
  > sites 1
  > fixed 1
  > base 2
  > mu -100000000000 -1000000000000
  > charge -1
  > class 100000000000 100000000000
  > near 0 0 0
  > end
  > END
  $ sidb --form table --task occupation --window 0.1 --kt 0.1 < beside.table
  sidb-occupation 1
  window 100000000000
  kt 100000000000
  sites 1
  entries 2
  - 0.268941421 0.268941422
  0 0.731058578 0.731058579
  end
  $ sidb --form table --task occupation --window 0.1 < beside.table
  sidb-occupation 1
  window 100000000000
  kt 25000000000
  sites 1
  entries 2
  - 0.017986209 0.017986210
  0 0.982013790 0.982013791
  end

Beyond 24 kT nothing is summed: the share of the higher list is at least 0, and at most what it would be at
24 kT, 4 * 10^-11, rounded up; and that of the lower one is at most 1.

  $ sidb --form table --task occupation --window 0.1 --kt 0.001 < beside.table
  sidb-occupation 1
  window 100000000000
  kt 1000000000
  sites 1
  entries 2
  - 0.000000000 0.000000001
  0 0.999999999 1.000000000
  end

Where the potential is anything from 0 to 0.1 V, both lists are in the ground list, and their energies differ by
anything from 0 to 1 kT: the share of the higher one is from 1 / (1 + e) to a half. Which of them is valid under
which choice is not looked at: the neutral one is valid only at 0.1 V.

  $ sed 's/^class .*/class 0 100000000000/' beside.table > unknown.table
  $ sidb --form table --task occupation --kt 0.1 < unknown.table
  sidb-occupation 1
  window 0
  kt 100000000000
  sites 1
  entries 2
  - 0.268941421 0.500000000
  0 0.500000000 0.731058579
  end
  $ sidb --form table < unknown.table | tail -n 3
  - unresolved rival 1 -100000000000 0
  0 unresolved population 0 below-minus -100000000000 0
  end

Any number of workers gives the same bytes.

  $ sidb --form table --task occupation --window 0.1 --kt 0.1 --workers 1 < beside.table > one
  $ sidb --form table --task occupation --window 0.1 --kt 0.1 --workers 16 < beside.table | cmp - one

The limit is compared with what it is compared with for the window list, and so is the number of entries.

  $ sidb --task occupation --limit 1 < two
  fault budget 1
  [5]

kT is a decimal of at most twelve places, from 0.001 V to 1 V.

  $ sidb --task occupation --kt 0.0001 < two
  fault words
  [2]
  $ sidb --task occupation --kt 0.000999999999 < two
  fault words
  [2]
  $ sidb --task occupation --kt 1.000000000001 < two
  fault words
  [2]
  $ sidb --task occupation --kt 0.0257000000000 < two
  fault words
  [2]
  $ sidb --task occupation --kt -1 < two
  fault words
  [2]
  $ sidb --task occupation --kt < two
  fault words
  [2]
  $ sidb --task occupation --kt 0.1 --kt 0.1 < two
  fault words
  [2]

Another task tests it, and does nothing with it.

  $ sidb --kt 0.5 < two | tail -n 3
  -0 certain
  0- certain
  end
  $ sidb --kt 2 < two
  fault words
  [2]
