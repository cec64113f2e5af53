Ground lists
============

A list of sites is one site a line: its column, its dimer row, and its atom of the dimer. The answer is
every charge list that may be a ground state, whatever the true potentials in their spans are.

An empty input is a layout without sites. Its one charge list is the empty one, written as a point.

  $ sidb < /dev/null
  sidb-ground 1
  sites 0
  skipped 0
  entries 1
  . certain
  end

A site alone sees no potential, and 0 V lies above the level of -0.32 V: it takes an electron.

  $ echo 0 0 0 > one
  $ sidb < one
  sidb-ground 1
  sites 1
  site 0 0 0 0
  skipped 0
  entries 1
  - certain
  end

Two neighbours along a row repel each other by 0.62 V, so that only one of them is negative. Both choices
have the same energy, 0, and both are certain.

  $ printf '%s\n' '0 0 0' '1 0 0' > two
  $ sidb < two
  sidb-ground 1
  sites 2
  site 0 0 0 0
  site 1 1 0 0
  skipped 0
  entries 2
  -0 certain
  0- certain
  end

Of three neighbours the middle one becomes positive: it sees two electrons at 0.62 V each, more than the
0.91 V that a positive site needs.

  $ printf '%s\n' '0 0 0' '1 0 0' '2 0 0' > three
  $ sidb < three
  sidb-ground 1
  sites 3
  site 0 0 0 0
  site 1 1 0 0
  site 2 2 0 0
  skipped 0
  entries 1
  -+- certain
  end

With `--energies` each entry has the least and the greatest value of its energy, in 10^-12 eV: one pair
two columns apart less two pairs of neighbours.

  $ sidb --energies < three
  sidb-ground 1
  sites 3
  site 0 0 0 0
  site 1 1 0 0
  site 2 2 0 0
  skipped 0
  entries 1
  -+- certain energy -953107708687 -953107708684
  end

In base 2 no site can be positive, and the middle one is neutral.

  $ sidb --base 2 < three
  sidb-ground 1
  sites 3
  site 0 0 0 0
  site 1 1 0 0
  site 2 2 0 0
  skipped 0
  entries 1
  0-0 certain
  end

A pair two columns apart beside a third site six columns away: the dot in the middle gives way.

  $ sidb << END
  > 0 0 0
  > 6 0 0
  > 8 0 0
  > END
  sidb-ground 1
  sites 3
  site 0 0 0 0
  site 1 6 0 0
  site 2 8 0 0
  skipped 0
  entries 1
  -0- certain
  end

The levels
----------

With the upper level at 0 V a lone site stands exactly on it. The tests are closed, so it may be negative
and it may be neutral, at the same energy.

  $ sidb --depth 0 < one
  sidb-ground 1
  sites 1
  site 0 0 0 0
  skipped 0
  entries 2
  - certain
  0 certain
  end

With the lower level there too it may have each of the three charges. Entries stand in the order
negative, neutral, positive.

  $ sidb --depth 0 --gap 0 < one
  sidb-ground 1
  sites 1
  site 0 0 0 0
  skipped 0
  entries 3
  - certain
  0 certain
  + certain
  end

Two sites 1.9 micrometres apart at a screening length of 0.1 nm: of their potential all that is known is
that it lies between 0 and 10^-12 V. At a level of 0 V that decides whether both can be negative, so the
first entry is unresolved. It names the test that may fail, and between which values its slack lies.

  $ sidb --lambda 0.1 --depth 0 << END
  > 0 0 0
  > 5000 0 0
  > END
  sidb-ground 1
  sites 2
  site 0 0 0 0
  site 1 5000 0 0
  skipped 0
  entries 4
  -- unresolved population 0 above-minus -1 0
  -0 certain
  0- certain
  00 certain
  end

What a list of sites may look like
----------------------------------

Sites come in any order, and are numbered in row order: by row, then atom, then column.

  $ sidb << END
  > 8 0 0
  > 0 0 0
  > 6 0 0
  > END
  sidb-ground 1
  sites 3
  site 0 0 0 0
  site 1 6 0 0
  site 2 8 0 0
  skipped 0
  entries 1
  -0- certain
  end

Comments, empty lines, carriage returns, spaces and tabs are left out, and the last line may lack its end.

  $ printf '# a comment\r\n\n \t5000  0\t0\r' | sidb --task ground --form sites
  sidb-ground 1
  sites 1
  site 0 5000 0 0
  skipped 0
  entries 1
  - certain
  end
