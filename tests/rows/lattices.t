Other lattices
==============

A line `lattice` gives the three vectors of another lattice, in hundredths of an ångström. Reports of such
layouts have version 2 and name it.

With columns 2.25 Å apart two neighbours are so close that one becomes positive and the other negative.

  $ sidb << END
  > lattice 225 0 0 768 0 225
  > 0 0 0
  > 1 0 0
  > END
  sidb-ground 2
  sites 2
  lattice 225 0 0 768 0 225
  site 0 0 0 0
  site 1 1 0 0
  skipped 0
  entries 2
  -+ certain
  +- certain
  end

A hundredth of an ångström less is too close: sites stand at least 2.25 Å apart. The lines are counted with
that of the lattice.

  $ sidb << END
  > lattice 224 0 0 768 0 225
  > 0 0 0
  > 1 0 0
  > END
  fault input too-close 2 3
  [3]

Here the two atoms of a dimer have one and the same place.

  $ sidb << END
  > lattice 300 0 0 300 0 0
  > 0 0 0
  > 0 0 1
  > END
  fault input too-close 2 3
  [3]

The vectors are at most 8 Å long in each direction.

  $ echo lattice 801 0 0 768 0 225 | sidb
  fault input out-of-range 1
  [3]

The lattice of silicon, named so, is no other lattice: the report has version 1.

  $ sidb << END
  > lattice 384 0 0 768 0 225
  > 0 0 0
  > END
  sidb-ground 1
  sites 1
  site 0 0 0 0
  skipped 0
  entries 1
  - certain
  end

A second such line is refused, also where the first one is out of range.

  $ printf '%s\n' 'lattice 801 0 0 768 0 225' '' 'lattice 384 0 0 768 0 225' | sidb
  fault input bad-line 3
  [3]

The line may stand anywhere, among comments, empty lines, tabs, zeros in front of numbers and carriage returns;
sites are numbered in row order.

  $ printf '# two\r\n\t-2 3  1 \r\n\n 007\t-0 0\r\nlattice 225 0 0 768 0 225\nfix 4 -5 0 -3' | sidb | head -n 7
  sidb-ground 2
  sites 2
  lattice 225 0 0 768 0 225
  site 0 7 0 0
  site 1 -2 3 1
  fix 0 4 -5 0 -3
  skipped 0
