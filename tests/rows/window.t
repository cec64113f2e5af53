Energy windows
==============

With `--window W` (in eV) the answer has each list that may be valid and that no certainly valid list beats by
more than W, whatever the potentials are.

Two lists, of energies 10 and 11. At window 0 that is the ground list.

  $ cat > four.table << END
  > sidb-table 1
  > sites 4
  > base 3
  > mu -50 -1000
  > class 100 100
  > class 12 12
  > class 10 10
  > class 11 11
  > pair 0 1 0
  > pair 0 2 1
  > pair 0 3 2
  > pair 1 2 3
  > pair 1 3 1
  > pair 2 3 0
  > end
  > END
  $ sidb --form table --task window --window 0 < four.table
  sidb-window 1
  window 0
  sites 4
  skipped 0
  entries 1
  -00- certain
  end

One unit of 10^-12 eV is enough for the second one, and both are then certain: within the window under every
choice.

  $ sidb --form table --task window --window 0.000000000001 < four.table
  sidb-window 1
  window 1
  sites 4
  skipped 0
  entries 2
  -00- certain
  0--0 certain
  end

Where the first has between 9 and 11 and the second 10, the ground list leaves both unresolved; a window of
one unit decides.

  $ sed -e 's/^class 10 10$/class 9 11/' -e 's/^class 11 11$/class 10 10/' four.table > near.table
  $ sidb --form table --task window --window 0.000000000001 < near.table
  sidb-window 1
  window 1
  sites 4
  skipped 0
  entries 2
  -00- certain
  0--0 certain
  end

A window is at most 2 eV.

  $ sidb --form table --task window --window 3 < near.table
  fault words
  [2]

It is a decimal without a sign, of at most twelve places.

  $ sidb --form table --task window --window -1 < near.table
  fault words
  [2]
  $ sidb --form table --task window --window 0.0000000000001 < near.table
  fault words
  [2]

Behind its title a window of 0 prints what the ground list prints.

  $ sidb --form table < four.table | tail -n +2 > ground
  $ sidb --form table --task window < four.table | tail -n +3 | cmp - ground
