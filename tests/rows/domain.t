Operational domains
===================

A gate at each point of a grid: permittivities, and for each of them screening lengths in nm. A start, a step and
a count are given for both.

  $ cat > inverter << END
  > 0 0 0
  > 6 0 0
  > 8 0 0
  > 14 0 0
  > END
  $ domain() { sidb --task domain --input 0:3 --output 1:2 "$@" < inverter; }
  $ domain --function not --grid 5.6:0.4:2,5:1:2 --limit 5
  sidb-domain 1
  cell 5.6000 5.0000 works
  cell 5.6000 6.0000 works
  cell 6.0000 5.0000 works
  cell 6.0000 6.0000 works
  end

Each point has the limit for itself, and so has each pattern. With one node less the second pattern of three
points has too many; the third point has 4 nodes under both patterns, and is not touched by that.

  $ domain --function not --grid 5.6:0.4:2,5:1:2 --limit 4
  sidb-domain 1
  cell 5.6000 5.0000 budget 1
  cell 5.6000 6.0000 budget 1
  cell 6.0000 5.0000 works
  cell 6.0000 6.0000 budget 1
  end

A pattern that comes before tells more than one that has no list.

  $ domain --function buf --grid 5.6:0.4:2,5:1:2 --limit 4 | grep -c 'fails 0'
  4

As JSON, in one line.

  $ domain --function not --grid 5.6:0.4:2,5:1:2 --limit 5 --json
  {"cells":[{"answer":"works","eps":"5.6000","lambda":"5.0000"},{"answer":"works","eps":"5.6000","lambda":"6.0000"},{"answer":"works","eps":"6.0000","lambda":"5.0000"},{"answer":"works","eps":"6.0000","lambda":"6.0000"}],"kind":"sidb-domain","version":1}
  $ domain --function not --grid 5.6:1:1,5:1:1 --limit 4 --json
  {"cells":[{"answer":"budget 1","eps":"5.6000","lambda":"5.0000"}],"kind":"sidb-domain","version":1}

A point is what a truth table says with its permittivity and screening length; those of the words count for
nothing.

  $ domain --function one --eps 9 --lambda 1 --grid 5.6:1:1,5:1:1
  sidb-domain 1
  cell 5.6000 5.0000 fails 1
  end

A gate whose input is 768 nm away is undecided at each point.

  $ cat > far_pairs << END
  > 0 0 0
  > 1 0 0
  > 2000 0 0
  > 2001 0 0
  > END
  $ sidb --task domain --input 2:3 --output 0:1 --function buf --grid 5.6:1:1,4.5:0.25:3 < far_pairs
  sidb-domain 1
  cell 5.6000 4.5000 undecided 0
  cell 5.6000 4.7500 undecided 0
  cell 5.6000 5.0000 undecided 0
  end

Where a list has more than 4,096 entries the point says so, and the answer is an answer.

  $ for row in -4400 -3300 -2200 -1100 0 1100 2200 3300 4400; do echo 0 $row 0; done > spread
  $ sidb --task domain --depth 0 --gap 0 --input 0:1 --output 2:3 --function buf --grid 5:1:1,5:1:1 < spread
  sidb-domain 1
  cell 5.0000 5.0000 long 0
  end

A place that is no site, as in a truth table.

  $ sidb --task domain --input 0:3 --output 1:4 --function not --grid 5.6:0.4:2,5:1:2 < inverter
  fault input gate-site 4
  [3]

Neither the number of workers nor the number of points changes a point.

  $ domain --function not --grid 5.6:0.4:2,5:1:2 > plain
  $ for words in '--workers 1' '--workers 16' '--energies' '--number 3 --sites 3'
  > do domain --function not --grid 5.6:0.4:2,5:1:2 $words | cmp - plain; done
  $ domain --function not --grid 5.6:0.4:1,5:1:2 | head -n 3 > first
  $ head -n 3 plain | cmp - first
