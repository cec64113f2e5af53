Regions
=======

A gate at every point of rectangles of permittivity and screening length (in nm). A start, a step and a count are
given for both; each rectangle goes from one of these points to the next. Where the spans of a whole rectangle do not
decide, it is quartered, twice unless `--refine` says otherwise.

  $ cat > inverter << END
  > 0 0 0
  > 6 0 0
  > 8 0 0
  > 14 0 0
  > END
  $ region() { sidb --task region --input 0:3 --output 1:2 "$@" < inverter; }

A rectangle of one unit each way answers as the point of a domain does.

  $ region --function not --grid 5.6:0.0001:1,5:0.0001:1
  sidb-region 1
  tile 5.6000 5.6001 5.0000 5.0001 works
  works 1
  fails 0
  open 0
  end
  $ region --function buf --grid 5.6:0.0001:1,5:0.0001:1
  sidb-region 1
  tile 5.6000 5.6001 5.0000 5.0001 fails 0
  works 0
  fails 1
  open 0
  end

One whose spans don't decide stays whole without refinement, and is cut in four with it: permittivity outer, screening
length inner. What is decided is not cut again. The areas are those of the tiles, in units of 10^-4 by 10^-4 nm.

  $ region --function not --grid 5.6:1:1,5:1:1 --refine 0
  sidb-region 1
  tile 5.6000 6.6000 5.0000 6.0000 undecided 0
  works 0
  fails 0
  open 100000000
  end
  $ region --function not --grid 5.6:1:1,5:1:1 --refine 1
  sidb-region 1
  tile 5.6000 6.1000 5.0000 5.5000 works
  tile 5.6000 6.1000 5.5000 6.0000 works
  tile 6.1000 6.6000 5.0000 5.5000 undecided 0
  tile 6.1000 6.6000 5.5000 6.0000 undecided 0
  works 50000000
  fails 0
  open 50000000
  end
  $ region --function not --grid 5.6:1:1,5:1:1
  sidb-region 1
  tile 5.6000 6.1000 5.0000 5.5000 works
  tile 5.6000 6.1000 5.5000 6.0000 works
  tile 6.1000 6.3500 5.0000 5.2500 undecided 0
  tile 6.1000 6.3500 5.2500 5.5000 undecided 0
  tile 6.3500 6.6000 5.0000 5.2500 fails 0
  tile 6.3500 6.6000 5.2500 5.5000 undecided 0
  tile 6.1000 6.3500 5.5000 5.7500 works
  tile 6.1000 6.3500 5.7500 6.0000 works
  tile 6.3500 6.6000 5.5000 5.7500 undecided 0
  tile 6.3500 6.6000 5.7500 6.0000 undecided 0
  works 62500000
  fails 6250000
  open 31250000
  end
  $ region --function not --grid 5.6:1:1,5:1:1 --refine 2 > twice
  $ region --function not --grid 5.6:1:1,5:1:1 | cmp - twice

A domain agrees: a point in a tile that works, and one in the tile that fails.

  $ domain() { sidb --task domain --input 0:3 --output 1:2 --function not "$@" < inverter; }
  $ domain --grid 6.3499:1:1,5.5:0.25:1 | sed -n 2p
  cell 6.3499 5.5000 works
  $ domain --grid 6.35:0.25:2,5:0.25:2 | grep -c 'fails 0'
  4

Rectangles stand side by side, each cut by itself.

  $ region --function not --grid 5.6:0.4:2,5:1:2
  sidb-region 1
  tile 5.6000 6.0000 5.0000 6.0000 works
  tile 5.6000 6.0000 6.0000 7.0000 works
  tile 6.0000 6.2000 5.0000 5.5000 works
  tile 6.0000 6.2000 5.5000 6.0000 works
  tile 6.2000 6.3000 5.0000 5.2500 undecided 0
  tile 6.2000 6.3000 5.2500 5.5000 works
  tile 6.3000 6.4000 5.0000 5.2500 undecided 0
  tile 6.3000 6.4000 5.2500 5.5000 undecided 0
  tile 6.2000 6.3000 5.5000 5.7500 works
  tile 6.2000 6.3000 5.7500 6.0000 works
  tile 6.3000 6.4000 5.5000 5.7500 undecided 0
  tile 6.3000 6.4000 5.7500 6.0000 works
  tile 6.0000 6.4000 6.0000 7.0000 works
  works 150000000
  fails 0
  open 10000000
  end

A rectangle has the limit for itself, and so has each pattern. A search beyond it is an answer that stays open, and so
the rectangle is cut; a side of one unit is not cut.

  $ region --function not --grid 5.6:0.0001:1,5:0.0001:1 --limit 4
  sidb-region 1
  tile 5.6000 5.6001 5.0000 5.0001 budget 1
  works 0
  fails 0
  open 1
  end
  $ region --function not --grid 5.6:0.0003:1,5:0.0001:1 --limit 3 --refine 1
  sidb-region 1
  tile 5.6000 5.6001 5.0000 5.0001 budget 0
  tile 5.6001 5.6003 5.0000 5.0001 budget 0
  works 0
  fails 0
  open 3
  end

Where a list has more than 4,096 entries the tile says so.

  $ for row in -4400 -3300 -2200 -1100 0 1100 2200 3300 4400; do echo 0 $row 0; done > spread
  $ sidb --task region --depth 0 --gap 0 --input 0:1 --output 2:3 --function buf --grid 5:1:1,5:1:1 --refine 0 < spread
  sidb-region 1
  tile 5.0000 6.0000 5.0000 6.0000 long 0
  works 0
  fails 0
  open 100000000
  end

As JSON, in one line.

  $ region --function not --grid 5.6:1:1,5:1:1 --refine 1 --json
  {"fails":0,"kind":"sidb-region","open":50000000,"tiles":[{"answer":"works","eps":["5.6000","6.1000"],"lambda":["5.0000","5.5000"]},{"answer":"works","eps":["5.6000","6.1000"],"lambda":["5.5000","6.0000"]},{"answer":"undecided 0","eps":["6.1000","6.6000"],"lambda":["5.0000","5.5000"]},{"answer":"undecided 0","eps":["6.1000","6.6000"],"lambda":["5.5000","6.0000"]}],"version":1,"works":50000000}

The permittivity and the screening length of the words count for nothing, and neither does the number of workers.

  $ for words in '--eps 9 --lambda 1' '--workers 1' '--workers 16' '--energies' '--number 3 --sites 3' '--window 0.1'
  > do region --function not --grid 5.6:1:1,5:1:1 $words | cmp - twice; done

A place that is no site, as in a truth table.

  $ sidb --task region --input 0:3 --output 1:4 --function not --grid 5.6:1:1,5:1:1 < inverter
  fault input gate-site 4
  [3]

The last rectangle in each direction has to end in the range of its option, so a point at the end is no start.

  $ region --function not --grid 99:1:1,5:0.0001:1 --refine 0 | tail -n 1
  end
  $ region --function not --grid 99:1:2,5:1:1
  fault words
  [2]
  $ domain --grid 99:1:2,5:1:1 | tail -n 1
  end
  $ region --function not --grid 99.0001:1:1,5:1:1
  fault words
  [2]
  $ region --function not --grid 5:1:1,999:0.5:3
  fault words
  [2]
  $ region --function not --grid 5:0.0001:1,999:0.5:2 --refine 0 | tail -n 1
  end
  $ region --function not --grid 0.5:1:1,5:1:1
  fault words
  [2]

A gate, a grid and a layout are needed, and the depth of refinement goes to 6.

  $ region --function not
  fault words
  [2]
  $ region --grid 5.6:1:1,5:1:1
  fault words
  [2]
  $ sidb --task region --function not --grid 5.6:1:1,5:1:1 < inverter
  fault words
  [2]
  $ region --function not --grid 5.6:1:1,5:1:1 --form table
  fault words
  [2]
  $ region --function not --grid 5.6:1:1,5:1:1 --refine 7
  fault words
  [2]
  $ region --function not --grid 5.6:1:1,5:1:1 --refine -1
  fault words
  [2]
  $ region --function not --grid 5.6:1:1,5:1:1 --refine 1.5
  fault words
  [2]
  $ region --function not --grid 5.6:0.0001:1,5:0.0001:1 --refine 6 | tail -n 1
  end

The depth is tested, and counts for nothing, in each other task.

  $ sidb --refine 6 < inverter | head -n 1
  sidb-ground 1
  $ sidb --refine 7 < inverter
  fault words
  [2]
