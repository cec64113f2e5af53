Workers
=======

How many workers share a search changes not one byte of an answer. Forty sites far from each other are all
negative.

  $ for n in $(seq 0 10 390); do echo $n 0 0; done > row40
  $ sidb --workers 1 < row40 > one
  $ tail -n 2 one
  ---------------------------------------- certain
  end
  $ sidb --workers 2 < row40 | cmp - one
  $ sidb --workers 16 < row40 | cmp - one

Nor does it change where a limit is passed: one site has two nodes.

  $ for workers in 1 2 16; do echo 0 0 0 | sidb --workers $workers --limit 1; done
  fault budget 1
  fault budget 1
  fault budget 1
  [5]
  $ for workers in 1 2 16; do echo 0 0 0 | sidb --workers $workers --limit 2 | tail -n 2; done
  - certain
  end
  - certain
  end
  - certain
  end

There are one to sixteen.

  $ echo 0 0 0 | sidb --workers 0
  fault words
  [2]
  $ echo 0 0 0 | sidb --workers 17
  fault words
  [2]
