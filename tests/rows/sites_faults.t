Faults of a list of sites
=========================

The first fault is told, in the order of docs/FORMATS.md, with the number of its line, and the status is 3.

A line that is neither a site nor a fixed charge nor a lattice:

  $ echo 0 0 | sidb
  fault input bad-line 1
  [3]

A number has no plus and at most nine digits, one carriage return before the end of a line is left out, and no
comment stands behind numbers.

  $ printf '0 0 0\n\n+1 0 0\n' | sidb
  fault input bad-line 3
  [3]

  $ echo 0 0 1234567890 | sidb
  fault input bad-line 1
  [3]

  $ printf '0 0 0\r\r\n' | sidb
  fault input bad-line 1
  [3]

  $ printf '%s\n' '5001 0 0' '0 0 0 #' | sidb
  fault input bad-line 2
  [3]

Comments count as lines.

  $ printf '# sites\n0 0 0\nhello' | sidb
  fault input bad-line 3
  [3]

A table text is no list of sites.

  $ echo sidb-table 1 | sidb
  fault input bad-line 1
  [3]

A column goes up to 5000, and no further.

  $ echo 5000 0 0 | sidb
  sidb-ground 1
  sites 1
  site 0 5000 0 0
  skipped 0
  entries 1
  - certain
  end

  $ echo 5001 0 0 | sidb
  fault input out-of-range 1
  [3]

Of two equal places both lines are told, the first of the place and the first that repeats it, be they sites
or fixed charges.

  $ printf '%s\n' '0 0 0' '0 0 0' | sidb
  fault input duplicate 1 2
  [3]

  $ printf '%s\n' '#' '0 0 0' 'fix 0 0 0 1' | sidb
  fault input duplicate 2 3
  [3]

  $ printf '%s\n' 'fix 0 0 0 1' '0 0 0' '0 0 0' | sidb
  fault input duplicate 1 2
  [3]

A number out of its range comes before them, and so does a ninth fixed charge.

  $ printf '%s\n' '0 0 0' '0 0 0' 'fix 1 0 0 0' | sidb
  fault input out-of-range 3
  [3]

  $ for n in 1 2 3 4 5 6 7 8 9; do echo fix 1 0 0 1; done | sidb
  fault input too-many-fixes
  [3]

There are at most 64 sites.

  $ for n in $(seq 0 10 640); do echo $n 0 0; done | sidb
  fault input too-many
  [3]

An input of more than 1,048,576 bytes is refused whatever it says; one byte less is read.

  $ head -c 1048577 /dev/zero | tr '\0' ' ' | sidb
  fault input too-long
  [3]

  $ head -c 1048576 /dev/zero | tr '\0' ' ' | sidb | head -n 2
  sidb-ground 1
  sites 0
