Faults of a table text
======================

The first line at fault decides, and the status is 3. Words that do not concern the text change nothing.

An empty text has no first line, and this one has another.

  $ sidb --form table < /dev/null
  fault input table line 1 form
  [3]

  $ echo hello | sidb --form table --limit=2 --depth 0 --
  fault input table line 1 form
  [3]

A number that is well written and out of its range is told apart from one that is not: the base is 2 or 3,
without a leading zero.

  $ printf '%s\n' 'sidb-table 1' 'sites 0' 'base 4' | sidb --form table
  fault input table line 3 range
  [3]

  $ printf '%s\n' 'sidb-table 1' 'sites 0' 'base 03' | sidb --form table
  fault input table line 3 form
  [3]

  $ printf '%s\n' 'sidb-table 1' 'sites -1' | sidb --form table
  fault input table line 2 range
  [3]

The last line needs its end, and nothing follows it.

  $ printf 'sidb-table 1\nsites 0\nbase 3\nmu -1 -2\nend' | sidb --form table
  fault input table line 5 form
  [3]

  $ printf 'sidb-table 1\nsites 0\nbase 3\nmu -1 -2\nend\n\n' | sidb --form table
  fault input table line 6 form
  [3]

  $ printf 'sidb-table 1\nsites 0\nbase 3\nmu -1 -2\nend\n ' | sidb --form table
  fault input table line 6 form
  [3]

Too many sites, and too many fixed charges:

  $ printf '%s\n' 'sidb-table 1' 'sites 65' | sidb --form table
  fault input table too-many
  [3]

  $ printf '%s\n' 'sidb-table 2' 'sites 0' 'fixed 9' | sidb --form table
  fault input table too-many-fixed
  [3]

A span whose ends are the wrong way round, told by the number of its class:

  $ sidb --form table << END
  > sidb-table 1
  > sites 2
  > base 3
  > mu -2 -590000000002
  > class 3 1
  > pair 0 1 0
  > end
  > END
  fault input table span 0
  [3]

A class too many comes before a bad span.

  $ printf '%s\n' 'sidb-table 1' 'sites 1' 'base 3' 'mu -2 -5' 'class 3 1' | sidb --form table
  fault input table line 5 range
  [3]

A pair without its line, and a pair with two:

  $ sidb --form table << END
  > sidb-table 1
  > sites 2
  > base 3
  > mu -2 -590000000002
  > class 1 3
  > end
  > END
  fault input table missing 0 1
  [3]

  $ sidb --form table << END
  > sidb-table 1
  > sites 2
  > base 3
  > mu -2 -590000000002
  > class 1 3
  > pair 0 1 0
  > pair 0 1 0
  > end
  > END
  fault input table twice 0 1
  [3]

A class line behind the first pair is no line that may stand there.

  $ sidb --form table << END
  > sidb-table 1
  > sites 2
  > base 3
  > mu -2 -590000000002
  > class 1 3
  > pair 0 1 0
  > class 1 3
  > end
  > END
  fault input table line 7 form
  [3]

The same of a site and a fixed charge, which only version 2 has:

  $ printf '%s\n' 'sidb-table 2' 'sites 1' 'fixed 1' 'base 3' 'mu -1 -2' 'charge -1' 'class 1 1' > front
  $ (cat front; echo end) | sidb --form table
  fault input table missing-near 0 0
  [3]

  $ (cat front; echo near 0 0 0; echo near 0 0 0; echo end) | sidb --form table
  fault input table twice-near 0 0
  [3]

  $ printf '%s\n' 'sidb-table 1' 'sites 1' 'base 3' 'mu -1 -2' 'near 0 0 0' 'end' | sidb --form table
  fault input table line 5 form
  [3]
