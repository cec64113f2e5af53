Generated layouts
=================

A number makes a layout, for long runs without an input: each site takes three draws. The first site of number 1
stands in column 10.

  $ sidb --task gen --number 1 --sites 1 < /dev/null
  sidb-gen 1
  number 1
  sites 1
  nodes 2
  entries 1
  certain 1
  end

No site at all: the one list of no charges, and the empty prefix.

  $ sidb --task gen --number 1 --sites 0 < /dev/null
  sidb-gen 1
  number 1
  sites 0
  nodes 1
  entries 1
  certain 1
  end

Without words of its own it is number 0, with 40 sites.

  $ sidb --task gen < /dev/null
  sidb-gen 1
  number 0
  sites 40
  nodes 41
  entries 1
  certain 1
  end

The numbers 1 to 8, each twice: the same bytes.

  $ gen() { sidb --task gen --number $1 --limit 5000 < /dev/null; }
  $ twice() { gen $1 > once; gen $1 | cmp - once; tail -n +3 once; }
  $ for number in 1 2 3 4 5 6 7 8; do gen $number | head -n 2; done
  sidb-gen 1
  number 1
  sidb-gen 1
  number 2
  sidb-gen 1
  number 3
  sidb-gen 1
  number 4
  sidb-gen 1
  number 5
  sidb-gen 1
  number 6
  sidb-gen 1
  number 7
  sidb-gen 1
  number 8
  $ twice 1
  sites 40
  nodes 41
  entries 1
  certain 1
  end
  $ for number in 2 3 4 5 6 8; do twice $number > said; twice 1 | cmp - said; done
  $ twice 7
  sites 40
  nodes 56
  entries 1
  certain 1
  end

The limit is that of the nodes: 56 are taken, 55 are not.

  $ sidb --task gen --number 7 --limit 56 < /dev/null | grep nodes
  nodes 56
  $ sidb --task gen --number 7 --limit 55 < /dev/null
  fault budget 55
  [5]

The greatest number, and the most sites.

  $ sidb --task gen --number 9223372036854775807 --sites 3 < /dev/null
  sidb-gen 1
  number 9223372036854775807
  sites 3
  nodes 4
  entries 1
  certain 1
  end
  $ sidb --task gen --number 1 --sites 64 < /dev/null | tail -n +3
  sites 64
  nodes 65
  entries 1
  certain 1
  end

It is the layout of the rule: the three sites of the greatest number, written out, have the same tree.

  $ printf '%s\n' '4 1 1' '10 2 1' '19 1 0' > written
  $ sidb --limit 4 < written | head -n 1
  sidb-ground 1
  $ sidb --limit 3 < written
  fault budget 3
  [5]
  $ sidb --task gen --number 9223372036854775807 --sites 3 --limit 3 < /dev/null
  fault budget 3
  [5]

Nothing is read, not even what can't be: a folder.

  $ sidb --task gen --number 1 --sites 1 < . | head -n 1
  sidb-gen 1
  $ sidb < .
  [7]

What changes nothing: the form, the flags, the number of workers.

  $ gen 7 > plain
  $ for words in '--form table' '--form sqd' '--json' '--energies' '--workers 1' '--workers 16' '--window 1'
  > do sidb --task gen --number 7 --limit 5000 $words < /dev/null | cmp - plain; done
