Reports as JSON
===============

With `--json` the ground list is one compact line, whose keys stand in the order of their bytes.

  $ printf '%s\n' '0 0 0' '1 0 0' > two
  $ sidb --json < two
  {"count":2,"entries":[{"charges":"-0","mark":"certain"},{"charges":"0-","mark":"certain"}],"kind":"sidb-ground","sites":[[0,0,0],[1,0,0]],"skipped":0,"version":1}

With energies, least and greatest:

  $ printf '%s\n' '0 0 0' '1 0 0' '2 0 0' | sidb --json --energies
  {"count":1,"entries":[{"charges":"-+-","energy":[-953107708687,-953107708684],"mark":"certain"}],"kind":"sidb-ground","sites":[[0,0,0],[1,0,0],[2,0,0]],"skipped":0,"version":1}

A table has no places.

  $ sidb --json --form table << END
  > sidb-table 1
  > sites 1
  > base 2
  > mu 0 -1
  > end
  > END
  {"count":2,"entries":[{"charges":"-","mark":"certain"},{"charges":"0","mark":"certain"}],"kind":"sidb-ground","sites":[],"skipped":0,"version":1}

An unresolved entry names its deciding comparison: here a test of a charge.

  $ sidb --json --lambda 0.1 --depth 0 << END
  > 0 0 0
  > 5000 0 0
  > END
  {"count":4,"entries":[{"charges":"--","deciding":{"greatest":0,"kind":"population","least":-1,"site":0,"test":"above-minus"},"mark":"unresolved"},{"charges":"-0","mark":"certain"},{"charges":"0-","mark":"certain"},{"charges":"00","mark":"certain"}],"kind":"sidb-ground","sites":[[0,0,0],[5000,0,0]],"skipped":0,"version":1}

A hop, and a rival:

  $ sidb --json --form table << END
  > sidb-table 1
  > sites 3
  > base 3
  > mu -60 -1000
  > class 50 50
  > class 50 52
  > class 51 51
  > pair 0 1 0
  > pair 0 2 1
  > pair 1 2 2
  > end
  > END
  {"count":2,"entries":[{"charges":"--0","mark":"certain"},{"charges":"-0-","deciding":{"from":0,"greatest":1,"kind":"hop","least":-1,"to":1},"mark":"unresolved"}],"kind":"sidb-ground","sites":[],"skipped":0,"version":1}

  $ sidb --json --form table << END
  > sidb-table 1
  > sites 4
  > base 3
  > mu -50 -1000
  > class 100 100
  > class 12 12
  > class 9 11
  > class 10 10
  > pair 0 1 0
  > pair 0 2 1
  > pair 0 3 2
  > pair 1 2 3
  > pair 1 3 1
  > pair 2 3 0
  > end
  > END
  {"count":2,"entries":[{"charges":"-00-","deciding":{"entry":1,"greatest":1,"kind":"rival","least":-1},"mark":"unresolved"},{"charges":"0--0","deciding":{"entry":0,"greatest":1,"kind":"rival","least":-1},"mark":"unresolved"}],"kind":"sidb-ground","sites":[],"skipped":0,"version":1}

Another lattice stands under `lattice`, fixed charges under `fixed`, and either makes it version 2.

  $ printf '%s\n' 'lattice 225 0 0 768 0 225' '0 0 0' '1 0 0' | sidb --json
  {"count":2,"entries":[{"charges":"-+","mark":"certain"},{"charges":"+-","mark":"certain"}],"kind":"sidb-ground","lattice":[225,0,0,768,0,225],"sites":[[0,0,0],[1,0,0]],"skipped":0,"version":2}

  $ printf '%s\n' '0 0 0' 'fix 1 0 0 -1' | sidb --json
  {"count":1,"entries":[{"charges":"0","mark":"certain"}],"fixed":[[1,0,0,-1]],"kind":"sidb-ground","sites":[[0,0,0]],"skipped":0,"version":2}

A fault is a line of text here too.

  $ echo 0 0 | sidb --json
  fault input bad-line 1
  [3]
