Truth tables of gates
=====================

An input of a gate is a pair of sites `A:B`, of which each pattern takes one away: for a 0 the second, for a 1
the first. An output is a pair that reads 0 where its first site alone is negative, 1 where the second alone is.

Two dots between the two places of an input. Their electron goes to the side where the input is not, so the
output is the input's `not`.

  $ cat > inverter << END
  > 0 0 0
  > 6 0 0
  > 8 0 0
  > 14 0 0
  > END
  $ sidb --task truth --input 0:3 --output 1:2 --function not < inverter
  sidb-truth 1
  function not
  inputs 1
  outputs 1
  pattern 0 wants 1 works entries 1
  -0- certain
  pattern 1 wants 0 works entries 1
  -0- certain
  verdict works
  end

As a `buf` no pattern works: a certain entry reads the other bit. The last verdict names the first pattern that
does not work.

  $ sidb --task truth --input 0:3 --output 1:2 --function buf < inverter
  sidb-truth 1
  function buf
  inputs 1
  outputs 1
  pattern 0 wants 0 fails entries 1
  -0- certain
  pattern 1 wants 1 fails entries 1
  -0- certain
  verdict fails 0
  end

A gate may fail under one pattern alone.

  $ sidb --task truth --input 0:3 --output 1:2 --function one < inverter | grep -e wants -e verdict
  pattern 0 wants 1 works entries 1
  pattern 1 wants 1 fails entries 1
  verdict fails 1

A pair that is turned reads the other bit, at the input and at the output.

  $ sidb --task truth --input 3:0 --output 1:2 --function buf < inverter | tail -n 2
  verdict works
  end
  $ sidb --task truth --input 0:3 --output 2:1 --function buf < inverter | tail -n 2
  verdict works
  end

As JSON, in one line.

  $ sidb --task truth --input 0:3 --output 1:2 --function not --json < inverter
  {"function":"not","kind":"sidb-truth","patterns":[{"entries":[{"charges":"-0-","mark":"certain"}],"pattern":0,"verdict":"works","wants":1},{"entries":[{"charges":"-0-","mark":"certain"}],"pattern":1,"verdict":"works","wants":0}],"verdict":"works","version":1}
  $ sidb --task truth --input 0:3 --output 1:2 --function one --json < inverter | grep -o '"verdict":"fails[^}]*'
  "verdict":"fails","wants":1
  "verdict":"fails 1","version":1

The verdict of a layout that a file of SiQAD holds: its dots are numbered in row order too.

  $ cat > inverter.sqd << END
  > <siqad><design><layer type="DB">
  > <dbdot><latcoord n="14" m="0" l="0"/></dbdot>
  > <dbdot><latcoord n="6" m="0" l="0"/></dbdot>
  > <dbdot><latcoord n="8" m="0" l="0"/></dbdot>
  > <dbdot><latcoord n="0" m="0" l="0"/></dbdot>
  > </layer></design></siqad>
  > END
  $ sidb --form sqd --task truth --input 0:3 --output 1:2 --function not < inverter.sqd | tail -n 2
  verdict works
  end

Two inputs
----------

The first input is the more significant bit of the pattern. Here the second one stands 115 nm away and moves
nothing, so the gate is `nota`, and with the inputs exchanged `notb`.

  $ (cat inverter; echo 300 0 0; echo 310 0 0) > far
  $ sidb --task truth --input 0:3,4:5 --output 1:2 --function nota < far
  sidb-truth 1
  function nota
  inputs 2
  outputs 1
  pattern 0 wants 1 works entries 1
  -0-- certain
  pattern 1 wants 1 works entries 1
  -0-- certain
  pattern 2 wants 0 works entries 1
  -0-- certain
  pattern 3 wants 0 works entries 1
  -0-- certain
  verdict works
  end
  $ sidb --task truth --input 0:3,4:5 --output 1:2 --function notb < far | grep -e wants -e verdict
  pattern 0 wants 1 works entries 1
  pattern 1 wants 0 fails entries 1
  pattern 2 wants 1 fails entries 1
  pattern 3 wants 0 works entries 1
  verdict fails 1
  $ sidb --task truth --input 4:5,0:3 --output 1:2 --function notb < far | tail -n 2
  verdict works
  end

Two outputs
-----------

Each output has to read the wanted bit. With one of two turned the gate does neither.

  $ (cat inverter; echo 16 0 0; echo 22 0 0) > wire
  $ sidb --task truth --input 0:5 --output 1:2,3:4 --function not < wire
  sidb-truth 1
  function not
  inputs 1
  outputs 2
  pattern 0 wants 1 works entries 1
  -0-0- certain
  pattern 1 wants 0 works entries 1
  -0-0- certain
  verdict works
  end
  $ sidb --task truth --input 0:5 --output 1:2,4:3 --function not < wire | tail -n 2
  verdict fails 0
  end

No bit
------

A pair of which both dots are negative reads no bit.

  $ cat > wide << END
  > 0 0 0
  > 6 0 0
  > 20 0 0
  > 26 0 0
  > END
  $ sidb --task truth --input 0:3 --output 1:2 --function not < wide
  sidb-truth 1
  function not
  inputs 1
  outputs 1
  pattern 0 wants 1 fails entries 1
  --- certain
  pattern 1 wants 0 fails entries 1
  --- certain
  verdict fails 0
  end

Undecided
---------

A dot 768 nm away moves the electron of a pair or does not, as the potentials choose. No entry is certain, and
of the two one reads the wanted bit: nothing is decided.

  $ cat > far_pairs << END
  > 0 0 0
  > 1 0 0
  > 2000 0 0
  > 2001 0 0
  > END
  $ sidb --task truth --input 2:3 --output 0:1 --function buf < far_pairs
  sidb-truth 1
  function buf
  inputs 1
  outputs 1
  pattern 0 wants 0 undecided entries 2
  -0- unresolved hop 0 1 -1 1
  0-- unresolved hop 1 0 -1 1
  pattern 1 wants 1 undecided entries 2
  -0- unresolved hop 0 1 -1 1
  0-- unresolved hop 1 0 -1 1
  verdict undecided 0
  end

Beside a fixed charge of -2 a dot is positive, or in base 2 nothing that is allowed. Where no list is valid
nothing is decided either.

  $ cat > dense << END
  > 0 0 0
  > 20 0 0
  > 40 0 0
  > 50 0 0
  > fix 1 0 0 -2
  > END
  $ sidb --task truth --base 2 --input 2:3 --output 0:1 --function not < dense
  sidb-truth 1
  function not
  inputs 1
  outputs 1
  pattern 0 wants 1 undecided entries 0
  pattern 1 wants 0 undecided entries 0
  verdict undecided 0
  end
  $ sidb --task truth --input 2:3 --output 0:1 --function one < dense | tail -n 7
  outputs 1
  pattern 0 wants 1 works entries 1
  +-- certain
  pattern 1 wants 1 works entries 1
  +-- certain
  verdict works
  end

Works without a certain entry
-----------------------------

A square of dots has two lists of lowest energy. A dot 768 nm away decides between them, as the potentials
choose: both are valid whatever they are, and each names the other as its rival. A pair elsewhere reads the same
bit in both. So under every choice there is a ground state, and it reads this bit.

  $ cat > square << END
  > 0 0 0
  > 2 0 0
  > 0 1 0
  > 2 1 0
  > 2000 0 0
  > 2002 0 0
  > 0 3000 0
  > 2 3000 0
  > fix -6 3000 0 -1
  > END
  $ sidb --task truth --input 2:3 --output 6:7 --function one < square
  sidb-truth 1
  function one
  inputs 1
  outputs 1
  pattern 0 wants 1 works entries 2
  -0-0-0- unresolved rival 1 -6 6
  0---00- unresolved rival 0 -6 6
  pattern 1 wants 1 works entries 2
  -0-0-0- unresolved rival 1 -6 6
  0---00- unresolved rival 0 -6 6
  verdict works
  end

That the pair reads the other bit where 0 is wanted is no failure, since no entry is certain.

  $ sidb --task truth --input 2:3 --output 6:7 --function zero < square | tail -n 2
  verdict undecided 0
  end

Faults
------

A place of a pair that is no site. The first one is named: inputs before outputs, in the order of the words.

  $ sidb --task truth --input 0:3 --output 1:4 --function not < inverter
  fault input gate-site 4
  [3]
  $ sidb --task truth --input 0:9 --output 7:1 --function not < inverter
  fault input gate-site 9
  [3]
  $ sidb --task truth --input 8:7 --output 1:2 --function not < inverter
  fault input gate-site 8
  [3]
  $ sidb --task truth --input 0:3,4:9999 --output 1:2 --function nota < inverter
  fault input gate-site 4
  [3]

A fault of the layout comes before it.

  $ (cat inverter; echo 0 0) | sidb --task truth --input 0:3 --output 1:4 --function not
  fault input bad-line 5
  [3]

Each pattern has the limit for itself: the first has 4 nodes, the second 5.

  $ sidb --task truth --input 0:3 --output 1:2 --function not --limit 5 < inverter | tail -n 2
  verdict works
  end
  $ sidb --task truth --input 0:3 --output 1:2 --function not --limit 4 < inverter
  fault budget 4
  [5]
  $ sidb --task truth --input 0:3 --output 1:2 --function not --limit 3 --json < inverter
  fault budget 3
  [5]

Nine dots far from each other, with both levels at 0: eight are left, and all 6,561 lists may be valid.

  $ for row in -4400 -3300 -2200 -1100 0 1100 2200 3300 4400; do echo 0 $row 0; done > spread
  $ sidb --task truth --depth 0 --gap 0 --input 0:1 --output 2:3 --function buf < spread
  fault list-too-long
  [6]

What changes nothing
--------------------

  $ truth() { sidb --task truth --input 0:3 --output 1:2 --function not "$@" < inverter; }
  $ truth > plain
  $ for words in '--energies' '--workers 1' '--workers 16' '--grid 5:1:2,5:1:2' '--number 3 --sites 3' '--window 1'
  > do truth $words | cmp - plain; done
