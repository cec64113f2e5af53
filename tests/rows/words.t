Words of the command line
=========================

Each option stands at most once, as `--limit 2` or `--limit=2`; a flag stands alone. All else is `fault words`,
status 2, and then the input is not read.

  $ echo 0 0 0 > one
  $ sidb --limit=2 < one
  sidb-ground 1
  sites 1
  site 0 0 0 0
  skipped 0
  entries 1
  - certain
  end

  $ sidb --limit 2 < one | head -n 1
  sidb-ground 1

A single `--` as the last word changes nothing.

  $ sidb -- < one | head -n 1
  sidb-ground 1

From here on only what is refused. `refused` tells nothing where it is: each of its lines is one list of words,
without quotes.

  $ refused() { while read -r line; do
  >   said=$(sidb $line < one); code=$?
  >   [ "$said $code" = 'fault words 2' ] || echo "taken: $line"
  > done; }

Words that are no option, and what other programs take: no names of files, no help, no version, no short
letters, no abbreviations.

  $ refused << END
  > x
  > hello
  > -
  > -- hello
  > -- --json
  > --help
  > -h
  > help
  > --version
  > -V
  > --Limit 2
  > -limit 2
  > --lim 2
  > --ep 5
  > --=2
  > --limit 2 3
  > END
  $ sidb '' < one
  fault words
  [2]

An option twice, in either spelling, also with one and the same value; and a flag twice.

  $ refused << END
  > --limit 2 --limit 2
  > --limit=2 --limit=2
  > --eps 5 --eps 5
  > --eps=5 --eps 5
  > --json --json
  > --energies --energies
  > END

An option without its value, a flag with one. A word that begins with a dash is no value.

  $ refused << END
  > --limit
  > --limit=
  > --eps
  > --eps=
  > --limit -- 2
  > --limit --json
  > --limit -5
  > --depth -0.1
  > --depth -1
  > --json=true
  > --json=
  > --json true
  > END
  $ sidb --limit '' < one
  fault words
  [2]

Names are written as they are, and a base without a leading zero.

  $ refused << END
  > --task none
  > --form gds
  > --base 4
  > --base 03
  > END

A whole number is digits alone, within its range.

  $ refused << END
  > --limit 0
  > --limit 10000001
  > --limit 1.0
  > --limit 2.0
  > --limit +2
  > --limit=-5
  > --limit==2
  > --workers 0
  > --workers 17
  > END
  $ sidb --limit ' 2' < one
  fault words
  [2]

Zeros in front are allowed, however many.

  $ sidb --limit 00000000000000000000000000000000000000000000000000002 < one | head -n 1
  sidb-ground 1

A decimal is digits, and after a point digits again. Zeros at its end count as places: a permittivity has
at most four.

  $ refused << END
  > --eps 0.5
  > --eps 100.0001
  > --eps 5.60000
  > --eps 5,6
  > --eps .5
  > --eps 5.
  > --lambda 0.0999
  > --lambda 1000.0001
  > --depth 2.1
  > --depth=-1
  > --gap 0.0000000000001
  > --coulomb 13.999999
  > --coulomb 15.1
  > END

The ends of the ranges are taken.

  $ taken() { while read -r line; do
  >   said=$(sidb $line < one | head -n 1)
  >   [ "$said" = 'sidb-ground 1' ] || echo "refused: $line"
  > done; }
  $ taken << END
  > --eps 1
  > --eps 100.0000
  > --lambda 0.1
  > --lambda 1000
  > --depth 0
  > --depth 2.000000000000
  > --gap 0
  > --gap 0.000000000001
  > --coulomb 14
  > --coulomb 15.000000
  > --limit 10000000
  > --workers 16
  > END

All options are looked at, whatever the task and the form.

  $ refused << END
  > --task potentials --limit 0
  > --form table --eps 0.5
  > END

Gates
-----

An input is one pair or two, an output one to four; a pair is two places from 0 to 9999, and no place of all
pairs stands twice.

  $ refused << END
  > --input 0
  > --input 0:1:2
  > --input 0:1,
  > --input ,0:1
  > --input 0:1,2:3,4:5
  > --input 0:0
  > --input 0:1,1:2
  > --input 0:10000
  > --input 0:+1
  > --input 0:x
  > --input=-1:0
  > --output 0:1,2:3,4:5,6:7,8:9
  > --output 3:3
  > --input 0:1 --output 1:2
  > --input 0:1 --output 2:3,4:0
  > --input 0:1 --input 0:1
  > END
  $ taken << END
  > --input 0:1
  > --input 1:0
  > --input 0:1,2:3
  > --input 9998:9999
  > --input 00:0000000000000000000000000000001
  > --output 0:1
  > --output 0:1,2:3,4:5,6:7
  > --input 4:5 --output 0:1,2:3
  > END

A function is one of so many inputs, and needs them.

  $ refused << END
  > --function not
  > --output 0:1 --function not
  > --input 0:1 --function xor
  > --input 0:1 --function nand
  > --input 0:1 --function NOT
  > --input 0:1,2:3 --function not
  > --input 0:1,2:3 --function buf
  > --input 0:1,2:3 --function ,
  > END
  $ taken << END
  > --input 0:1 --function zero
  > --input 0:1 --function buf
  > --function not --input 0:1
  > --input 0:1 --function one
  > END
  $ for name in zero and gt a lt b xor or nor xnor notb ge nota le nand one; do
  >   echo "--input 0:1,2:3 --function $name"; done | taken

A grid has two axes of a start, a step and a count, of which each point is in its range.

  $ refused << END
  > --grid 5:1:1
  > --grid 5:1:1,
  > --grid 5:1:1,5:1:1,5:1:1
  > --grid 5:1,5:1:1
  > --grid 5:1:1:1,5:1:1
  > --grid 5:0:1,5:1:1
  > --grid 5:0.00001:1,5:1:1
  > --grid 5:1000.0001:1,5:1:1
  > --grid 5:1:0,5:1:1
  > --grid 5:1:65,5:1:1
  > --grid 5:1:1.0,5:1:1
  > --grid 0.9:1:1,5:1:1
  > --grid 99:1:3,5:1:1
  > --grid 5:1:1,0.0999:1:1
  > --grid 5:1:1,937.0001:1:64
  > END
  $ taken << END
  > --grid 1:0.0001:1,0.1:1000:1
  > --grid 37:1:64,937:1:64
  > --grid 100:1000:1,1000:1000:1
  > --grid 98:1:3,5.5:0.0001:02
  > END

The tasks `truth` and `domain` need a gate and a layout, and `domain` a grid.

  $ refused << END
  > --task truth
  > --task truth --input 0:1 --output 2:3
  > --task truth --input 0:1 --function not
  > --task truth --output 2:3
  > --task truth --input 0:1 --output 2:3 --function not --form table
  > --task domain --input 0:1 --output 2:3 --function not
  > --task domain --grid 5:1:1,5:1:1
  > --task domain --input 0:1 --output 2:3 --grid 5:1:1,5:1:1
  > --task domain --input 0:1 --output 2:3 --function not --grid 5:1:1,5:1:1 --form table
  > END

Generated layouts
-----------------

A number has 63 bits, and there are at most 64 sites.

  $ refused << END
  > --number 9223372036854775808
  > --number 18446744073709551616
  > --number=-1
  > --number 1.0
  > --sites 65
  > --sites=-1
  > --sites 64.0
  > --task gen --sites 65
  > --task gen --limit 0
  > END
  $ taken << END
  > --number 0
  > --number 9223372036854775807
  > --number 000009223372036854775807
  > --sites 0
  > --sites 64
  > END
