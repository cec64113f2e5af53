Files of SiQAD
==============

Of a file only the dots are read: elements `dbdot`, each with one `latcoord`. Items of the design layers that
are no dot and hold none, here one electrode, are counted as skipped.

  $ sidb --form sqd << END
  > <?xml version="1.0" encoding="UTF-8"?>
  > <siqad>
  >     <!--saved design-->
  >     <program>
  >         <file_purpose>save</file_purpose>
  >         <version>0.3.3</version>
  >     </program>
  >     <gui>
  >         <zoom>0.1</zoom>
  >     </gui>
  >     <layers>
  >         <layer_prop>
  >             <name>Surface</name>
  >             <type>DB</type>
  >         </layer_prop>
  >     </layers>
  >     <design>
  >         <layer type="Lattice"/>
  >         <layer type="Electrode">
  >             <electrode>
  >                 <layer_id>2</layer_id>
  >             </electrode>
  >         </layer>
  >         <layer type="DB">
  >             <aggregate>
  >                 <dbdot>
  >                     <layer_id>3</layer_id>
  >                     <latcoord n="1" m="0" l="0"/>
  >                     <physloc x="3.84" y="0"/>
  >                     <color>#ffc8c8c8</color>
  >                 </dbdot>
  >                 <dbdot>
  >                     <layer_id>3</layer_id>
  >                     <latcoord n="0" m="0" l="0"/>
  >                     <physloc x="0" y="0"/>
  >                     <color>#ffc8c8c8</color>
  >                 </dbdot>
  >             </aggregate>
  >         </layer>
  >     </design>
  > </siqad>
  > END
  sidb-ground 1
  sites 2
  site 0 0 0 0
  site 1 1 0 0
  skipped 1
  entries 2
  -0 certain
  0- certain
  end

A file without dots is a layout without sites.

  $ printf '<siqad/>' | sidb --form sqd
  sidb-ground 1
  sites 0
  skipped 0
  entries 1
  . certain
  end

A dot counts at any depth, and values may stand between single quotes.

  $ printf "<siqad><dbdot><latcoord n='1' m='0' l='0'/></dbdot></siqad>" | sidb --form=sqd
  sidb-ground 1
  sites 1
  site 0 1 0 0
  skipped 0
  entries 1
  - certain
  end

  $ printf '<siqad><dbdot><latcoord n="1" m="0" l="0"/></dbdot></siqad>' | sidb --form sqd
  sidb-ground 1
  sites 1
  site 0 1 0 0
  skipped 0
  entries 1
  - certain
  end

Spellings: a comment around a dot is none, blanks may stand around `=`, numbers may have zeros in front, and of
two attributes of one name the first counts.

  $ sidb --form sqd << END
  > <siqad><dbdot><a><!--<dbdot>--><latcoord n = '-2' m='03' l='1' n='x'>1</latcoord></a></dbdot></siqad>
  > END
  sidb-ground 1
  sites 1
  site 0 -2 3 1
  skipped 0
  entries 1
  - certain
  end

Skipped are the children of a design layer that are no dot and hold none: here `x` and `y`, and not `w`.

  $ sidb --form sqd << END
  > <siqad><design><layer><x/><y><z/></y><w><dbdot><latcoord l='0' m='0' n='0'/></dbdot></w></layer></design></siqad>
  > END
  sidb-ground 1
  sites 1
  site 0 0 0 0
  skipped 2
  entries 1
  - certain
  end

Layers that are no child of a design, and designs that are no child of the root, are none.

  $ sidb --form sqd << END
  > <siqad><layer><x/></layer><a><design><layer><x/></layer></design></a>
  > <design><a><layer><x/></layer></a></design></siqad>
  > END
  sidb-ground 1
  sites 0
  skipped 0
  entries 1
  . certain
  end

Faults
------

Those of the marks come first (marks.t). A text that ends inside a mark, or with elements open, is told at the
mark, or at the innermost of them, however many there are.

  $ printf '<siqad><design><layer type="DB"><dbd' | sidb --form sqd
  fault input not-closed 32
  [3]

  $ (printf '<siqad>'; yes '<a>' | head -n 100000 | tr -d '\n') | sidb --form sqd
  fault input not-closed 300004
  [3]

  $ printf '<siqad></design>' | sidb --form sqd
  fault input wrong-close 7
  [3]

An empty text has no root, and none that is named `siqad`.

  $ sidb --form sqd < /dev/null
  fault input not-siqad
  [3]

A dot without a place is told at its first byte; so is one with two places, one with a dot inside, and one with
a number that is missing, or is not one to nine digits with an optional minus.

  $ printf '<siqad><design><layer type="DB"><dbdot/></layer></design></siqad>' | sidb --form sqd
  fault input bad-site 32
  [3]

  $ place="<latcoord n='0' m='0' l='0'/>"
  $ for inside in "$place$place" "$place<a><dbdot/></a>" "<latcoord n='0' m='0'/>" \
  >   "<latcoord n='0' m='0' l='+1'/>" "<latcoord n='1234567890' m='0' l='0'/>"; do
  >   echo "<siqad><dbdot>$inside</dbdot></siqad>" | sidb --form sqd
  > done
  fault input bad-site 7
  fault input bad-site 7
  fault input bad-site 7
  fault input bad-site 7
  fault input bad-site 7
  [3]

Broken dots come before those that are out of range, these before too many, and these before two at one place.

  $ echo "<siqad><dbdot><latcoord n='9999' m='0' l='0'/></dbdot><dbdot/></siqad>" | sidb --form sqd
  fault input bad-site 54
  [3]

  $ echo "<siqad><dbdot><latcoord n='5001' m='0' l='0'/></dbdot></siqad>" | sidb --form sqd
  fault input out-of-range 7
  [3]

  $ printf "\357\273\277<siqad><dbdot><latcoord n='0' m='0' l='2'/></dbdot></siqad>" | sidb --form sqd
  fault input out-of-range 10
  [3]

  $ (echo '<siqad>'; for n in $(seq 65); do echo "<dbdot>$place</dbdot>"; done; echo '</siqad>') | sidb --form sqd
  fault input too-many
  [3]

  $ echo "<siqad><dbdot>$place</dbdot><dbdot><latcoord n='-0' m='00' l='0'/></dbdot></siqad>" | sidb --form sqd
  fault input duplicate 7 51
  [3]

The limit of bytes comes before all else.

  $ head -c 1048577 /dev/zero | tr '\0' ' ' | sidb --form sqd
  fault input too-long
  [3]
