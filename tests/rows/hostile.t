Hostile texts
=============

Texts that are made to mislead: certificates whose claims are false, and files that are cut off, doubled or far too
deep. Each is refused by the first thing that is wrong with it, with a status that isn't 0, and nothing else is
printed.

Certificates
------------

Two sites beside a fixed electron. Their own potential is 3 and that of each with the electron 1, both known, and
the levels are -2 and -10. One electron has the potential -1 and stays, a neutral site beside it has -4; two would have
-4 each; and a site without an electron beside it is not neutral at -1. So the list has two entries, each of energy 1.

  $ cat > sound << END
  > sidb-certificate 2
  > sidb-table 2
  > sites 2
  > fixed 1
  > base 3
  > mu -2 -10
  > charge -1
  > class 3 3
  > class 1 1
  > pair 0 1 0
  > near 0 0 1
  > near 1 0 1
  > end
  > entries 2
  > -0 certain
  > 0- certain
  > tokens
  > n
  > n
  > s 0
  > l 0
  > s 1
  > n
  > l 1
  > s 0
  > s 0
  > s 0
  > end
  > END
  $ sidb --task check < sound > answer
  $ cat answer
  sidb-ground 1
  sites 2
  skipped 0
  entries 2
  -0 certain
  0- certain
  end
  $ sed '1d; /^entries/,$d' sound | sidb --form table --task certify | cmp - sound

Whatever closes a prefix rightly is taken. Token 2 stands at two electrons: site 1 cannot hold one there; the energy is
3 and twice 1, which is above that of entry 0, and entry 0 beats it.

  $ changed() { sed "$1" sound | sidb --task check; }
  $ for token in 's 1' 'e 0' 'b 0'; do changed "20s/.*/$token/" | cmp - answer; done

Each refusal of a token, by one change of one line. Token 0 stands at the empty prefix, token 3 at entry 0, and token 4
at an electron beside a site that lacks one.

  $ while read -r token claim; do
  >   changed "$((18 + token))s/.*/$claim/"
  >   [ $? -eq 4 ] || echo "another status than 4: $token $claim"
  > done << END
  > 0 l 0
  > 3 n
  > 3 l 2
  > 3 s 2
  > 4 h 1 0
  > 3 s 0
  > 0 e 0
  > 3 l 1
  > 3 p 0
  > 4 h 0 1
  > 4 b 0
  > END
  fault certificate token 0 shape
  fault certificate token 3 shape
  fault certificate token 3 number
  fault certificate token 3 number
  fault certificate token 4 number
  fault certificate token 3 site-can
  fault certificate token 0 not-above
  fault certificate token 3 other-list
  fault certificate token 3 population-holds
  fault certificate token 4 hop-holds
  fault certificate token 4 not-beaten

The tokens end before the tree is whole, or go on behind it.

  $ changed 27d
  fault certificate short
  [4]
  $ changed '27s/.*/&\n&/'
  fault certificate long
  [4]

Each refusal of an entry: their order is the other one, one is added that cannot be, or one has another mark. Where one is
left out, the token at its list names another.

  $ changed '15{h; d}; 16G'
  fault certificate entry 1 order
  [4]
  $ changed '14s/2/3\n-- certain/'
  fault certificate entry 0 not-possible
  [4]
  $ changed '15s/certain/unresolved rival 1 0 0/'
  fault certificate entry 0 mark
  [4]
  $ changed '14s/2/1/; 15d'
  fault certificate token 3 other-list
  [4]

An entry that may be valid, and is beaten. Of four sites beside a fixed electron two hold an electron: the outer two
with an energy of 11, or the inner two with 10, and 10 more by the fixed one in both cases.

  $ cat > four << END
  > sidb-table 2
  > sites 4
  > fixed 1
  > base 3
  > mu -50 -1000
  > charge -1
  > class 100 100
  > class 12 12
  > class 11 11
  > class 10 10
  > class 5 5
  > pair 0 1 0
  > pair 0 2 1
  > pair 0 3 2
  > pair 1 2 3
  > pair 1 3 1
  > pair 2 3 0
  > near 0 0 4
  > near 1 0 4
  > near 2 0 4
  > near 3 0 4
  > end
  > END
  $ sidb --form table --task certify < four > four.certificate
  $ sed -n '/^entries/,/^tokens/p' four.certificate
  entries 1
  0--0 certain
  tokens
  $ sidb --task check < four.certificate | tail -2
  0--0 certain
  end
  $ sed 's/^entries 1/entries 2\n-00- certain/' four.certificate | sidb --task check
  fault certificate entry 0 beaten
  [4]

An energy that is not worth a comparison, since its entry is not certainly valid: a site beside a fixed electron
whose potential is 1 to 3, with the level -2.

  $ cat > unknown << END
  > sidb-certificate 2
  > sidb-table 2
  > sites 1
  > fixed 1
  > base 3
  > mu -2 -10
  > charge -1
  > class 1 3
  > near 0 0 0
  > end
  > entries 2
  > - unresolved population 0 above-minus -1 1
  > 0 unresolved population 0 below-minus -1 1
  > tokens
  > n
  > l 0
  > l 1
  > s 0
  > end
  > END
  $ sidb --task check < unknown | sed -n '/^entries/,$p'
  entries 2
  - unresolved population 0 above-minus -1 1
  0 unresolved population 0 below-minus -1 1
  end
  $ sed '18s/.*/e 0/' unknown | sidb --task check
  fault certificate token 3 not-certain
  [4]

A mark that says more or less than is so: certain where it isn't, another test, another number.

  $ for mark in 'certain' 'unresolved population 0 above-plus 7 9' 'unresolved population 0 above-minus -1 2' \
  >   'unresolved rival 1 -3 -1'; do
  >   sed "12s/ .*/ $mark/" unknown | sidb --task check
  > done
  fault certificate entry 0 mark
  fault certificate entry 0 mark
  fault certificate entry 0 mark
  fault certificate entry 0 mark
  [4]

A table that differs from its own in one number makes a claim about it false, or leaves all of them true. With the level
at -3 nothing changes, and a potential of 4 of the pair changes nothing either. With the level at -1 no electron at all is
possible too, with -4 two are, and with -5 a site beside an electron cannot be neutral. With a positive fixed charge two
electrons are possible.

  $ changed '6s/-2/-3/' | cmp - answer
  $ changed '8s/3 3/4 4/' | cmp - answer
  $ changed '6s/-2/-1/'
  fault certificate token 7 site-can
  [4]
  $ changed '6s/-2/-4/'
  fault certificate token 2 site-can
  [4]
  $ changed '6s/-2/-5/'
  fault certificate entry 0 not-possible
  [4]
  $ changed '7s/-1/1/'
  fault certificate token 2 site-can
  [4]

The versions of a certificate and of its table are the same.

  $ changed '1s/2/1/'
  fault input table line 2 form
  [3]
  $ changed '2s/2/1/'
  fault input table line 2 form
  [3]
  $ changed '1s/2/3/'
  fault input certificate line 1 form
  [3]

No front of a certificate is one, wherever it is cut off; nor is one with a byte more behind it.

  $ for size in $(seq 0 $(($(wc -c < sound) - 1))); do
  >   head -c $size sound | sidb --task check > said
  >   [ $? -eq 3 ] && grep -qE '^fault input (table|certificate) ' said || echo "$size: $(cat said)"
  > done
  $ for byte in ' ' '\n' 'e' '\0'; do (cat sound; printf "$byte") | sidb --task check; done
  fault input certificate line 29 form
  fault input certificate line 29 form
  fault input certificate line 29 form
  fault input certificate line 29 form
  [3]

Nor is one in which a byte is replaced by one that no such text has.

  $ for at in $(seq 0 $(($(wc -c < sound) - 1))); do
  >   (head -c $at sound; printf X; tail -c +$((at + 2)) sound) | sidb --task check > said
  >   [ $? -eq 3 ] && grep -qE '^fault input (table|certificate) ' said || echo "$at: $(cat said)"
  > done

The same changes of a certificate without fixed charges, of two neighbours.

  $ printf '%s\n' '0 0 0' '1 0 0' | sidb --task certify > sound
  $ sidb --task check < sound > answer
  $ for token in 's 1' 'e 0' 'b 0'; do changed "15s/.*/$token/" | cmp - answer; done
  $ while read -r token claim; do changed "$((13 + token))s/.*/$claim/"; done << END
  > 0 l 0
  > 3 n
  > 3 l 2
  > 4 h 1 0
  > 3 s 0
  > 0 e 0
  > 3 l 1
  > 3 p 0
  > 4 h 0 1
  > 4 b 0
  > END
  fault certificate token 0 shape
  fault certificate token 3 shape
  fault certificate token 3 number
  fault certificate token 4 number
  fault certificate token 3 site-can
  fault certificate token 0 not-above
  fault certificate token 3 other-list
  fault certificate token 3 population-holds
  fault certificate token 4 hop-holds
  fault certificate token 4 not-beaten
  [4]
  $ changed '10{h; d}; 11G'
  fault certificate entry 1 order
  [4]
  $ changed '9s/2/3/; 11s/.*/&\n00 certain/'
  fault certificate entry 2 not-possible
  [4]
  $ changed '10s/certain/unresolved rival 1 0 0/'
  fault certificate entry 0 mark
  [4]
  $ changed '9s/2/1/; 10d'
  fault certificate token 3 other-list
  [4]

Files of SiQAD
--------------

  $ while read -r text; do printf '%s' "$text" | sidb --form sqd; done << 'END'
  > <siqad></design>
  > <siqad><![CDATA[x]]></siqad>
  > <siqad a=1/>
  > <!x
  > <siqad/><siqad/>
  > <siqad><design><layer type="DB"><dbdot/></layer></design></siqad>
  > END
  fault input wrong-close 7
  fault input cdata 7
  fault input bad-mark 9
  fault input bad-mark 2
  fault input bad-mark 8
  fault input bad-site 32
  [3]

A hundred thousand elements that nobody closes, each inside the one before:

  $ (printf '<siqad>'; yes '<a>' | head -n 100000 | tr -d '\n') | sidb --form sqd
  fault input not-closed 300004
  [3]

The same within a dot; a name of a million letters, and a place of a million digits:

  $ (printf '<siqad><dbdot>'; yes '<a>' | head -n 100000 | tr -d '\n') | sidb --form sqd
  fault input not-closed 300011
  [3]
  $ long() { head -c 1000000 /dev/zero | tr '\0' "$1"; }
  $ (printf '<'; long a; printf '/>') | sidb --form sqd
  fault input not-siqad
  [3]
  $ (printf '<siqad><dbdot><latcoord n="'; long 1; printf '" m="0" l="0"/></dbdot></siqad>') | sidb --form sqd
  fault input bad-site 7
  [3]

An entity is no number, and a document type that would explain it is refused.

  $ echo '<siqad><dbdot><latcoord n="&#48;" m="0" l="0"/></dbdot></siqad>' | sidb --form sqd
  fault input bad-site 7
  [3]
  $ echo '<!DOCTYPE siqad [<!ENTITY a "0">]><siqad/>' | sidb --form sqd
  fault input doctype 0
  [3]

No front of a file with one dot is a file.

  $ printf '<siqad><dbdot><latcoord n="0" m="0" l="0"/></dbdot></siqad>' > dot
  $ sidb --form sqd < dot | tail -2
  - certain
  end
  $ for size in $(seq 0 $(($(wc -c < dot) - 1))); do
  >   head -c $size dot | sidb --form sqd > said
  >   [ $? -eq 3 ] && grep -qE '^fault input (not-siqad|not-closed [0-9]+)$' said || echo "$size: $(cat said)"
  > done

Any form
--------

A line of a million digits, bytes that are no text, a byte 0, and more bytes than an input may have, which a certificate may.

  $ each() { for words in '--form sites' '--form table' '--form sqd' '--task check'; do sidb $words < $1; done; }
  $ long 1 > digits
  $ each digits
  fault input bad-line 1
  fault input table line 1 form
  fault input bad-mark 0
  fault input certificate line 1 form
  [3]
  $ printf '\377\376\200' > bytes
  $ each bytes
  fault input bad-line 1
  fault input table line 1 form
  fault input bad-mark 0
  fault input certificate line 1 form
  [3]
  $ printf '\0' > zero
  $ each zero
  fault input bad-line 1
  fault input table line 1 form
  fault input bad-mark 0
  fault input certificate line 1 form
  [3]
  $ head -c 1048577 /dev/zero > zeros
  $ each zeros
  fault input too-long
  fault input too-long
  fault input too-long
  fault input certificate line 1 form
  [3]
