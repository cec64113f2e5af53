Marks of a file of SiQAD
========================

Which texts are read as marks at all: the profile of crates/sqd_marks and crates/sqd_nesting. Where the marks
are fine the program goes on to the root, and here finds one that is not named `siqad`; so `not-siqad` says that
a text is fine. Bytes are counted from 0.

  $ marks() { printf "$1" | sidb --form sqd; }

Text without marks, comments with dashes in them, declarations, blanks in end marks, `>` and `/>` inside quotes,
and `]]>` in a text:

  $ marks ' \t\r\n'
  fault input not-siqad
  [3]

  $ marks '<!-----><a\n></a\t>'
  fault input not-siqad
  [3]

  $ marks "<?a>?><a b=\"/>'\"/><!--->-->"
  fault input not-siqad
  [3]

  $ marks '<a><a><b/>]]></a></a>'
  fault input not-siqad
  [3]

A comment is no root, and neither is an element inside another.

  $ marks '<!--<siqad/>-->'
  fault input not-siqad
  [3]

  $ marks '<dbdot><siqad/></dbdot>'
  fault input not-siqad
  [3]

A whole one, behind a byte order mark; and elements as deep as the limit of bytes allows.

  $ marks "\357\273\277<?xml?> <siqad>a<!--b--><c d='>' e = \"x\" /></siqad >\n"
  sidb-ground 1
  sites 0
  skipped 0
  entries 1
  . certain
  end

  $ (printf '<siqad>'; yes '<a>' | head -n 100000 | tr -d '\n'; yes '</a>' | head -n 100000 | tr -d '\n'
  >  printf '</siqad>') | sidb --form sqd
  sidb-ground 1
  sites 0
  skipped 0
  entries 1
  . certain
  end

An incomplete byte order mark, and a second one:

  $ marks '\357\273<a/>'
  fault input bad-mark 0
  [3]

  $ marks '\357\273\277\357\273\277<a/>'
  fault input bad-mark 3
  [3]

Begin marks
-----------

  $ marks '< a/>'
  fault input bad-mark 1
  [3]

  $ marks '<1/>'
  fault input bad-mark 1
  [3]

  $ marks '<siqad / >'
  fault input bad-mark 8
  [3]

An attribute has a value between quotes, in which no mark begins, and a blank before it.

  $ marks '<siqad a=1/>'
  fault input bad-mark 9
  [3]

  $ marks '<a b/>'
  fault input bad-mark 4
  [3]

  $ marks "<a b c=''/>"
  fault input bad-mark 5
  [3]

  $ marks '<a b="<"/>'
  fault input bad-mark 6
  [3]

  $ marks '<a b=""c=""/>'
  fault input bad-mark 7
  [3]

End marks
---------

An end mark has the name of the innermost open element: not another one, nor one that begins alike.

  $ marks '<a></b>'
  fault input wrong-close 3
  [3]

  $ marks '<a></ab>'
  fault input wrong-close 3
  [3]

  $ marks '<a><dbdot/></b>'
  fault input wrong-close 11
  [3]

  $ marks '<a></b/'
  fault input bad-mark 6
  [3]

What is left open is told at the innermost element, an unfinished mark at its begin.

  $ marks '<siqad>'
  fault input not-closed 0
  [3]

  $ marks '<siqad><a>'
  fault input not-closed 7
  [3]

  $ marks '<a><b><c/></b>'
  fault input not-closed 0
  [3]

  $ marks '<a></b'
  fault input not-closed 3
  [3]

Outside the root
----------------

Blanks, comments and declarations alone stand before and behind the root.

  $ marks 'x<a/>'
  fault input bad-mark 0
  [3]

  $ marks '<a/>  x'
  fault input bad-mark 6
  [3]

A second root, and an end mark with nothing open, are told at their first byte, even unfinished.

  $ marks '<siqad/><siqad/>'
  fault input bad-mark 8
  [3]

  $ marks '<a/><b'
  fault input bad-mark 4
  [3]

  $ marks '<a/></a>'
  fault input bad-mark 4
  [3]

  $ marks '<a/></'
  fault input bad-mark 4
  [3]

  $ marks '</a'
  fault input bad-mark 0
  [3]

A text that ends where a comment could still begin is one that is not closed.

  $ marks '<a/><'
  fault input not-closed 4
  [3]

  $ marks '<a/><!'
  fault input not-closed 4
  [3]

Comments and declarations
-------------------------

A comment is at least seven bytes long, and ends at its first `-->`; a declaration at its first `?>`.

  $ marks '<!-->'
  fault input not-closed 0
  [3]

  $ marks '<!--->'
  fault input not-closed 0
  [3]

  $ marks '<!->'
  fault input bad-mark 3
  [3]

  $ marks '<?>'
  fault input not-closed 0
  [3]

Document types and sections of characters are refused by name, where they are whole.

  $ marks '<!DOCTYPE siqad><siqad/>'
  fault input doctype 0
  [3]

  $ marks '<siqad><![CDATA[x]]></siqad>'
  fault input cdata 7
  [3]

  $ marks '<a><![CDATA'
  fault input not-closed 3
  [3]

  $ marks '<![CDATA]'
  fault input bad-mark 8
  [3]

  $ marks '<!DOX'
  fault input bad-mark 4
  [3]

  $ marks '<!x'
  fault input bad-mark 2
  [3]
