#!/bin/bash
# Counts the places that docs/DESIGN-PASS.md speaks of, a line for each kind of place, in crates/*/src and, for point 8, in crates/*/proofs.
# What the check writes (the folders `out/`) is left out. Run at the top of the repository; with a commit, on that commit. With the word
# `list` behind it, the places themselves are listed, with their files, in place of how many they are.
set -e
list=
for word in "$@"; do
  if [ "$word" = list ]; then list=1; else commit=$word; fi
done
if [ -n "$commit" ]; then
  dir=$(mktemp -d)
  git archive "$commit" crates | tar -x -C "$dir"
  cd "$dir"
fi
files() { find crates -path '*/out' -prune -o -path "*/src/*.rt" -print | sort; }
proofs() { find crates -path '*/out' -prune -o -path "*/proofs/*.antt" -print | sort; }
# The lines of code, each behind its file, without comments.
src() { files | xargs grep -H '' | sed -E 's/ *\/\/.*$//'; }
# A line for each function: its file, its name, how many parameters it has, and these with blanks folded. A comma inside brackets parts no
# parameters, and one behind the last parameter stands before none.
functions() {
  files | xargs perl -0777 -ne '
    while (/^[ \t]*(?:pub(?:\([a-z]+\))? )?(?:unsafe )?(?:extern "C" )?fn (\w+)\s*(<(?:[^<>()]|<[^<>]*>|\([^()]*\)|->)*>)?\(((?:[^()]|\((?:[^()]|\([^()]*\))*\))*)\)/mg) {
      my ($name, $given, $deep, @all) = ($1, $3, 0, (""));
      for my $c (split //, $given) {
        $deep++ if $c =~ /[<(\[]/;
        $deep-- if $c =~ /[>)\]]/;
        if ($c eq "," && $deep == 0) { push @all, ""; next }
        $all[-1] .= $c;
      }
      @all = map { s/\s+/ /gr } grep { /\S/ } @all;
      print "$ARGV $name " . scalar(@all) . " (" . join(",", map { s/^ | $//gr } @all) . ")\n";
    }'
}
# What is left of loops over a range: those whose body takes a place of a slice, or of a span, by the number that the loop counts.
counted() {
  files | xargs perl -ne '
    if (/^(\s*)(?:.[a-z_]+: )?for (_?\w+) in .*\.\./) { ($pad, $i, $head, $hit) = ($1, $2, "$ARGV: $_", 0) }
    elsif (defined $i) {
      $hit = 1 if /\[[^\]]*\b$i\b[^\]]*\]/ || /\.get\([^)]*\b$i\b/ || /\[$i\]/;
      if (/^$pad\}/) { print $head if $hit; undef $i }
    }'
}
# Functions whose text is the same but for names, types, numbers and strings: for each such group, one less than it has.
twins() {
  files | xargs perl -0777 -ne '
    s{//[^\n]*}{}g;
    while (/^[ \t]*((?:pub(?:\([a-z]+\))? )?(?:extern "C" )?fn (\w+).*?\n)([ \t]*)\{\n(.*?)\n\3\}\n/msg) {
      my ($name, $body, %seen, $n) = ($2, $4);
      my @lines = grep { /\w/ } split /\n/, $body;
      next if @lines < 4;
      $body =~ s/b?"[^"]*"|\x27[^\x27]*\x27|\b\d\w*\b/0/g;
      $body =~ s/\b([A-Za-z_]\w*)\b/$1 =~ m{^(let|mut|if|else|match|for|in|while|loop|return|as|fn|true|false|self)$} ? $1 : ($seen{$1} \/\/= "w" . $n++)/ge;
      $body =~ s/\s+//g;
      print "$body\t$ARGV $name\n";
    }' | sort | awk -F'\t' '{ n[$1]++; who[$1] = who[$1] "; " $2 } END { for (b in n) if (n[b] > 1) for (i = 1; i < n[b]; i++) print substr(who[b], 3) }' | sort
}
# Functions that have all of these parameters.
with() {
  f=$(functions)
  for w in "$@"; do f=$(grep -E "[(, ]$w:" <<<"$f" || true); done
  [ -z "$f" ] || printf '%s\n' "$f"
}
# Functions that share three parameters or more, the same names and types, with two other functions at least; `self` aside.
together() {
  functions | perl -ne '
    my ($id, $given) = /^(\S+ \S+) \d+ \((.*)\)$/ or next;
    my ($deep, @p) = (0, "");
    for my $c (split //, $given) { $deep++ if $c =~ /[<(\[]/; $deep-- if $c =~ /[>)\]]/; if ($c eq "," && !$deep) { push @p, ""; next } $p[-1] .= $c }
    @p = sort grep { /:/ } @p;
    for my $a (0 .. $#p) { for my $b ($a + 1 .. $#p) { for my $c ($b + 1 .. $#p) { push @{$of{"$p[$a]; $p[$b]; $p[$c]"}}, $id } } }
    END { for my $k (keys %of) { next if @{$of{$k}} < 3; $in{$_}{$k} = 1 for @{$of{$k}} } print "$_\n" for sort keys %in }'
}
show() {
  lines=$(cat)
  if [ -n "$list" ]; then
    printf '\n== %s\n' "$1"
    [ -z "$lines" ] || printf '%s\n' "$lines"
  else
    printf '%-106s %s\n' "$1" "$([ -z "$lines" ] && echo 0 || wc -l <<<"$lines")"
  fi
}
echoes() { grep -E "$@" || true; }
src | echoes '^[^:]*:(pub )?const (SORT|BYTE|TERM|BINDER|AS|PARAM|QUESTION|OP|KIND)_[A-Z0-9_]+:' | echoes -v '_BIT:' | show '1 constants that number a kind or an operator'
src | echoes '\b(kind|op|wanted|other|form|head): &?(usize|u8|u32)\b' | show '1 lines that take or hold the number of a kind or an operator (kind, op, wanted, other, form, head: usize, u8)'
src | echoes '^[^:]*:(pub )?enum [A-Z]\w+' | perl -ne 'print if /enum (Applied|Both|Call|Columns|Constant|Found|Fit|Got|Head|Header|Indices|Input|Interned|Loaded|Matched|Outcome|Parts|Passed|Pushed|Read\w+|Recall|Replaced|RowVerdict|Scan|SheetRead|Shown|Widths) \{/' | perl -ne 'my ($f, $n) = /^([^:]*):.*enum (\w+)/; open my $h, "<", $f; local $/; my $t = <$h>; print if $t =~ /enum $n \{(?:[^{}]|\{[^{}]*\})*\b(No\w*|Not\w*|Nothing|Full|NoRoom|Wrong|Lack|Failed|Stuck|Short|Refused|Unknown|Other|Misfits|End|Unfit|TooLarge|Halted|Absent|Unread|NoRead|Panics|None)\b/' | show '1 own enums of the shape of Option or Result: one of their variants says that there is nothing, or why'
functions | echoes '[(,]\w+: bool' | show '1 functions with a parameter that is a flag'
files | xargs perl -0777 -ne 'while (/^(?:pub )?struct (\w+)[^{;]*\{(.*?)^\}/msg) { my ($s, $b) = ($1, $2); print "$ARGV $s $1\n" while $b =~ /^ +(?:pub )?(\w+: bool),$/mg }' | show '1 fields that are a flag'
twins | show '2 functions that differ from another in names, types and numbers alone (four lines or more)'
src | echoes '(^[^:]*: *|[ =])(while .*|loop) \{$' | show '3 loops that are no `for`'
counted | show '3 loops over a range that take places of a slice or of a span by the counted number'
src | echoes '\bfor .* in .*\{$' | show '3 loops that are a `for`, in all'
src | echoes '\.(all|any|map|filter|zip|nth|next|enumerate|iter_mut|count|min|max|find|rev)\(' | show '3 lines that call an iterator'
files | xargs perl -0777 -ne 'while (/^((?:#\[derive\([^\n]*\)\]\n)?)(?:pub )?(enum|struct) (\w+)/mg) { my ($d, $k, $n) = ($1, $2, $3); print "$ARGV $k $n\n" if $d !~ /Clone/ }' | show '4 enums and structs that derive no Clone, Copy or equality'
src | echoes '\bfn (number_of|refusal_number|cause_of|same_reason|same_head|least|capped_at|up_to|byte_of|form_in|row_of|row_again|code|tag_of)\(|\bfn number\(c: ' | show '4 functions that convert, compare or take the least'
src | echoes '% 2 == 1|/ 256|% 256|\* 65536' | show '4 lines that take a bit or a byte of a number by division'
src | echoes 'impl.* (From|TryFrom)<' | show '4 impls of From and TryFrom'
with records places | show '5 functions with the parameters records and places'
with records places index count used | show '5 functions with the parameters records, places, index, count and used'
with params images bound | show '5 functions with the parameters params, images and bound'
with sheet table | show '5 functions with the parameters sheet and table'
with args n | show '5 functions with the parameters args and n'
functions | awk '$3 >= 8' | show '5 functions with eight parameters or more'
together | show '5 functions that share three parameters, names and types, with two others at least'
{ with parts many; with names named; with list n; with order many; with bytes len; with at count; with at n; with at left; with list count; with bound many; } | sort -u | show '6 functions with a buffer or a place and how much of it counts beside it'
{ with test; with family; with adds; with column; } | sort -u | show '7 functions with a parameter that says which step to run (test, family, adds, column)'
src | echoes '[(=,&] ?\|(\(?[a-z_][a-z_, ]*\)?|\(\))\| |\(\|\| |<[A-Z]: Fn' | show '7 lines with a closure, or with a parameter that is one'
proofs | xargs cat | echoes . | show '8 lines of proofs/'
proofs | echoes '/(Answers|Invariants)\.antt$' | xargs cat | echoes . | show '8 lines of them in proofs of functions (Answers.antt, Invariants.antt)'
proofs | echoes '/Answers\.antt$' | xargs perl -0777 -ne 'while (/^pub (\S+) : goal\.\S+\n(?:unfolding [^\n]*\n)?\1 [^=\n]*=\s+search [^ ;\n]+( [a-z]+ [0-9]+)?$/mg) { print "$ARGV $1\n" }' | show '8 answers that are `search ..` alone'
proofs | echoes '/Answers\.antt$' | xargs perl -Mutf8 -CSD -0777 -ne '
  s/^(use |--|pub )[^\n]*$//mg; s/\s+/ /g; my %seen;
  while (/[ (](?=(\S.{44}))/g) { $seen{$1}++ }
  print "$ARGV\n" if grep { $_ >= 3 } values %seen;' | show '8 answers files in which a phrase of 45 characters stands three times or more'
