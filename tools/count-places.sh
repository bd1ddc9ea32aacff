#!/usr/bin/env bash
# The places of each point in src/, counted by text. Run at the top of a checkout.
n() { wc -l | tr -d ' '; }
s='crates/*/src/*.rt'
echo "1a enums with a case that stands for an error or for nothing: $(python3 - <<'P'
import re,glob
c=0
for p in sorted(glob.glob('crates/*/src/*.rt')):
    t=open(p).read()
    for m in re.finditer(r'enum (\w+)(?:<[^>]*>)? \{(.*?)\n\}',t,re.S):
        if re.search(r'\n    (None|Nothing|Refused|NoMore|NoRequest|Bad|Node|Valid)\b',m.group(2)): c+=1
print(c)
P
)"
echo "1b fields and results that are flags: $(grep -hE '^ +(pub |pub\(crate\) )?[a-z_]+: bool,$' $s | n)"
echo "1c kinds and tags as numbers in parameters and fields: $(grep -hoE '\b(kind|tag|op): u64' $s | n)"
echo "2a functions of one name in several files: $(grep -hoE '^(pub |pub\(crate\) )?fn [a-z_0-9]+' $s | awk '{print $NF}' | sort | uniq -d | grep -v '^main$' | n)"
echo "2b walks over a tree (arms for two children): $(grep -hE '(Arity::Two|Two\)?) =>' $s | n)"
echo "3 loops by while: $(grep -hE '^ +while ' $s | n)"
echo "4 functions that compare, order, convert or pick the smaller by hand: $(grep -hE 'fn (least|shorter|larger|places_of|words_of|is_better|same_words|same|reason_of|numbered|wide|digit|nth|counted|verdict|of_width|of_validity|of_value|pick_other)\b' $s | n)"
echo "5 facts that stand in the requires of three or more functions: $(grep -hE '^ +requires' $s | sed 's/.*requires[a-z_ ]*{ //; s/ }$//' | sed 's/ × /\n/g' | sed 's/^ *(*//; s/)* *$//' | sort | uniq -c | awk '$1>=3' | n)"
echo "5b functions with five or more parameters: $(python3 - <<'P'
import re,glob
c=0
for p in glob.glob('crates/*/src/*.rt'):
    t=open(p).read()
    for m in re.finditer(r'\bfn \w+(?:<[^>]*>)?\(([^)]*)\)',t,re.S):
        a=[x for x in re.split(r',(?![^<(\[]*[>)\]])',m.group(1)) if x.strip()]
        if len(a)>=5: c+=1
print(c)
P
)"
echo "6 fixed arrays: $(grep -hoE '= \[[^];]+; [A-Za-z0-9_:]+\]|^    \[0; [A-Za-z0-9_:]+\]' $s | n)"
echo "6b a number of used places beside a buffer: $(grep -hE '\b(have|count): usize' $s | n)"
echo "7 tests of a step, a tag or a name: $(grep -hE 'same\(name|tag (==|<|!=)' $s | n)"
echo "8a proof files of functions: $(find crates/*/proofs -mindepth 2 -name '*.antt' | n)"
echo "8b lines of proofs: $(cat $(find crates/*/proofs -name '*.antt') | wc -l)"
echo "lines of src: $(cat $s | wc -l)"
