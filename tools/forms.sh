#!/bin/sh
# Counts, in the code of this checkout (or of the one named), where an older form may stand: lines for the points of docs/DESIGN-PASS.md.
cd "${1:-.}" || exit 1
count() { printf '%s %4d  %s\n' "$1" "$(cat crates/*/src/*.rt | grep -cE "$2")" "$3"; }
count 1 '^(pub )?enum ' 'enums of our own'
count 1 'ensures \{ result ≡ first_no' 'questions that answer a number'
count 1 '(return|^ +|=> \{?) *[0-9]+[;,]?$' 'numbers answered'
count 1 'Answer::(Yes|No)|Found::|Spot::|Location::|Lookup::|Number::|Parsed::|SettingsLine::|Word::|Field::|Numbers::|Reading::|Printed::|Compared::|Sent::|Delivered::|Dropped::|Checked::' 'cases of enums of the shape of Option or Result'
count 3 '^ *while .*\{$' 'loops by while'
count 3 '^ *[a-z_]+ (\+|-)= 1;$' 'indices counted by hand'
count 4 '\.0 [=!]= |[=!]= [a-z_.]+\.0$' 'numbers of a wrapped type compared'
count 4 '=> (true|false),$' 'a case turned into a flag by hand'
count 5 'requires .*StoreOf settings' 'contracts that ask that the settings be the store'"'"'s'
count 5 'log: &(mut )?\[u8\], chunks: usize, width: usize' 'a log with its two sizes'
count 5 't: &(mut )?\[u8\], (width: usize, )?most: usize' 'a table with its sizes'
count 5 'kind: u64,$|kind: u64, a: u64' 'an event in its fields'
count 6 'tables: &(mut )?\[usize\]' 'lists of places where 0 is none'
count 7 '(saving|staying): bool|role: usize' 'a flag or number that switches a step'
