#!/bin/sh
# Builds the panel's program and compares what it prints with outputs written by hand from documents 01 and 02.
# With the argument `run` the panel's outline and the examples that run a recipe, price a can, print its card, save a run and
# read a value are tried too, and buffers that a caller must not lend. The archive must have been built before.
set -eu
cd "$(dirname "$0")/.."
archive=target/staticlib/libexports.a
out=target/panel
mkdir -p "$out"
flags="-std=c11 -O2 -Wall -Wextra -Werror -Iinclude"
${CC:-cc} $flags -o "$out/panel" panel/panel.c "$archive"

# Prints 32-bit words as little-endian bytes.
words() {
    for w in "$@"; do
        for shift in 0 8 16 24; do printf "\\$(printf %o $((w >> shift & 255)))"; done
    done
}

# Prints a word so many times.
repeat() {
    i=0
    while [ "$i" -lt "$1" ]; do words "$2"; i=$((i + 1)); done
}

# Prints the words of a list's cells, ML cons and number, for these pulses.
items() {
    for pulses in "$@"; do words 25 $((17 + 256 * pulses)); done
}

failed=0

# same NAME STATUS EXPECTED COMMAND...: the command's status and output are as written.
same() {
    name=$1 status=$2 expected=$3
    shift 3
    got=0
    # The shell itself says so where a signal ends a command.
    { printed=$("$@" 2>&1) || got=$?; } 2>/dev/null
    if [ "$printed" != "$expected" ] || [ "$got" -ne "$status" ]; then
        printf 'FAILED %s: status %s, not %s\n  due:     %s\n  printed: %s\n' "$name" "$got" "$status" "$expected" "$printed"
        failed=1
    fi
}

(
    cd "$out"
    words 1 4 3 5 1 21 529 785 >add
    : >empty
    { words 1 4 1 5 1 17; printf x; } >odd
    head -c 16388 /dev/zero >long
    words 1 4 1 6 1 17 >header
    words 1 4 1 5 1 99 >kind
    words 1 4 1 5 3 17 >type-out
    words 1 4 2 5 1 21 17 >term-out
    words 1 4 2 5 1 17 17 >remains
    { words 1 4 257 5 1; repeat 256 20; words 17; } >deep
    words 3 4 5 7 4 1 1 18 1 30 1 32 >scope
    words 1 4 3 5 1 19 17 17 >no-type
    words 1 4 1 5 2 17 >other-type
    # if0 (nil N) (hd 3) 1, of which hd is named; ms N (sm {N} 0); and nil N, declared {L}.
    words 1 4 6 5 1 23 24 1 26 785 273 >no-type-inside
    words 1 4 6 5 1 30 1 45 3 1 17 >no-type-script
    words 2 4 2 6 3 2 24 1 >other-type-inside
    words 1 4 8 5 1 19 30 4 1 1 34 32 1809 >wrapped
    words 1 4 3 5 1 26 24 1 >hd-nil
    words 2 4 3 6 3 1 27 24 1 >tl-nil
    words 2 4 2 6 3 1 24 1 >no-items
    { words 2 4 20 6 3 1; items 9999 10000 99999 100000 0 1 999 1000 16777215; words 24 1; } >nine-items
    { words 2 4 22 6 3 1; items 1 2 3 4 5 6 7 8 9 10; words 24 1; } >ten-items
    for pump in 1 2 3 4 5 6 7 8 9; do echo "$((100 * pump)) $((100 * pump + 1)) $((100 * pump + 2))"; done >prices
    { head -n 8 prices; echo 1 2 1000001; } >over
    head -n 8 prices >short
    # fix (fn {N} (cons 1 v0)): a cons around it with each step.
    words 2 4 7 6 3 1 20 18 3 1 25 273 16 >nests
    # ms N (num? (app (fn (app v0 (app v0 .. 1))) (fn (cons v0 v0)))): a list that is doubled twelve times.
    { words 1 4 34 5 1 30 1 811 35 34; for i in 1 2 3 4 5 6 7 8 9 10 11 12; do words 35 32; done; words 289 34 40 32 32; } >doubles
    # ms N (if0 nil 1 2).
    words 1 4 6 5 1 30 1 38 39 289 545 >if0-nil
    # What wrapped is after three steps: ms N (app (fn v0) 7).
    words 1 4 6 5 1 30 1 35 34 32 1825 >lunch-due
    rm -f lunch larger again unsaved printed
    # The cards of nine-items by prices, of no-items, and of one item, (cons 7 nil); each line has 40 columns.
    cat >nine-card <<'card'
 1          9999            1000        
 2         10000            2010        
 3         99999           30100        
 4        100000           40200        
 5             0               0        
 6             1               1        
 7           999             700        
 8          1000             800        
 9      16777215        15133048        
TOTAL                   15207859        
card
    printf 'TOTAL                          0        \n' >no-card
    { words 2 4 4 6 3 1; items 7; words 24 1; } >one-item
    # 7 x 100 thousandths of a cent.
    printf ' 1             7               1        \nTOTAL                          1        \n' >one-card
    # Every kind: a function from lists to lumps, and a term of 43 words.
    words 4 4 43 8 4 3 1 2 18 1 23 28 27 24 2 26 25 16 1809 19 20 784 21 22 4294967057 76829 1 30 3 1 \
        34 38 43 299 555 811 39 35 36 4294967072 1825 37 40 41 32 42 33 16777004 45 2 17 >kinds
    words 2 4 1 6 1 2 17 >type-remains
    words 1 4 4 5 1 20 17 20 273 >two-terms
    words 1 4 5 5 1 21 17 21 17 99 >damaged
    words 1 4 5 5 1 21 30 1 17 17 >other-sort
    words 1 4 1 5 17 1 >exchanged
    # Owners: the word of L with owner n is 2 + 256 n. A type with owners 0, 1, 7 and 255: {L} to (L1 to (L7 to L255)).
    words 8 4 10 12 4 3 2 4 258 4 1794 65282 30 4 3 2 4 258 4 1794 65282 39 >owners
    # ms L7 (fn v0), declared the same, declared L, and declared with owner 256.
    words 1 4 4 5 1794 30 1794 34 32 >owner
    words 1 4 4 5 2 30 1794 34 32 >other-owner
    words 1 4 4 5 65538 30 1794 34 32 >owner-over
    # null? (nil (L255 to {L256})) and null? (nil (L255 to {L255})).
    words 1 4 6 5 1 28 24 4 65282 3 65538 >owner-over-inside
    words 1 4 6 5 1 28 24 4 65282 3 65282 >owner-last
    # app (fn L9 v0) (ms L7 4), opened: one owner's lump handed to another.
    words 1 4 11 5 1 30 1 45 2306 19 18 2306 16 30 1794 1057 >owner-handed
    # The same opened and sealed for the other: ms L9 (sm L7 (ms L7 4)).
    words 1 4 15 5 1 30 1 45 2306 19 18 2306 16 30 2306 45 1794 30 1794 1057 >owner-resealed
    # What that is after one step, with ms L9 4.
    words 1 4 11 5 1 30 1 45 2306 19 18 2306 16 30 2306 1057 >resealed-due
    rm -f resealed
    words 20 >fixes
    for i in 1 2 3 4 5 6 7 8 9 10 11 12; do cat fixes fixes >twice && mv twice fixes; done
    { words 1 4 4091 5 1; head -c $((4 * 4090)) fixes; words 17; } >deepest
)
cd "$out"

word="This word has no kind or operand that is due here, or the type or the term is complete before it, or the type ends too early."
header="The header is wrong: a count is 0, an offset is not the one due, or the words do not add up to the file's length."
size="The file's size is wrong: a recipe has 24 to 16,384 bytes, a multiple of 4."
no_type="The term has no type: this node's parts are in order, but do not fit together."
other_type="The term's type is not the declared one: this declared word is the first that differs."
same add 0 "add: accepted" ./panel add
same empty 1 "empty: refused 1. $size" ./panel empty
same odd 1 "odd: refused 1. $size" ./panel odd
same long 1 "long: refused 1. $size" ./panel long
same header 1 "header: refused 2. $header" ./panel header
same kind 1 "kind: refused 3 at word 5. $word" ./panel kind
same type-out 1 "type-out: refused 3 at word 5. $word" ./panel type-out
same term-out 1 "term-out: refused 3 at word 7. The file ends here, before the term is complete." ./panel term-out
same remains 1 "remains: refused 3 at word 6. $word" ./panel remains
same deep 1 "deep: refused 4 at word 261. This word lies deeper than 256 levels." ./panel deep
same scope 1 "scope: refused 5 at word 11. This variable has no lambda of its own language at its operand." ./panel scope
same no-type 1 "no-type: refused 6 at word 5. $no_type" ./panel no-type
same no-type-inside 1 "no-type-inside: refused 6 at word 8. $no_type" ./panel no-type-inside
same no-type-script 1 "no-type-script: refused 6 at word 7. $no_type" ./panel no-type-script
same other-type 1 "other-type: refused 7 at word 4. $other_type" ./panel other-type
same other-type-inside 1 "other-type-inside: refused 7 at word 5. $other_type" ./panel other-type-inside
same owner 0 "owner: accepted" ./panel owner
same owner-last 0 "owner-last: accepted" ./panel owner-last
same owner-resealed 0 "owner-resealed: accepted" ./panel owner-resealed
same owner-over 1 "owner-over: refused 3 at word 4. $word" ./panel owner-over
same owner-over-inside 1 "owner-over-inside: refused 3 at word 10. $word" ./panel owner-over-inside
same owner-handed 1 "owner-handed: refused 6 at word 9. $no_type" ./panel owner-handed
same other-owner 1 "other-owner: refused 7 at word 4. $other_type" ./panel other-owner
same several 1 "add: accepted
header: refused 2. $header
wrapped: accepted" ./panel add header wrapped
same unread 2 "panel: cannot read none: No such file or directory" ./panel none
same worst 2 "panel: cannot read none: No such file or directory
empty: refused 1. $size
add: accepted" ./panel none empty add
same folder 2 "panel: cannot read .: Is a directory" ./panel .
same usage 2 "usage: panel FILE...
Checks recipe files. Words are counted from 0, each of 4 bytes." ./panel

# The headers in older C, and in C++, by each compiler that is here.
printf '#include "recipe_checked.h"\n#include "recipe_value.h"\n' >headers
strict="-Wall -Wextra -pedantic -Werror -fsyntax-only -I../../include"
for compiler in "${CC:-cc}" gcc clang; do
    if command -v "$compiler" >/dev/null; then
        same "headers-c99-$compiler" 0 "" "$compiler" -std=c99 $strict -x c headers
        same "headers-released-$compiler" 0 "" "$compiler" -std=c99 -DNDEBUG $strict -x c headers
    fi
done
for compiler in c++ g++ clang++; do
    if command -v "$compiler" >/dev/null; then
        same "headers-$compiler" 0 "" "$compiler" -std=c++11 $strict -x c++ headers
    fi
done

# What words are: no archive is needed to read them.
(cd ../.. && ${CC:-cc} $flags -o "$out/value" panel/value.c)
other="something else"
same value-0 0 "the number 0" ./value 17
same value-7 0 "the number 7" ./value 1809
same value-most 0 "the number 16777215" ./value 4294967057
same value-none 0 "a list of 0 numbers:" ./value 24 1
same value-one 0 "a list of 1 numbers: 7" ./value 25 1809 24 1
same value-nine 0 "a list of 9 numbers: 0 1 2 3 4 5 6 7 16777215" ./value 25 17 25 273 25 529 25 785 25 1041 25 1297 25 1553 \
    25 1809 25 4294967057 24 1
same value-ten 0 "a list of 10 numbers: 0 1 2 3 4 5 6 7 8 .." ./value 25 17 25 273 25 529 25 785 25 1041 25 1297 25 1553 \
    25 1809 25 2065 25 2321 24 1
same value-no-words 1 "$other" ./value
same value-function 1 "$other" ./value 18 1 16
same value-lists 1 "$other" ./value 25 24 1 24 3 1
same value-lumps 1 "$other" ./value 24 2
same value-empty-lists 1 "$other" ./value 24 3 1
same value-type 1 "$other" ./value 1
same value-scheme 1 "$other" ./value 33
same value-scheme-list 1 "$other" ./value 40 33 39
# Cut off behind each word; a word too many; and items or an end that are none.
same value-cut-1 1 "$other" ./value 25 1809 24
same value-cut-2 1 "$other" ./value 25 1809
same value-cut-3 1 "$other" ./value 25
same value-more 1 "$other" ./value 17 17
same value-more-list 1 "$other" ./value 25 1809 24 1 24 1
same value-zeros 1 "$other" ./value 25 1809 24 1 0 0
same value-item 1 "$other" ./value 25 1825 24 1
same value-sum 1 "$other" ./value 25 21 17 17 24 1
same value-cons 1 "$other" ./value 281 1809 24 1
same value-end 1 "$other" ./value 25 1809 280 1
same value-end-type 1 "$other" ./value 25 1809 24 257
same value-usage 2 "usage: value WORD...
At most 64 words, each 0 to 4294967295." ./value 4294967296

if [ "${1:-}" = run ]; then
    (cd ../.. && ${CC:-cc} $flags -o "$out/run" panel/run.c "$archive")
    same run-add 0 "value, code 0, 1 steps, 1 words left, 0 wanted
0 calls, 0 conversions, 1 others
the number 5" ./run add
    same run-wrapped 0 "value, code 0, 5 steps, 1 words left, 0 wanted
2 calls, 3 conversions, 0 others
the number 7" ./run wrapped
    same run-nine 0 "value, code 0, 0 steps, 20 words left, 0 wanted
0 calls, 0 conversions, 0 others
a list of 9 numbers: 9999 10000 99999 100000 0 1 999 1000 16777215" ./run nine-items
    same run-no-items 0 "value, code 0, 0 steps, 2 words left, 0 wanted
0 calls, 0 conversions, 0 others
a list of 0 numbers" ./run no-items
    same run-hd-nil 0 "error, code 4, 2 steps, 0 words left, 0 wanted
0 calls, 0 conversions, 2 others" ./run hd-nil
    same run-if0-nil 0 "error, code 1, 2 steps, 0 words left, 0 wanted
0 calls, 0 conversions, 2 others" ./run if0-nil
    same run-kind 1 "refused 3 at word 5" ./run kind
    # ms L7 of a lambda is a value, whoever the owner is; the lump of L9 is opened, after the one of L7 was.
    same run-owner 0 "value, code 0, 0 steps, 4 words left, 0 wanted
0 calls, 0 conversions, 0 others
30 1794 34 32" ./run owner
    same run-owner-resealed 0 "value, code 0, 4 steps, 1 words left, 0 wanted
1 calls, 3 conversions, 0 others
the number 4" ./run owner-resealed
    same run-owner-over 1 "refused 3 at word 4" ./run owner-over
    same run-owner-handed 1 "refused 6 at word 9" ./run owner-handed
    same run-no-type-inside 1 "refused 6 at word 8" ./run no-type-inside
    same run-other-type-inside 1 "refused 7 at word 5" ./run other-type-inside

    (cd ../.. && ${CC:-cc} $flags -o "$out/price" panel/price.c "$archive")
    # 125,000 x 8; 12,400 x 27; none of pump 3; 850 x 41: in thousandths of a cent.
    same price-can 0 "pump 1: 1000 cents
pump 2: 335 cents
pump 3: 0 cents
pump 4: 35 cents
pump 5: 0 cents
pump 6: 0 cents
pump 7: 0 cents
pump 8: 0 cents
pump 9: 0 cents
total: 1370 cents" ./price ../../recipes/can.bin ../../recipes/shop.prices
    # 9,999 x 100; 10,000 x 201; 99,999 x 301; 100,000 x 402; 0; 1 x 600; 999 x 700; 1,000 x 800; 16,777,215 x 902.
    same price-nine 0 "pump 1: 1000 cents
pump 2: 2010 cents
pump 3: 30100 cents
pump 4: 40200 cents
pump 5: 0 cents
pump 6: 1 cents
pump 7: 700 cents
pump 8: 800 cents
pump 9: 15133048 cents
total: 15207859 cents" ./price nine-items prices
    same price-error 0 "error after 2 steps: no charge" ./price tl-nil prices
    same price-kind 1 "refused 3, place 5" ./price kind prices
    same price-no-type 1 "refused 6, place 8" ./price no-type-inside prices
    same price-other-type 1 "refused 7, place 5" ./price other-type-inside prices
    same price-not-numbers 1 "refused 9, place 0" ./price add prices
    same price-items 1 "refused 10, place 0" ./price ten-items prices
    same price-over 1 "refused 11, place 0" ./price no-items over
    same price-over-first 1 "refused 11, place 0" ./price empty over
    same price-short 2 "usage: price FILE PRICES
PRICES has nine rows of three prices: cents for 1,000 pulses." ./price no-items short

    (cd ../.. && ${CC:-cc} $flags -o "$out/card" panel/card.c "$archive")
    # Every byte, the last line feed too: `same` alone would not see that.
    card() {
        name=$1 expected=$2
        shift 2
        ./card "$@" >printed || failed=1
        same "$name" 0 "" cmp printed "$expected"
    }
    card card-can ../../recipes/can.card ../../recipes/can.bin ../../recipes/shop.prices
    card card-nine nine-card nine-items prices
    card card-none no-card no-items prices
    card card-one one-card one-item prices
    # Two lines have 82 bytes.
    card card-just one-card one-item prices 82
    same card-short 1 "refused 14, place 0" ./card one-item prices 81
    same card-no-bytes 1 "refused 14, place 0" ./card no-items prices 0
    same card-nine-short 1 "refused 14, place 0" ./card nine-items prices 409
    same card-error 1 "error after 2 steps: no card" ./card tl-nil prices
    same card-error-no-bytes 1 "error after 2 steps: no card" ./card tl-nil prices 0
    # Nothing of it comes to a printer.
    same card-error-printed 1 "" sh -c './card tl-nil prices 2>/dev/null'
    same card-short-printed 1 "" sh -c './card one-item prices 81 2>/dev/null'
    same card-kind 1 "refused 3, place 5" ./card kind prices 0
    same card-no-type 1 "refused 6, place 8" ./card no-type-inside prices 0
    same card-other-type 1 "refused 7, place 5" ./card other-type-inside prices 0
    same card-not-numbers 1 "refused 9, place 0" ./card add prices 0
    same card-items 1 "refused 10, place 0" ./card ten-items prices 0
    same card-over 1 "refused 11, place 0" ./card empty over 0
    card_usage="usage: card FILE PRICES [BYTES]
PRICES has nine rows of three prices: cents for 1,000 pulses. BYTES are lent for the card."
    same card-prices 2 "$card_usage" ./card no-items short
    same card-unread 2 "$card_usage" ./card none prices
    same card-usage 2 "$card_usage" ./card no-items

    (cd ../.. && ${CC:-cc} $flags -o "$out/save" panel/save.c "$archive")
    same save-spent 0 "spent, code 0, 3 steps, 6 words left, 0 wanted
1 calls, 2 conversions, 0 others
saved in lunch, 44 bytes" ./save wrapped 3 lunch
    same save-bytes 0 "" cmp lunch lunch-due
    same save-checked 0 "lunch: accepted" ./panel lunch
    # With the three steps above: 5 steps, 2 calls and 3 conversions, as of wrapped in one run.
    same save-goes-on 0 "value, code 0, 2 steps, 1 words left, 0 wanted
1 calls, 1 conversions, 0 others
the number 7" ./run lunch
    # Owners are saved with their lumps.
    same save-owner 0 "spent, code 0, 1 steps, 11 words left, 0 wanted
0 calls, 1 conversions, 0 others
saved in resealed, 64 bytes" ./save owner-resealed 1 resealed
    same save-owner-bytes 0 "" cmp resealed resealed-due
    # A file that an earlier release saved, which took the third part of an if0 whose test is a list.
    same saved-before-checked 0 "../../recipes/saved-before.bin: accepted" ./panel ../../recipes/saved-before.bin
    same saved-before-goes-on 0 "error, code 1, 2 steps, 0 words left, 0 wanted
0 calls, 0 conversions, 2 others" ./run ../../recipes/saved-before.bin
    # After a call and 10 doublings: 3 words, two applications of 5 and a list of 2,047; next 3, 5 and 4,095.
    same save-full 0 "full, code 0, 11 steps, 2060 words left, 4103 wanted
11 calls, 0 conversions, 0 others
saved in larger, 8260 bytes" ./save doubles 1000 larger
    same save-full-again 0 "full, code 0, 0 steps, 2060 words left, 4103 wanted
0 calls, 0 conversions, 0 others
saved in again, 8260 bytes" ./save larger 1 again
    same save-same 0 "" cmp larger again
    # 300 conses: the 256th has its first part at level 257, behind 255 of two words and itself.
    same save-deep 1 "spent, code 0, 300 steps, 607 words left, 0 wanted
300 calls, 0 conversions, 0 others
refused 4, place 517" ./save nests 300 unsaved
    # 7 and 2 x 2,044 words; with the type and the header more than 4,096.
    same save-long 1 "full, code 0, 2044 steps, 4095 words left, 4097 wanted
2044 calls, 0 conversions, 0 others
refused 12, place 0" ./save nests 9999 unsaved
    same save-value 0 "value, code 0, 1 steps, 1 words left, 0 wanted
0 calls, 0 conversions, 1 others
nothing is saved" ./save add 9 unsaved
    same save-error 0 "error, code 4, 2 steps, 0 words left, 0 wanted
0 calls, 0 conversions, 2 others
nothing is saved" ./save hd-nil 9 unsaved
    same save-kind 1 "refused 3 at word 5" ./save kind 9 unsaved
    same save-unsaved 1 "" test -e unsaved
    same save-unwritten 2 "save: cannot write none/out
spent, code 0, 0 steps, 3 words left, 0 wanted
0 calls, 0 conversions, 0 others" ./save add 0 none/out
    same save-usage 2 "usage: save FILE STEPS OUT" ./save add 3

    (cd ../.. && ${CC:-cc} $flags -o "$out/outline" panel/outline.c "$archive")
    none="no whole node starts here"
    same outline-add 0 "    4  N
    5  ML add
    6    ML number 2
    7    ML number 3" ./outline add
    same outline-wrapped 0 "    4  N
    5  ML application
    6    ML ms
    7      function
    8        N
    9        N
   10      Scheme lambda
   11        Scheme variable 0
   12    ML number 7" ./outline wrapped
    same outline-kinds 0 "    4  function
    5    list
    6      N
    7    L
    8  ML lambda
    9    N
   10    ML if0
   11      ML null?
   12        ML tl
   13          ML nil
   14            L
   15      ML hd
   16        ML cons
   17          ML variable 0
   18          ML number 7
   19      ML application
   20        ML fix
   21          ML variable 3
   22        ML add
   23          ML subtract
   24            ML number 16777215
   25            ML wrong 300
   26              N
   27          ML ms
   28            list
   29              N
   30            Scheme lambda
   31              Scheme if0
   32                Scheme fun?
   33                  Scheme list?
   34                    Scheme null?
   35                      Scheme num?
   36                        Scheme nil
   37                Scheme application
   38                  Scheme add
   39                    Scheme variable 16777215
   40                    Scheme number 7
   41                  Scheme subtract
   42                    Scheme cons
   43                      Scheme hd
   44                        Scheme variable 0
   45                      Scheme tl
   46                        Scheme number 0
   47                    Scheme wrong 65535
   48                Scheme sm
   49                  L
   50                  ML number 0" ./outline kinds
    # An owner stands right behind its L; owner 0 is not written.
    same outline-owners 0 "    4  function
    5    list
    6      L
    7    function
    8      L1
    9      function
   10        L7
   11        L255
   12  ML ms
   13    function
   14      list
   15        L
   16      function
   17        L1
   18        function
   19          L7
   20          L255
   21    Scheme nil" ./outline owners
    # An owner over 255: neither its word nor a node around it is whole.
    same outline-owner-over 1 "    4  $none
    5  ML ms
    6    L7
    7    Scheme lambda
    8      Scheme variable 0" ./outline owner-over
    same outline-owner-over-inside 1 "    4  N
    5  $none
    6  $none
    7  $none
    8  L255
    9  $none
   10  $none" ./outline owner-over-inside
    # Refusals 4 to 7 are drawn as any other. Of the deep file, the fix at level n, from 0, is word 5 + n.
    same outline-scope 0 "    4  function
    5    N
    6    N
    7  ML lambda
    8    N
    9    ML ms
   10      N
   11      Scheme variable 0" ./outline scope
    same outline-no-type 0 "    4  N
    5  ML application
    6    ML number 0
    7    ML number 0" ./outline no-type
    same outline-other-type 0 "    4  L
    5  ML number 0" ./outline other-type
    same outline-deep 0 "    4  N
$(level=0; while [ "$level" -lt 256 ]; do printf '%5d  %*sML fix\n' $((5 + level)) $((2 * level)) ''; level=$((level + 1)); done)
  261  $(printf '%512s' '')ML number 0" ./outline deep
    same outline-deepest 0 " 4095  $(printf '%8180s' '')ML number 0" sh -c './outline deepest | tail -n 1'
    same outline-deepest-lines 0 "4092" sh -c './outline deepest | wc -l'
    # Where no whole node starts, and where words remain, the next word is asked about.
    same outline-kind 1 "    4  N
    5  $none" ./outline kind
    same outline-type-out 1 "    4  $none
    5  ML number 0" ./outline type-out
    same outline-term-out 1 "    4  N
    5  $none
    6  ML number 0" ./outline term-out
    same outline-remains 1 "    4  N
    5  ML number 0
    6  ML number 0" ./outline remains
    same outline-type-remains 1 "    4  N
    5  L
    6  ML number 0" ./outline type-remains
    same outline-two-terms 1 "    4  N
    5  ML fix
    6    ML number 0
    7  ML fix
    8    ML number 1" ./outline two-terms
    same outline-damaged 1 "    4  N
    5  $none
    6  ML number 0
    7  $none
    8  ML number 0
    9  $none" ./outline damaged
    same outline-other-sort 1 "    4  N
    5  $none
    6  $none
    7  N
    8  ML number 0
    9  ML number 0" ./outline other-sort
    # A type and a term in each other's place are whole nodes; panel refuses the file.
    same outline-exchanged 0 "    4  ML number 0
    5  N" ./outline exchanged
    wrong_size="its size is wrong: a recipe has 24 to 16,384 bytes, a multiple of 4. Look whether the file was sent whole."
    wrong_header="its header is wrong: it does not tell where the type and the term are. Have the file made or sent anew."
    for name in empty odd long; do
        same "outline-$name" 1 "outline: $name has no outline, because $wrong_size" ./outline "$name"
    done
    same outline-header 1 "outline: header has no outline, because $wrong_header" ./outline header
    same outline-unread 2 "outline: cannot read none: No such file or directory" ./outline none
    same outline-folder 2 "outline: cannot read .: Is a directory" ./outline .
    usage="usage: outline FILE
Draws the nodes of a recipe file, one to a line: the place of its word, counted from 0, and its kind.
Whether the file is accepted is not told: panel checks it."
    same outline-usage 2 "$usage" ./outline
    same outline-two 2 "$usage" ./outline add add

    # What a caller must not lend is found in a debug build, which ends by abort(): status 128 + 6.
    (cd ../.. && ${CC:-cc} $flags -o "$out/lent" panel/lent.c "$archive")
    (cd ../.. && ${CC:-cc} $flags -DNDEBUG -o "$out/lent-released" panel/lent.c "$archive")
    sum="refusal 0, end 0, 2 steps, 1 words left, first 2321"
    wrong="overlap: the answer would be wrong"
    null="is null, which no pointer may be, also where its length is 0"
    for program in lent lent-released; do
        same "$program-apart" 0 "$sum" "./$program" apart
        same "$program-beside" 0 "$sum" "./$program" beside
        same "$program-same-empty" 0 "refusal 8, end 0, 0 steps, 0 words left, first 0" "./$program" same-empty
        same "$program-card-apart" 0 "refusal 0, end 0, 1 steps, 4 words left, first 25" "./$program" card-apart
        same "$program-save-apart" 0 "refusal 0, 40 bytes" "./$program" save-apart
    done
    same lent-same 134 "recipe_run: first and second $wrong" ./lent same
    same lent-partly 134 "recipe_run: first and second $wrong" ./lent partly
    same lent-partly-before 134 "recipe_run: first and second $wrong" ./lent partly-before
    same lent-file 134 "recipe_run: file and second $wrong" ./lent file
    same lent-null 134 "recipe_run: second $null" ./lent null
    same lent-odd 134 "recipe_run: second does not stand where words may: its address is no multiple of 4" ./lent odd
    same lent-endless 134 "recipe_run: first reaches past the end of all addresses: its length is not true" ./lent endless
    same lent-card-first 134 "recipe_card: first and card $wrong" ./lent card-first
    same lent-card-prices 134 "recipe_card: prices and card $wrong" ./lent card-prices
    same lent-price-prices 134 "recipe_price: prices and first $wrong" ./lent price-prices
    same lent-price-null 134 "recipe_price: prices $null" ./lent price-null
    same lent-save-term 134 "recipe_save: term and out $wrong" ./lent save-term
    same lent-check-null 134 "recipe_check: file $null" ./lent check-null
    same lent-node-null 134 "recipe_node: words $null" ./lent node-null
    # Released, nothing is looked at: the same buffer twice comes back as a value of one word, which is 0 and not the sum.
    same lent-released-same 0 "refusal 0, end 0, 2 steps, 1 words left, first 0" ./lent-released same
fi

[ "$failed" -eq 0 ] && echo "panel: all as written"
exit "$failed"
