#!/bin/sh
# Writes rows of source texts, as `sources.rows` has them, that are too long to be written out.
set -eu

# repeated COUNT TEXT: the text so many times, with its turn for each NUMBER.
repeated() {
    awk -v count="$1" -v text="$2" 'BEGIN { for (i = 1; i <= count; i++) { one = text; gsub("NUMBER", i, one); printf "%s", one } }'
}

# row TEXT ANSWER
row() {
    printf '%s\n%s\n' "$1" "$2"
}

# The longest text, and one byte more; what is too long isn't looked at.
spaces=$(printf '%1048560s' '')
row "$spaces" 'x10clock: F9 NoMain at 0'
row "$spaces def main() { }" 'accepted steps 1 activities 1 clocks 0'
row "$spaces  def main() { }" 'accepted steps 1 activities 1 clocks 0'
row "$spaces   def main() { }" 'x10clock: F4 TooLong at 0'
row "$(printf '%1048577s' '')" 'x10clock: F4 TooLong at 0'
row "\\0043 \\0377$spaces                " 'x10clock: F4 TooLong at 0'
row "$spaces               #" 'x10clock: F1 Token at 1048575'

# 256 shared numbers, and one more; of two tables that are too long the one that stands first is told.
row "$(repeated 256 'shared sNUMBER = 0; ')def main() { }" 'accepted steps 1 activities 1 clocks 0'
row "$(repeated 99 'shared sNUMBER = 0; ')$(repeated 158 'shared tNUMBER = 0; ')def main() { }" 'x10clock: F14 Table at 4143'
row "$(repeated 99 'shared sNUMBER = 0; ')$(repeated 158 'shared tNUMBER = 0; ')def main() { $(repeated 65 'val xNUMBER = 0; ')}" \
    'x10clock: F14 Table at 4143'

# 1,024 units, and one more: bodies of `async`, methods, and methods that main doesn't reach.
row "def main() { $(repeated 1023 'async ; ')}" 'accepted steps 2047 activities 1024 clocks 0'
echo 'every: ended steps 2047'
row "def main() { $(repeated 1024 'async ; ')}" 'x10clock: F14 Table at 8197'
row "def main() { for (i in 1..0) { $(repeated 2000 'async ; ')} async ; }" 'accepted steps 3 activities 2 clocks 0'
row "def main() { clocked finish { $(repeated 1023 'clocked async ; ')} }" 'accepted steps 2051 activities 1024 clocks 1'
row "def main() { clocked finish { $(repeated 1024 'clocked async ; ')} }" 'x10clock: F14 Table at 16406'
row "$(repeated 1023 'def mNUMBER() { } ')def main() { $(repeated 1023 'mNUMBER(); ')}" 'accepted steps 2047 activities 1 clocks 0'
echo 'run: ended steps 2047'
row "$(repeated 2000 'def mNUMBER() { } ')def main() { $(repeated 1023 'mNUMBER(); ')}" 'accepted steps 2047 activities 1 clocks 0'
row "$(repeated 1024 'def mNUMBER() { } ')def main() { $(repeated 1024 'mNUMBER(); ')}" 'x10clock: F14 Table at 15265'

# 4,096 instructions, the last of them its `ret`, and one more; also in the body of an `async`.
row "def main() { val x = 1; $(repeated 4094 'Console.OUT.println(x); ')}" 'accepted steps 4096 activities 1 clocks 0'
echo "run: $(repeated 4094 '1,')ended steps 4096"
row "def main() { val x = 1; $(repeated 4095 'Console.OUT.println(x); ')}" 'x10clock: F14 Table at 4'
row "def main() { val x = 1; async { $(repeated 4096 'Console.OUT.println(x); ')} }" 'x10clock: F14 Table at 24'

# 64 slots, parameters and temporaries among them, and one more. A method that main doesn't reach may want more.
row "def main() { $(repeated 63 'val xNUMBER = 0; ') Console.OUT.println(1); }" 'accepted steps 66 activities 1 clocks 0'
row "def main() { $(repeated 63 'val xNUMBER = 0; ') Console.OUT.println(1 + 2); }" 'x10clock: F14 Table at 4'
row "def main() { $(repeated 63 'val xNUMBER = 0; ') Console.OUT.println(x1 + 2); }" 'accepted steps 67 activities 1 clocks 0'
row "def main() { $(repeated 63 'val xNUMBER = 0; ') clocked finish ; }" 'accepted steps 68 activities 1 clocks 1'
row "def main() { $(repeated 64 'val xNUMBER = 0; ') clocked finish ; }" 'x10clock: F14 Table at 4'
row "def main() { $(repeated 65 'clocked finish ; ')}" 'x10clock: F14 Table at 4'
row "def f() { $(repeated 65 'val xNUMBER = 0; ') } def main() { }" 'accepted steps 1 activities 1 clocks 0'
row "def f() { $(repeated 65 'val xNUMBER = 0; ') } def main() { f(); }" 'x10clock: F14 Table at 4'
row "def main() { $(repeated 33 'val xNUMBER = 0; ') async { Console.OUT.println(x1); $(repeated 64 'val yNUMBER = 0; ')} }" \
    'x10clock: F14 Table at 434'

# 64 arguments, and one more: then the method called has too many slots too, and the lesser offset is told.
row "def f($(repeated 63 'aNUMBER: Long, ')a: Long) { } def main() { f($(repeated 63 'NUMBER, ')64); }" 'accepted steps 67 activities 1 clocks 0'
row "def f($(repeated 64 'aNUMBER: Long, ')a: Long) { } def main() { f($(repeated 64 '7, ')64); }" 'x10clock: F14 Table at 4'
row "def main() { val x = 1; f($(repeated 64 'x, ')x); } def f($(repeated 64 'aNUMBER: Long, ')a: Long) { }" 'x10clock: F14 Table at 4'

# A chain of methods, each of which calls the next one, and the last one the first.
awk 'BEGIN { for (i = 1; i < 1000; i++) printf "def m%d() { m%d(); } ", i, i + 1; print "def m1000() { m1(); } def main() { }" }'
echo 'x10clock: F10 Recursive at 11'

# Beyond the sizes at which room is made anew, again and again: 600 units that are compiled and written; 5,000 numbers
# printed.
row "def main() { $(repeated 600 'async ; ')}" 'accepted steps 1201 activities 601 clocks 0'
spawns=$(repeated 600 '["spawn",NUMBER,[]],')
bodies=$(repeated 600 ',{"code":[["ret"]],"kind":"body","params":"","slots":0}')
printf 'compile: {"shared":[],"units":[{"code":[%s["ret"]],"kind":"main","params":"","slots":0}%s],"version":1}\n' "$spawns" "$bodies"
row 'def main() { for (i in 1..5000) Console.OUT.println(i); }' 'accepted steps 10002 activities 1 clocks 0'
echo "every: $(seq -s , 5000),ended steps 10002"

# Finishes one in another, as deep as statements go, and in each turn of a loop; beside each other, one after the other,
# and open at once.
row "def main() { $(repeated 63 'finish ')Console.OUT.println(1); }" 'accepted steps 129 activities 1 clocks 0'
echo 'every: 1,ended steps 129'
row "def main() { $(repeated 500 'finish async ; ')}" 'accepted steps 2001 activities 501 clocks 0'
echo 'every: ended steps 2001'
row 'def main() { for (i in 1..2000) finish async ; }' 'accepted steps 10002 activities 2001 clocks 0'
echo 'every: ended steps 10002'
row 'def main() { for (i in 1..1500) async finish async finish async ; }' 'accepted steps 16502 activities 4501 clocks 0'
echo 'every: ended steps 16502'
