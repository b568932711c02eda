#!/bin/sh
# Writes rows, as the files beside it have them, of modules that are too many or too long to be written out.
set -eu

sum='{"version":1,"shared":[],"units":[{"kind":"main","params":"","slots":3,"code":[["lit",0,2],["lit",1,3],["add",0,0,1],["make",2],["advance"],["print",0],["ret"]]}]}'

# beginnings TEXT: the text without its last byte, without its last two and so on, none of which is JSON.
beginnings() {
    text=${1%?}
    while [ -n "$text" ]; do
        printf '%s\nx10clock: M1 NotJson\n' "$text"
        text=${text%?}
    done
}

# repeated COUNT TEXT: the text so many times, with commas between.
repeated() {
    awk -v count="$1" -v text="$2" 'BEGIN { for (i = 1; i <= count; i++) printf "%s%s", (i > 1 ? "," : ""), text }'
}

# alone SHARED CODE: the text of a module of these shared numbers and main with this code and one slot.
alone() {
    printf '{"version":1,"shared":[%s],"units":[{"kind":"main","params":"","slots":1,"code":[%s]}]}\n' "$1" "$2"
}

# units COUNT KIND SLOTS CODE LAST: the text of a module of so many units of so many slots: main and others of this
# kind. The last has the code LAST, and each other has CODE, in which NEXT stands for the number of the unit behind it.
units() {
    awk -v count="$1" -v kind="$2" -v slots="$3" -v code="$4" -v last="$5" 'BEGIN {
        printf "{\"version\":1,\"shared\":[],\"units\":["
        for (i = 0; i < count; i++) {
            text = i + 1 < count ? code : last
            gsub("NEXT", i + 1, text)
            printf "%s{\"kind\":\"%s\",\"params\":\"\",\"slots\":%d,\"code\":[%s]}", (i ? "," : ""), (i ? kind : "main"), slots, text
        }
        print "]}"
    }'
}

beginnings "$sum"

# 1,024 units are read, 256 shared numbers and 4,096 instructions, and one more isn't.
units 1024 main 0 '' ''
echo 'x10clock: V4 Unit unit 1 at 0'
units 1025 main 0 '' ''
echo 'x10clock: M3 Limit'
alone "$(repeated 256 0)" '["ret"]'
echo 'accepted steps 1 activities 1 clocks 0'
alone "$(repeated 257 0)" '["ret"]'
echo 'x10clock: M3 Limit'
alone '' "$(repeated 4095 '["lit",0,0]'),[\"ret\"]"
echo 'accepted steps 4096 activities 1 clocks 0'
alone '' "$(repeated 4096 '["lit",0,0]'),[\"ret\"]"
echo 'x10clock: M3 Limit'

# Each unit but the last starts the next one twice.
twice='["spawn",NEXT,[]],["spawn",NEXT,[]],["ret"]'
units 16 body 0 "$twice" '["ret"]'
echo 'accepted steps 131069 activities 65535 clocks 0'
units 17 body 0 "$twice" '["ret"]'
echo 'x10clock: V15 Activities over 100000'
units 1024 body 0 "$twice" '["ret"]'
echo 'x10clock: V14 Steps over 1000000000'

# Each unit but the last calls the next one: the slots of all frames of an activity are at most 4,096.
units 64 method 64 '["call",NEXT,[]],["ret"]' '["ret"]'
echo 'accepted steps 127 activities 1 clocks 0'
echo 'run: ended steps 127'
units 65 method 64 '["call",NEXT,[]],["ret"]' '["ret"]'
echo 'x10clock: V17 Stack over 4096'

# A text of five megabytes, of a hundred units of the longest code.
units 100 body 1 "$(repeated 4095 '["lit",0,7]'),[\"ret\"]" "$(repeated 4095 '["lit",0,7]'),[\"ret\"]"
echo 'accepted steps 4096 activities 1 clocks 0'
echo 'run: ended steps 4096'

# 1,024 units of 64 slots, each of which writes and reads them, and starts the next one.
numbers=$(awk 'BEGIN { for (k = 0; k < 64; k++) printf "[\"lit\",%d,%d],", k, k; for (k = 1; k < 64; k++) printf "[\"add\",0,0,%d],", k }')
units 1024 body 64 "$numbers[\"spawn\",NEXT,[]],[\"ret\"]" "$numbers[\"print\",0],[\"ret\"]"
echo 'accepted steps 132096 activities 1024 clocks 0'
echo 'run: 2016,ended steps 132096'
echo 'last: 2016,ended steps 132096'
echo 'round: 2016,ended steps 132096'

# 1,500 finishes one in another, of main, which starts one activity in the innermost; and a thousand activities, each of
# which starts the next one in a finish.
starts=$(awk 'BEGIN { for (k = 0; k < 1500; k++) printf "[\"finish\",%d],", 3000 - k }')
ends=$(awk 'BEGIN { for (k = 1499; k >= 0; k--) printf "[\"endfinish\",%d],", k }')
units 2 body 0 "$starts[\"spawn\",NEXT,[]],$ends[\"ret\"]" '["ret"]'
echo 'accepted steps 3003 activities 2 clocks 0'
echo 'every: ended steps 3003'
units 1000 body 0 '["finish",2],["spawn",NEXT,[]],["endfinish",0],["ret"]' '["ret"]'
echo 'accepted steps 3997 activities 1000 clocks 0'
echo 'every: ended steps 3997'

# A refusal whose walk has 403 places.
units 1 main 2 '' "[\"finish\",402],[\"make\",0],$(repeated 400 '["lit",1,7]'),[\"endfinish\",0],[\"ret\"]"
echo "x10clock: V12 Held unit 0 at 402 slot 0 live walk $(seq -s ' ' 0 402)"
