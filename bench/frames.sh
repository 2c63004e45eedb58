#!/bin/sh
# Prints the stack frame of each function of the static library, as its machine code for x86-64 makes it:
# the return address, the registers it saves and the room it takes. Run bench/run.sh first, which builds the library.
set -eu
cd "$(dirname "$0")/.."
objdump -d --no-show-raw-insn crates/exports/out/libexports.a | awk '
function hex(text,    n, i) {
    n = 0
    for (i = 1; i <= length(text); i++) n = 16 * n + index("0123456789abcdef", substr(text, i, 1)) - 1
    return n
}
function tell() { if (name != "") printf "%6d %s\n", 8 + 8 * saved + room, name }
/^[0-9a-f]+ <.*>:$/ { tell(); name = $0; sub(/^[0-9a-f]+ </, "", name); sub(/>:$/, "", name); saved = 0; room = 0 }
$2 == "push" { saved++ }
$2 == "sub" && $3 ~ /^\$0x[0-9a-f]+,%rsp$/ && room == 0 { split($3, part, /[x,]/); room = hex(part[2]) }
END { tell() }
' | sort -rn
