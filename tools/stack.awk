# Reads what `objdump -dr --no-show-raw-insn` prints of a static library, and prints for each exported function how many bytes of stack it may take: its
# return address, its frame, and the most that a callee takes. `tools/sizes` reads that.
# The depth of the stack is followed instruction by instruction: push, pop, add and sub change it, a jump carries it to its target, and wherever two ways
# meet it must be the same. At a ret it must be 0. Where code is reached only by a table of jumps, the depth is that of the code before it.
# What cannot be followed is refused: recursion, a call of an address, a frame of no fixed size.

function fail(why) { print "tools/sizes: " name ": " why; broken = 1; exit 1 }

function hex(s,    i, v) {
    sub(/^\$?0x/, "", s)
    sub(/,.*/, "", s)
    for (i = 1; i <= length(s); i++) v = v * 16 + index("0123456789abcdef", substr(s, i, 1)) - 1
    return v
}

function deepen(n) { depth += n; if (depth > frame[name]) frame[name] = depth }

# meet(PLACE, D): the depth at a place of this function is D.
function meet(place, d) {
    if ((name, place) in at && at[name, place] != d) fail("two depths at " place)
    at[name, place] = d
}

# settle: no relocation came, so the last jump was no call, and its target is in this function.
function settle() {
    if (calling) fail("a call without a name")
    if (jump != "") meet(jump, jump_depth)
    jump = ""
}

function takes(f,    i, t, most) {
    if (!(f in frame)) return 0
    if (f in known) return known[f]
    if (f in open) { name = f; fail("it calls itself") }
    open[f] = 1
    for (i = 1; i <= count[f]; i++) { t = 8 + takes(calls[f, i]); if (t > most) most = t }
    if (red[f] > most) most = red[f]
    delete open[f]
    return known[f] = frame[f] + most
}

/^[0-9a-f]+ <.*>:$/ {
    settle()
    name = $0; sub(/^[^<]*</, "", name); sub(/>:$/, "", name)
    depth = body = 0; frame[name] += 0; lost = ending = 0
    next
}

# a relocation says whom the call or jump before it is for
$2 ~ /^R_X86_64_/ {
    if (calling || jump != "") {
        to = $3; sub(/[-+]0x[0-9a-f]+$/, "", to); sub(/^\.text\./, "", to)
        calls[name, ++count[name]] = to
    }
    jump = ""; calling = 0
    next
}

/^ *[0-9a-f]+:/ {
    settle()
    place = $1; sub(/:$/, "", place)
    if (lost) depth = (name, place) in at ? at[name, place] : body
    meet(place, depth)
    ends = $2 == "pop" || $2 == "add" && $3 ~ /,%rsp$/
    if (ends && !ending) body = depth
    ending = ends
    if ($2 == "push") deepen(8)
    else if ($2 == "pop") depth -= 8
    else if ($2 ~ /^(add|sub)$/ && $3 ~ /,%rsp$/) {
        if ($3 !~ /^\$0x[0-9a-f]+,/) fail("a frame of no fixed size")
        deepen($2 == "sub" ? hex($3) : -hex($3))
    }
    else if ($3 ~ /,%rsp$/ && $2 !~ /^(cmp|test)/) fail("a stack pointer that is set")
    else if ($2 == "enter" || $2 == "leave") fail("enter or leave")
    else if ($2 == "ret" && depth != 0) fail("a frame that is not gone at a ret")
    calling = $2 == "call"
    if (calling && $3 ~ /^\*/) fail("a call of an address")
    if ($2 ~ /^j/ && $3 !~ /^\*/) { jump = $3; jump_depth = depth }
    lost = $2 == "ret" || $2 == "jmp"
    if ($2 == "jmp") body = depth
    # what is kept below the stack pointer
    if (match($0, /-0x[0-9a-f]+\(%rsp/)) { r = hex(substr($0, RSTART + 1, RLENGTH - 6)); if (r > red[name]) red[name] = r }
}

END {
    if (!broken) for (f in frame) if (f ~ /^tasgilfrem_/) print f, 8 + takes(f)
    exit broken
}
