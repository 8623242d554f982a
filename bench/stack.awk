# The deepest stack of each function wanted: first the frames (function, bytes, kind), then the same code in assembly.
# word: what a call itself pushes. again, times: the one function that may call itself, and how many of its frames are there at most.
# A function of the C library counts as its call alone.
function fail(why) {
    print "bench/run sizes: " why >"/dev/stderr"
    failed = 1
    exit 1
}

function depth(f,    i, d, most, own) {
    if (!(f in frame)) return word
    if (busy[f]++) fail(f " calls itself by way of others")
    own = frame[f] + word
    most = beyond[f] + 0
    for (i = 1; i <= calls[f]; i++) {
        if (callee[f, i] == f) continue
        d = pushed[f, i] + depth(callee[f, i])
        if (d > most) most = d
    }
    if (f in itself && f != again) fail(f " calls itself")
    if (f in itself) own += (times - 1) * (own + itself[f])
    busy[f] = 0
    return own + most
}

BEGIN { FS = "\t" }

FNR == NR {
    sub(/^.*\.ll:/, "", $1)
    if ($3 != "static") fail($1 " has no fixed frame")
    frame[$1] = $2
    next
}

/^"?[A-Za-z_][A-Za-z_0-9:]*"?:/ {
    now = $0
    sub(/:[^A-Za-z_:].*$|:$/, "", now)
    gsub(/"/, "", now)
    at = word
}

# Where the table for unwinding is there, it says how deep the stack is at each instruction.
$2 ~ /^\.cfi_(def_cfa_offset|adjust_cfa_offset) / {
    split($2, words, " ")
    at = words[1] ~ /adjust/ ? at + words[2] : words[2]
}

$2 ~ /^\.cfi_(remember|restore)_state/ { fail(now " keeps a state of its stack, which is not followed here") }

# A function that calls none may write below its stack, where x86-64 leaves 128 bytes alone; no frame counts that.
match($0, /-[0-9]+\(%rsp/) {
    below = substr($0, RSTART + 1, RLENGTH - 6) + 0
    if (below > beyond[now] + 0) beyond[now] = below
}

# A register, or a place in memory, in place of a name.
$2 ~ /^(blx?|blr|jalr?|call[lq]?)$/ && $3 ~ /^(\*|%|r[0-9]|x[0-9]|[ast][0-9])/ { fail(now " calls a function that is not named") }

# A jump to another function leaves no frame behind; it counts as a call, which is no less.
$2 ~ /^(blx?|b|b\.w|call[lq]?|jmp|jal|j|tail)$/ {
    to = $3
    sub(/@PLT.*/, "", to)
    sub(/ .*/, "", to)
    gsub(/"/, "", to)
    # An i686 calls the next instruction to learn where it is.
    if (to ~ /^\./ && $2 ~ /^call/ && word > beyond[now] + 0) beyond[now] = word
    if (to ~ /^\./) next
    over = word && at > frame[now] + word ? at - frame[now] - word : 0
    if (to == now && over >= itself[now] + 0) itself[now] = over
    callee[now, ++calls[now]] = to
    pushed[now, calls[now]] = over
}

END {
    if (failed) exit 1
    count = split(wanted, name, " ")
    for (i = 1; i <= count; i++) {
        if (!(("harpginger_" name[i]) in frame)) fail("there is no harpginger_" name[i])
        printf "%s%d", (i > 1 ? "\t" : ""), depth("harpginger_" name[i])
    }
    printf "\t%d", (again in itself ? times : 1)
}
