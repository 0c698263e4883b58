# Reads bredumalt.h, layout.txt and then `objdump -dr --no-show-raw-insn` of the archive, and ends with 1 where an exported call may
# take more stack than the header says. It counts over every path: what a function pushes and takes off the stack pointer, its return
# address, the deepest of the functions that it calls, the red zone, and what the caller lays down for the call by the header's
# prototype. What it can't count (a frame of no fixed size, a call or jump through a pointer, recursion) it does not let pass. memcpy,
# memmove and memset are the firmware's and count for nothing. With -v figures=1 it also prints what it counted.

function fail(what) {
    print "stack: " what
    failed = 1
}

function hex(digits, i, v) {
    for (i = 1; i <= length(digits); i++)
        v = v * 16 + index("0123456789abcdef", substr(digits, i, 1)) - 1
    return v
}

function deepest(name, n, called, i, d, most) {
    if (name ~ /^mem(cpy|move|set)$/)
        return 0
    if (!(name in frame) || busy[name]) {
        fail(name " is called, and is not there or calls itself")
        return 0
    }
    busy[name] = 1
    n = split(calls[name], called, " ")
    for (i = 1; i <= n; i++) {
        d = deepest(called[i])
        if (d > most)
            most = d
    }
    busy[name] = 0
    return frame[name] + most
}

# The size of a C type that goes by value.
function size_of(type) {
    if (type ~ /\*$/ || type ~ /^(size_t|uint(8|16|32|64)_t)$/)
        return 8
    if (!(type in size))
        fail("no size is known for " type)
    return size[type]
}

# What a call lays down beside its return address, by the System V convention: the result, where it is over 16 bytes, each operand over
# 16 bytes, and each of the rest for which none of the six registers is left. All of it keeps the stack aligned at 16.
function by_value(prototype, result, operands, n, i, type, registers, bytes) {
    result = prototype
    sub(/ .*/, "", result)
    registers = 6
    bytes = 0
    if (size_of(result) > 16) {
        bytes += size_of(result)
        registers--
    }
    sub(/^[^(]*\(/, "", prototype)
    sub(/\).*/, "", prototype)
    n = prototype == "void" ? 0 : split(prototype, operands, / *, */)
    for (i = 1; i <= n; i++) {
        type = operands[i]
        sub(/^const /, "", type)
        sub(/[a-z0-9_]+$/, "", type)
        sub(/ $/, "", type)
        if (size_of(type) > 16)
            bytes += size_of(type)
        else if (registers > 0)
            registers--
        else
            bytes += 8
    }
    return int((bytes + 15) / 16) * 16
}

FILENAME ~ /\.h$/ {
    if (match($0, /a call takes at most [0-9]+ bytes/)) {
        promised = substr($0, RSTART, RLENGTH)
        gsub(/[^0-9]/, "", promised)
        promised += 0
    }
    # A prototype may go over lines.
    if ($1 == "BREDUMALT_MUST_USE" && $2 != "static")
        text = ""
    else if (text == "")
        next
    text = text " " $0
    if ($0 ~ /;$/) {
        gsub(/ +/, " ", text)
        sub(/^ BREDUMALT_MUST_USE /, "", text)
        name = text
        sub(/^[^ ]+ /, "", name)
        sub(/\(.*/, "", name)
        prototypes[name] = text
        text = ""
    }
    next
}

# TaskId is bredumalt_task_id, and so on.
FILENAME ~ /layout\.txt$/ {
    if ($1 !~ /\./) {
        type = "bredumalt"
        for (i = 1; i <= length($1); i++) {
            letter = substr($1, i, 1)
            type = type (letter ~ /[A-Z]/ ? "_" tolower(letter) : letter)
        }
        size[type] = $2
    }
    next
}

# The line after a call has to name whom it calls.
calling && $2 != "R_X86_64_PLT32" { fail(here " calls through a pointer") }
{ calling = 0 }

/^[0-9a-f]+ <.*>:$/ {
    here = substr($2, 2, length($2) - 3)
    frame[here] = 8
}
$2 == "R_X86_64_PLT32" {
    sub(/-0x4$/, "", $3)
    sub(/^\.text\./, "", $3)
    calls[here] = calls[here] " " $3
}
$2 ~ /^call/ { calling = 1 }
$2 ~ /^jmp/ && $3 ~ /^\*/ { fail(here " jumps through a pointer") }
$2 ~ /^push/ { frame[here] += 8 }
$3 ~ /,%rsp$/ {
    if ($2 !~ /^(add|sub)$/ || $3 !~ /^\$0x[0-9a-f]+,%rsp$/)
        fail(here " has a frame of no fixed size: " $0)
    else {
        # Sixteen digits are a number below 0. What gives the frame back is not counted.
        digits = substr($3, 4, length($3) - 8)
        below = length(digits) == 16
        if (below == ($2 == "add"))
            frame[here] += below ? 4294967296 - hex(substr(digits, 9)) : hex(digits)
    }
}

END {
    if (!promised)
        fail("the header promises nothing")
    for (name in frame)
        if (name ~ /^bredumalt_/) {
            exported++
            if (!(name in prototypes)) {
                fail(name " is exported, and the header has no prototype")
                continue
            }
            frames = deepest(name)
            passed = by_value(prototypes[name])
            takes = frames + 128 + passed
            if (figures)
                print takes, name, "frames", frames, "by value", passed
            if (takes > promised)
                fail(name " may take " takes " bytes, and " promised " are promised")
        }
    if (!exported)
        fail("no exported call was read")
    exit failed
}
