# loops.awk - reads what `objdump -dr --no-show-raw-insn` prints for x86-64. For each innermost loop with three
# multiplications or more it prints a line: how many multiplications of numbers and by vector, conditional jumps, and
# calls or jumps to unknown places it has; its address; its function. In a function with so many multiplications, a jump
# to an unknown place has a line of its own: through a table, or into another section, a loop may go on there.
#
# A loop is a set of instructions each of which is reached from each. The loops inside it are those that are left when
# its entries, the instructions that are reached from outside, may not be entered again. A loop that calls a function
# with such a loop, or comes to one by further calls, is around that one and not innermost. The one inside calls
# nothing, so that no loop is taken for one around itself where functions call each other.

/^[^\t ].*: +file format / {
    finish()
    object++
}

/^Disassembly of section/ {
    finish()
    section = $4
    sub(/:$/, "", section)
}

# A function is known by its object and name; one of another object is not looked for.
/^[0-9a-f]+ <.*>:$/ {
    name = substr($2, 2, length($2) - 3)
    begin = shorter($1)
    function_of[object, name] = object SUBSEP name
}

/^ *[0-9a-f]+:\t/ {
    split($0, part, "\t")
    gsub(/[ :]/, "", part[1])
    sub(/^((bnd|notrack|repz|repnz|rep|lock|data16|addr32|rex[.A-Z]*|[cdefgs]s) +)+/, "", part[2])
    split(part[2], word, / +/)
    n++
    at[part[1]] = n
    address[n] = part[1]
    owner[n] = name
    operation[n] = word[1]
    operand[n] = word[2]
    function_of[object, section, part[1]] = object SUBSEP name
}

# With a relocation, the operand that is printed is not the place. To the start of a function it is a call, or the last
# one of its caller, which may be a loop through the start of its own.
/^\t+[0-9a-f]+: R_/ {
    operand[n] = $3 ~ /-0x4$/ && $3 !~ /cold|unlikely/ ? "start" : ""
    if ($3 == name "-0x4") operand[n] = begin
    relocation[n] = $3
}

END {
    finish()
    find_holders()
    for (i = 1; i <= lines; i++)
        if (!outer(i)) print line[i]
}

function multiplies(i) { return operation[i] ~ /^(i?mul|mulx)[bwlq]?$/ }
function by_vector(i) { return operation[i] ~ /mul|madd|msub/ && !multiplies(i) }
function product(i) { return multiplies(i) || by_vector(i) }
function jumps(i) { return operation[i] ~ /^(j|loop)/ }
function branches(i) { return jumps(i) && operation[i] !~ /^jmp/ }
function unknown(i) { return jumps(i) && operand[i] != "start" && !(operand[i] in at) }
function calls(i) { return operation[i] ~ /^call/ }
function leaves(i) { return calls(i) || unknown(i) }
function goes_on(i) { return operation[i] !~ /^(jmp|ret|ud2|hlt)/ }
function pads(i) { return operation[i] ~ /^(nop|xchg|int3)/ && !(i in before) }

# A number without the zeros in front.
function shorter(number) {
    sub(/^0+/, "", number)
    return number == "" ? "0" : number
}

function edge(i, j) {
    after[i] = after[i] " " j
    before[j] = before[j] " " i
}

# Collects in found[] what is reached from i inside, by edges that enter no entry: along them, or back.
function walk(i, edges, back, inside, entry, found,    todo, many, list, k) {
    split("", found)
    todo[many = 1] = i
    while (many > 0) {
        i = todo[many--]
        if (back && i in entry) continue
        for (k = split(edges[i], list); k > 0; k--)
            if (list[k] in inside && !(list[k] in found) && (back || !(list[k] in entry))) {
                found[list[k]]
                todo[++many] = list[k]
            }
    }
}

# Keeps the innermost loops inside, where no entry may be entered; 0 if there are none.
function inner(inside, entry,    i, j, ahead, behind, loop, seen, products, any) {
    for (i in inside)
        if (product(i) && !(i in seen)) {
            walk(i, after, 0, inside, entry, ahead)
            walk(i, before, 1, inside, entry, behind)
            split("", loop)
            products = 0
            for (j in ahead)
                if (j in behind) {
                    loop[j]
                    seen[j]
                    products += product(j)
                }
            if (products >= 3) {
                any = 1
                keep(loop)
            }
        }
    return any
}

function keep(loop,    entry, first, list, i, k, entered, p, v, b, l, called) {
    for (i in loop) {
        if (first == "" || i + 0 < first) first = i + 0
        for (k = split(before[i], list); k > 0; k--)
            if (!(list[k] in loop)) {
                entry[i]
                entered = 1
            }
    }
    if (!entered) entry[first]
    if (inner(loop, entry)) return
    for (i in loop) {
        p += multiplies(i)
        v += by_vector(i)
        b += branches(i)
        l += leaves(i)
        if (calls(i)) called = called " " callee(i)
    }
    keep_line(first, p, v, b, l, called)
    if (l == 0) holds[object SUBSEP owner[first]]
}

function keep_line(i, p, v, b, l, called) {
    line[++lines] = p + 0 " " v + 0 " " b + 0 " " l + 0 " " address[i] " " owner[i]
    called_in[lines] = called
}

# The number of a place that is called, whose function is found when all are read.
function callee(i) {
    places++
    place_object[places] = object
    place[places] = i in relocation ? relocation[i] : ""
    if (!(i in relocation) && operand[i] in at) known[places] = object SUBSEP owner[at[operand[i]]]
    return places
}

# A relocation names a function or a section, and how far behind it the place is, less 4.
function called_function(p,    object, base, far) {
    if (p in known) return known[p]
    object = place_object[p]
    base = place[p]
    if (match(base, /[-+]0x[0-9a-f]+$/)) {
        far = substr(base, RSTART)
        base = substr(base, 1, RSTART - 1)
    }
    far = far == "-0x4" ? "0" : hexadecimal(number_of(far) + 4)
    if (far == "0" && (object, base) in function_of) return function_of[object, base]
    return (object, base, far) in function_of ? function_of[object, base, far] : ""
}

function number_of(far,    i, number) {
    for (i = 4; i <= length(far); i++) number = number * 16 + index("0123456789abcdef", substr(far, i, 1)) - 1
    return far ~ /^-/ ? -number : number + 0
}

function hexadecimal(number,    text) {
    for (; number > 0; number = int(number / 16)) text = substr("0123456789abcdef", number % 16 + 1, 1) text
    return text == "" ? "0" : text
}

# Whether one of these places is in a function that holds such a loop.
function comes_to_holder(list,    part, k) {
    for (k = split(list, part); k > 0; k--) if (called_function(part[k]) in holds) return 1
    return 0
}

# A function that calls a holder holds a loop too.
function find_holders(    more, caller) {
    do {
        more = 0
        for (caller in called_by)
            if (!(caller in holds) && comes_to_holder(called_by[caller])) {
                holds[caller]
                more = 1
            }
    } while (more)
}

function outer(i) { return comes_to_holder(called_in[i]) }

# The instructions of one section are all read.
function finish(    i, all, none, products, caller) {
    for (i = 1; i <= n; i++) {
        all[i]
        if (jumps(i) && operand[i] in at) edge(i, at[operand[i]])
        products[owner[i]] += product(i)
        caller = object SUBSEP owner[i]
        if (calls(i) || jumps(i)) called_by[caller] = called_by[caller] " " callee(i)
    }
    for (i = 1; i <= n; i++) {
        if (goes_on(i) && i < n && !pads(i)) edge(i, i + 1)
        if (unknown(i) && products[owner[i]] >= 3) keep_line(i, products[owner[i]], 0, branches(i), 1)
    }
    split("", none)
    inner(all, none)
    n = 0
    split("", at)
    split("", before)
    split("", after)
    split("", relocation)
}
