# sources.awk - what sources.sh asks of the sources, all of which it reads. A function is named by its crate and module,
# as crate::module::function, and one of an impl by its type as well, as crate::module::Type::function; which functions
# it calls, or hands on to be called, is read from its body. Prints the number of checks, or the first that fails on
# standard error.

FNR == 1 { module = module_of(FILENAME) }

{
    gsub(/"[^"]*"/, "\"\"")
    sub(/\/\/.*/, "")
}

/(^|[^A-Za-z0-9_])use / && !/^ghost use / { read_use($0) }

FNR == 1 { type = of_trait = "" }
/^(pub )?struct .*\{$/ { type = type_of($0) }
/^impl/ { read_impl($0) }

# A value of such a type is called by a name that says nothing of the function.
/(^|[^A-Za-z0-9_])(fn ?\(|dyn )/ { fail(FILENAME ":" FNR ": the type of a function") }

# A constant is made in no function, and could have any count.
module ~ /^montgomery::counted/ && /(^| )(const|static) / { fail(FILENAME ":" FNR ": a constant beside the count") }

/(^|[^A-Za-z0-9_])fn [A-Za-z_]/ {
    if ($0 !~ ("^" margin() "(pub )?(extern \"\" )?fn ")) fail(FILENAME ":" FNR ": a function that does not start its line")
    name = $0
    sub(/^.*fn /, "", name)
    sub(/[<(].*/, "", name)
    if (type != "") methods["." name] = methods["." name] " " module "::" type "::" name
    name = module "::" (type == "" ? "" : type "::") name
    signature[name] = $0
    if (name in known) fail(name ": written twice")
    known[name]
    if (of_trait) implied = implied " " name
    if (/\{.*\}/) fail(name ": a body in the line of its name")
    inside = /\{ *$/
    next
}

# A head may take several lines.
!inside && is_open(signature[name]) { signature[name] = signature[name] $0 }

/^\}/ { type = of_trait = "" }
$0 ~ ("^" margin() "\\}") || /^\}/ { inside = 0 }
!inside && module == "montgomery::counted" && type == "Counted" && /squarings: / { count_is = $0 }
!inside && module == "overlap" && type == "Laid" && /^    pub digits: / { digits_are = $0 }
inside { body[name] = body[name] " " of_type($0) }
$0 ~ ("^" margin() "\\{") { inside = 1 }

END {
    if (failed) exit 1
    for (name in body) body[name] = joined(name, body[name])
    compare_loop("montgomery::power", "top(e)")
    compare_loop("lanes::powers", "montgomery::top(e[0])")
    compare_lanes("lanes::turns")
    compare_turn("montgomery::turn")
    compare_counted("montgomery::counted::double")
    compare_doubling("montgomery::double")
    compare_count("montgomery::counted")
    compare_recursion("series::halves::by_halves")
    compare_quote("engine::quotes::bbp_quote")
    compare_work("engine::work::bbp_work")
    compare_work("engine::work::bbp_work_lower")
    compare_work("engine::work::bbp_work_upper")
    compare_work("engine::work::bbp_check_work")
    compare_work("engine::work::bbp_check_work_lower")
    compare_work("engine::work::bbp_check_work_upper")
    compare_returned("overlap::part")
    compare_place("engine::overlaps::bbp_overlap_part", "overlap::part")
    print checks
}

function fail(text) {
    print "sources: " text > "/dev/stderr"
    failed = 1
    exit 1
}

function check(holds, text) {
    checks++
    if (!holds) fail(text)
}

# crates/C/src/lib.rt is C, and crates/C/src/m.rt is C::m.
function module_of(file,    path, i, below) {
    sub(/\.rt$/, "", file)
    for (i = split(file, path, "/"); path[i] != "src"; i--)
        if (path[i] != "lib" && path[i] != "main") below = "::" path[i] below
    return path[i - 1] below
}

# The module of a function, also of one of an impl.
function module_in(name) {
    sub(/(::[A-Z][A-Za-z0-9]*)?::[^:]*$/, "", name)
    return name
}

# What stands before a function: an impl's are set in.
function margin() {
    return type == "" ? "" : "    "
}

# The type of an impl or a struct, without its parameters.
function type_of(line) {
    while (gsub(/<[^<>]*>/, "", line)) continue
    sub(/ *\{ *\}? *$/, "", line)
    sub(/.*[ :]/, "", line)
    return line
}

# A line of an impl, where Self is its type.
function of_type(line) {
    if (type != "") gsub(/Self/, type, line)
    return line
}

# The impl of a type alone. What a trait's impl has is called without a name, by an operator, a conversion or `?`, so the
# functions of the one that there is count as called everywhere. What a derive writes is the kit's.
function read_impl(text,    lives) {
    type = type_of(text)
    lives = "(<'[a-z](, '[a-z])*>)?"
    of_trait = text == "impl From<u64> for Wide {"
    if (!of_trait && text !~ ("^impl" lives " [A-Z][A-Za-z0-9]*" lives " \\{$"))
        fail(FILENAME ":" FNR ": not the impl of a type alone")
}

# Whether the parentheses of a function's head are not closed yet.
function is_open(text) {
    return gsub(/\(/, "(", text) > gsub(/\)/, ")", text)
}

function crate_of(name) {
    sub(/::.*/, "", name)
    return name
}

# The last name of the path stands for it in this module, and so does each name between braces at its end.
function read_use(text,    above, last, list, k) {
    if (!sub(/^(pub )?use /, "", text) || !sub(/;$/, "", text) || \
        text !~ /^[A-Za-z0-9_:]+(::\{[A-Za-z0-9_]+(, [A-Za-z0-9_]+)*\})?$/) fail(FILENAME ":" FNR ": not the use of names")
    sub(/^crate::/, crate_of(module) "::", text)
    if (!match(text, /\{.*\}/)) {
        last = text
        sub(/.*::/, "", last)
        stands_for[module, last] = text
        return
    }
    above = substr(text, 1, RSTART - 1)
    for (k = split(substr(text, RSTART + 1, RLENGTH - 2), list, ", "); k > 0; k--) stands_for[module, list[k]] = above list[k]
}

# A body in one line. Where its braces do not match, it was not read up to its end.
function joined(name, text) {
    if (gsub(/\{/, "{", text) != gsub(/\}/, "}", text)) fail(name ": braces that do not match")
    gsub(/[ \t]+/, " ", text)
    gsub(/ *:: */, "::", text)
    gsub(/\( /, "(", text)
    gsub(/,? \)/, ")", text)
    gsub(/^ | $/, "", text)
    return text
}

# The functions that a text of the function calls or hands on, each behind a blank. A method has a point in front; one that
# no type here has, or a macro, with a mark behind, has no source here.
function called(text, name,    list, word, calls) {
    gsub(/::<[^<>]*>/, "", text)
    gsub(/\.\.=?/, " ", text)
    while (match(text, /(\.|::)?[A-Za-z_]([A-Za-z0-9_]|::)*!?/)) {
        word = substr(text, RSTART, RLENGTH)
        text = substr(text, RSTART + RLENGTH)
        calls = sub(/::$/, "", word) || word ~ /!$/ || text ~ /^ ?\(/
        if (calls ? is_other(word) : !hands_on(word, text, name)) continue
        list = list " " (word ~ /^\.|!$/ ? word : full(word, module_in(name)))
    }
    return list
}

# What stands before a parenthesis and calls nothing. A capital letter is a struct's or a variant's.
function is_other(word) {
    return word ~ /^(as|else|if|in|let|match|mut|return|while)$/ || word ~ /(^|::)[A-Z][A-Za-z0-9]*$/
}

# Whether a word that calls nothing hands on a function: it is the path of one, or its name. Fields are set apart, and the
# function's own parameters; another variable of a function's name counts as that function.
function hands_on(word, rest, name) {
    if (word ~ /^\./ || rest ~ /^ ?:/) return 0
    if (word ~ /::[a-z_][A-Za-z0-9_]*$/) return 1
    return full(word, module_in(name)) in known && signature[name] !~ ("[( ]" word ": ")
}

# A path in the module, from its crate on.
function full(path, module,    head, rest) {
    head = crate_of(path)
    rest = substr(path, length(head) + 1)
    if (head == "crate") return crate_of(module) rest
    if ((module, head) in stands_for) return stands_for[module, head] rest
    if (rest == "" || (module "::" path) in known) return module "::" path
    return path
}

# Collects in seen[] the functions of the list, those that they call or hand on, and so on. Which type a method is called
# at is not read, so that the methods of that name are all collected.
function reach(list, seen,    todo, many, part, k, name) {
    split("", seen)
    many = split(list, todo, " ")
    while (many > 0) {
        name = todo[many--]
        if (name in seen) continue
        seen[name]
        if (name in known)
            for (k = split(called(body[name], name), part, " "); k > 0; k--) todo[++many] = part[k]
        if (name in methods) for (k = split(methods[name], part, " "); k > 0; k--) todo[++many] = part[k]
    }
}

# The branches of a text, each behind a blank.
function branches(text,    list, found) {
    while (match(text, /(^|[^A-Za-z0-9_])(if|else|match|while|for|loop)([^A-Za-z0-9_]|$)|&&|\|\||\?/)) {
        found = substr(text, RSTART, RLENGTH)
        gsub(/[^a-z&|?]/, "", found)
        list = list " " found
        text = substr(text, RSTART + RLENGTH - (found ~ /[a-z]/))
    }
    return list
}

# What stands between the braces behind the head of a loop.
function block(text, head,    start, end, depth, letter) {
    start = index(text, head " {") + length(head) + 2
    depth = 1
    for (end = start; depth > 0 && end <= length(text); end++) {
        letter = substr(text, end, 1)
        depth += (letter == "{") - (letter == "}")
    }
    return substr(text, start, end - 1 - start)
}

# In how many places a variable is made, changed or lent to be changed.
function changes(text, variable) {
    return gsub("(^|[^A-Za-z0-9_.])" variable "( *: *[A-Za-z0-9_]+)? *([-+*/%&|^]|<<|>>)?=[^=]", "", text) + \
        gsub("&mut " variable "([^A-Za-z0-9_]|$)", "", text)
}

# Whether a text's one branch is the loop of that head, and nothing in it gives the counter another value.
function counts(text, counter, head) {
    return branches(text) == " for" && index(text, head " {") && changes(block(text, head), counter) == 0
}

# The same of a loop up to a number that is written there.
function counts_up(text,    word) {
    if (!match(text, /for [a-z]+ in 0\.\.[0-9]+ \{/)) return 0
    split(substr(text, RSTART), word, " ")
    return counts(text, word[2], substr(text, RSTART, RLENGTH - 2))
}

# The loop of a power counts down the bits below the top one. Neither it nor what it comes to has a branch more, but
# loops over lanes.
function compare_loop(name, top,    text, head, seen, callee, wanted, k) {
    check(name in known, name ": no source")
    text = body[name]
    head = "for i in (0.." top ").rev()"
    check(branches(text) == " for", name ": the branches" branches(text) ", not one for")
    check(counts(text, "i", head), name ": the loop does not count i down to 0")
    reach(called(block(text, head), name) implied, seen)
    for (callee in seen) {
        check(callee in known, callee ": called in the loop of " name ", and has no source")
        check(branches(body[callee]) == "" || crate_of(callee) == "lanes" && counts_up(body[callee]), \
            callee ": called in the loop of " name ", and has the branches" branches(body[callee]))
    }
    split("montgomery::turn montgomery::counted::square montgomery::counted::double montgomery::square " \
        "montgomery::double montgomery::smaller" (name == "lanes::powers" ? " lanes::turns" : ""), wanted, " ")
    for (k in wanted) check(wanted[k] in seen, wanted[k] ": not called in the loop of " name)
}

# No remainder, quotient, product or table has the bit in it.
function compare_plain(name, text) {
    check(!match(text, /[%\/[*]/), name ": has a " substr(text, RSTART, 1))
}

# Tables are by the lane alone.
function compare_lanes(name,    text) {
    text = body[name]
    gsub(/\[j\]/, "", text)
    compare_plain(name, text)
}

# What a statement calls the expression, or nothing.
function name_of(statement, expression) {
    if (!match(statement, /^let [a-z0-9_]+ = /) || substr(statement, RLENGTH + 1) != expression) return ""
    return substr(statement, 5, RLENGTH - 7)
}

# The bit of the exponent by shift and mask, for the doubling of the square.
function compare_turn(name,    part, many, bit) {
    compare_plain(name, body[name])
    many = split(body[name], part, /; /)
    bit = name_of(part[1], "(e >> i) & 1")
    check(bit != "", name ": the bit is not (e >> i) & 1: " part[1])
    check(many == 2 && part[2] == "crate::counted::double(crate::counted::square(x, m), " bit ", m.n)", \
        name ": not the square doubled by the bit: " part[2])
}

function compare_counted(name) {
    compare_plain(name, body[name])
    check(index(body[name], "residue: crate::double(x.residue, bit, n)"), name ": not the residue doubled by the bit")
}

# Shifted by the bit, N subtracted with wrapping, and the smaller of the two.
function compare_doubling(name,    part, many, shifted, less) {
    compare_plain(name, body[name])
    many = split(body[name], part, /; /)
    shifted = name_of(part[1], "x.0 << bit")
    check(shifted != "", name ": not shifted by the bit: " part[1])
    less = name_of(part[2], "words::wrapping_sub(" shifted ", n)")
    check(less != "", name ": not N subtracted with wrapping: " part[2])
    check(many == 3 && part[3] == "MontgomeryResidue(smaller(" shifted ", " less "))", \
        name ": not the smaller of the two: " part[3])
    check(called(body[name], name) == " words::wrapping_sub montgomery::smaller", name ": calls" called(body[name], name))
}

# A residue with its count is made where it starts, is squared or doubled, and nowhere else; the square counts one. That
# the count is private is what the compiler holds the other modules to. In its own one could be made or changed by another
# name of the type, so that no other function there has a brace, an equals sign or a `&mut`.
function compare_count(module,    name) {
    check(count_is ~ /^ *squarings: u64,$/, module "::Counted: the count is not private")
    for (name in body) {
        if (name ~ ("^" module "::(start|square|double)$")) continue
        check(body[name] !~ /(^|[^A-Za-z0-9_])Counted \{/, name ": makes a residue with a count")
        check(index(name, module "::") != 1 || body[name] !~ /[{=]|&mut /, name ": could make a residue with a count")
    }
    compare_made(module "::start", "crate::start(n)", "0")
    compare_made(module "::square", "crate::square(x.residue, m)", "x.squarings + 1")
    compare_made(module "::double", "crate::double(x.residue, bit, n)", "x.squarings")
}

function compare_made(name, residue, count) {
    check(body[name] == "Counted { residue: " residue ", squarings: " count ", }", \
        name ": not " residue " with the count " count)
}

# Cut at half of the count, and both parts by the function itself where they have two terms or more.
function compare_recursion(name,    text, itself) {
    check(name in known, name ": no source")
    text = body[name]
    compare_cut(name, text, "half", "count / 2")
    compare_cut(name, text, "rest", "count - half")
    compare_cut(name, text, "cut", "first + half")
    check(changes(text, "count") + changes(text, "first") == 0, name ": changes its range")
    compare_part(name, text, "first", "half")
    compare_part(name, text, "cut", "rest")
    itself = gsub(/(^|[^A-Za-z0-9_:])by_halves\(/, "(", text)
    check(itself == 2, name ": calls itself " itself " times, not twice")
    check(branches(text) == " if else if else", name ": the branches" branches(text) ", not two of if and else")
}

function compare_cut(name, text, variable, expression) {
    check(index("; " text, "; let " variable " = " expression ";") && changes(text, variable) == 1, \
        name ": " variable " is not " expression)
}

function compare_part(name, text, first, count,    arguments) {
    arguments = "\\(([^()]*, )?" first ", " count "(, [^()]*)?\\)"
    check(text ~ ("= if " count " < 2 \\{ one_or_none" arguments " \\} else \\{ by_halves" arguments " \\};"), \
        name ": the part of " count " terms from " first " is not by itself")
}

function is_quote(name) {
    return name == "ticket::quote" || name == "ticket::squarings" || module_in(name) == "series::squarings"
}

# The functions that quote are the ones that the call comes to.
function compare_quote(name,    seen, callee, many) {
    reach(name, seen)
    check("ticket::quote" in seen && "ticket::squarings" in seen, name ": does not come to the ticket's quote")
    for (callee in seen) many += module_in(callee) == "series::squarings"
    check(many > 0, name ": does not come to series::squarings")
}

# What working calls of the kit, all by name: methods, with a point in front, and functions. Where a type here has a method
# of such a name, that is collected as well, and a closure is read where it is written.
function of_kit(callee,    names) {
    names = " .ilog2 .iter_mut .len .rev .wrapping_add .wrapping_neg .wrapping_sub i64::from std::array::from_fn "
    return index(names, " " callee " ")
}

# Working comes to both powers, and to no quote: a count is made and not looked up.
function compare_work(name,    seen, callee) {
    reach(name implied, seen)
    for (callee in seen) check(!is_quote(callee), name ": comes to the quote " callee)
    for (callee in seen)
        check(callee in known || callee in methods || of_kit(callee), name ": comes to " callee ", which has no source")
    check("montgomery::power" in seen, name ": does not come to montgomery::power")
    check("lanes::powers" in seen, name ": does not come to lanes::powers")
    check("series::halves::by_halves" in seen, name ": does not come to series::halves::by_halves")
}

# A part of one of two lent slices is returned, and nothing that is copied.
function compare_returned(name) {
    check(name in known, name ": no source")
    check(signature[name] ~ /\(first: &Laid<'a>, second: &Laid<'a>\) -> &'a \[u8\]$/, \
        name ": does not return a part of the slices first and second")
    check(digits_are ~ /: &'a \[u8\],$/, name ": the digits are not lent")
}

# What is said to C of a part is said of the one that is returned.
function compare_place(name, part,    seen) {
    reach(name, seen)
    check(part in seen, name ": does not come to " part)
}
