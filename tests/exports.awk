# exports.awk - what exports.sh compares. It reads the engine's sources (part=engine), those of the other crates (part=other),
# the requests (part=requests) and the header, preprocessed (part=header); `symbols` is the list of names. The other
# variables are names of definitions, which exports.sh has. Prints the number of checks, or the first that fails on
# standard error.

# A parameter of each type as C declares it, and as an argument of a request.
BEGIN {
    in_c["u64"] = "uint64_t @"
    in_c["&[u8]"] = "const uint8_t *@, size_t @_len"
    in_c["&mut [u8]"] = "uint8_t *@, size_t @_len"
    in_request["u64"] = "@"
    in_request["&[u8]"] = "@.now"
    in_request["&mut [u8]"] = "@.old"
}

part == "engine" || part == "other" { sub(/\/\/.*/, "") }
part == "engine" { source = source " " $0 }
part == "engine" && /^ghost use / { read_import($0) }
part == "other" && /no_mangle|(^|[^a-z_])extern([^a-z_]|$)/ { stray = FILENAME }
part == "header" { header = header " " $0 }

# The constructors of the requests, and for which of them a function has a line.
part == "requests" {
    sub(/--.*/, "")
    if (/^[^ ]/) inside = $0 ~ "^(pub )?data " data " "
    if (inside && /^ +[A-Z][A-Za-z0-9]* :/) constructor[$1]
    if ($1 == serves && index($0, "(" call_of " " $2 " " $3 ")")) goes = 1
    if (($1 == call_of || $1 == to_write || $1 == to_read) && $2 != ":") {
        sub(/=.*/, "")
        match($0, /\([A-Z][A-Za-z0-9]*/)
        line[$1, substr($0, RSTART + 1, RLENGTH - 1)]++
        lines[$1]++
    }
}

END {
    check(stray == "", stray ": a function is exported outside the engine")
    compare_imports()
    check(goes, serves ": does not go by " call_of " F q")
    read_declarations()
    read_exports()
    compare_requests()
    compare_names()
    print checks
}

function fail(text) {
    print "exports: " text > "/dev/stderr"
    exit 1
}

function check(holds, text) {
    checks++
    if (!holds) fail(text)
}

function with(form, name) {
    gsub(/@/, name, form)
    return form
}

# Names in braces, and where they come from.
function read_import(text,    path, list, n, i) {
    path = $3
    sub(/\.\{.*/, "", path)
    if (!sub(/^[^{]*\{/, "", text)) return
    sub(/\}.*/, "", text)
    n = split(text, list, /, */)
    for (i = 1; i <= n; i++) origin[list[i], path]
}

# A definition of the same name from elsewhere would be another contract.
function compare_imports(    key, word) {
    for (key in origin) {
        split(key, word, SUBSEP)
        if (word[1] == serves || word[1] in constructor)
            check(word[2] == from, word[1] ": of " word[2] ", not of " from)
    }
}

function read_declarations(    statement, n, i, name) {
    gsub(/[ \t]+/, " ", header)
    n = split(header, statement, ";")
    for (i = 1; i <= n; i++) {
        gsub(/^ | $/, "", statement[i])
        if (!match(statement[i], /bbp_[a-z0-9_]*\(/)) continue
        name = substr(statement[i], RSTART, RLENGTH - 1)
        check(!(name in declared), name ": declared twice")
        declared[name] = statement[i]
    }
}

# What stands behind a #[unsafe(no_mangle)], up to the next one, starts with the function that it exports.
function read_exports(    piece, n, i) {
    gsub(/[ \t]+/, " ", source)
    n = split(source, piece, /#\[unsafe\(no_mangle\)\]/)
    for (i = 1; i <= n; i++) {
        if (i > 1 && !sub(/^ pub extern "C" fn /, "", piece[i]))
            fail("#[unsafe(no_mangle)] without pub extern \"C\" fn:" substr(piece[i], 1, 40))
        if (match(piece[i], / extern [^(]*/))
            fail(substr(piece[i], RSTART + 1, RLENGTH - 1) ": without #[unsafe(no_mangle)]")
        if (i > 1) read_export(piece[i])
    }
}

# A function from its name on. What its contract has to be follows from its name and its parameters. A lifetime, which slices
# have in common where a part of one is handed on, is nothing to C.
function read_export(text,    name, end, list, n, i) {
    if (match(text, /^[a-z0-9_]+<'a>/)) {
        sub(/<'a>/, "", text)
        gsub(/&'a /, "\\&", text)
    }
    name = substr(text, 1, index(text, "(") - 1)
    check(match(text, /^[a-z0-9_]+\([^()]*\) -> i64 /), name ": not a function that answers an i64")
    end = RLENGTH
    parameters = arguments = written = seen = ""
    n = split(substr(text, length(name) + 2, index(text, ")") - length(name) - 2), list, ",")
    for (i = 1; i <= n; i++) read_parameter(name, list[i])
    exported[name] = "int64_t " name "(" substr(parameters, 3) ")"
    compare_clause(name, only_ensures(name, substr(text, end + 1)))
}

# The text behind a last comma is empty.
function read_parameter(name, text,    word) {
    gsub(/^ | $/, "", text)
    if (text == "") return
    split(text, word, ": ")
    check(word[2] in in_c, name ": the parameter " text)
    parameters = parameters ", " with(in_c[word[2]], word[1])
    arguments = arguments " " with(in_request[word[2]], word[1])
    if (word[2] == "&mut [u8]") written = written with("@.new ∷ ", word[1])
    if (word[2] == "&[u8]") seen = seen with("@.now ∷ ", word[1])
}

# What stands between the braces of the one clause of a contract.
function only_ensures(name, text,    end, many, clause) {
    while (match(text, /^[a-z]+( [A-Za-z0-9_-]+)? \{ /)) {
        check(text ~ /^ensures /, name ": a clause other than ensures: " substr(text, 1, index(text, " ") - 1))
        many++
        text = substr(text, RLENGTH + 1)
        end = closing(text)
        clause = substr(text, 1, end - 2)
        text = substr(text, end + 2)
    }
    check(text ~ /^\{/, name ": neither a clause nor a body: " substr(text, 1, 40))
    check(many == 1, name ": " many + 0 " ensures, not one")
    return clause
}

# The place of the brace that closes the one before the text.
function closing(text,    i, depth) {
    depth = 1
    for (i = 1; depth > 0 && i <= length(text); i++)
        depth += (substr(text, i, 1) == "{") - (substr(text, i, 1) == "}")
    return i - 1
}

# The formula is that of the name, and the arguments and slices those of the signature. Words with a capital letter behind the
# request, such as the part of a ticket, belong to it: each function has a request of its own.
function compare_clause(name, clause,    head, formula, request, word, cut, slices) {
    head = serves " "
    check(index(clause, head) == 1, name ": a contract that does not go by " serves ": " clause)
    clause = substr(clause, length(head) + 1)
    check(match(clause, /^[A-Za-z]+ \([A-Z][A-Za-z0-9]*( [A-Z][A-Za-z0-9]*)*/), name ": neither formula nor request: " clause)
    request = substr(clause, 1, RLENGTH)
    clause = substr(clause, RLENGTH + 1)
    sub(/\(/, "", request)
    split(request, word, " ")
    formula = name ~ /^bbp_check_/ ? check_formula : bellard_formula
    check(word[1] == formula, name ": formula " word[1] ", not " formula)
    check(word[2] in constructor, name ": " word[2] " is no constructor of " data)
    if (request in owner) fail(name ": the request of " owner[request] ", " request)
    owner[request] = name
    asked[word[2]]
    cut = index(clause, ") result ")
    check(substr(clause, 1, cut - 1) == arguments, name ": arguments" substr(clause, 1, cut - 1) ", not" arguments)
    slices = listed(written) " " listed(seen)
    check(substr(clause, cut + 9) == slices, name ": slices " substr(clause, cut + 9) ", not " slices)
}

function listed(slices) {
    return slices == "" ? "[]" : "(" slices "[])"
}

function compare_requests(    request, many) {
    for (request in constructor) {
        many++
        check(request in asked, request ": no exported function asks it")
        compare_lines(call_of, request)
        compare_lines(to_write, request)
        compare_lines(to_read, request)
    }
    compare_count(call_of, many)
    compare_count(to_write, many)
    compare_count(to_read, many)
}

function compare_lines(of, request) {
    check(line[of, request] == 1, of ": " line[of, request] + 0 " lines for " request ", not one")
}

function compare_count(of, many) {
    check(lines[of] == many, of ": a line for what is no constructor of " data)
}

function compare_names(    list, n, i, name, named) {
    n = split(symbols, list, " ")
    for (i = 1; i <= n; i++) {
        named[list[i]]
        check(list[i] in exported, list[i] ": in the list and not exported")
    }
    for (name in declared) check(name in exported, name ": declared and not exported")
    for (name in exported) {
        check(name in named, name ": exported and not in the list")
        check(name in declared, name ": exported and not declared")
        check(declared[name] == exported[name], name ": declared as " declared[name] ", not as " exported[name])
    }
}
