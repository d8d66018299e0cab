# names.awk - looks up what documents cite. It reads the names of all files (part=files), definitions and proofs
# (part=antt), sources (part=rt), C (part=c), the header (part=header), scripts (part=sh), the Makefile (part=make), the
# list of wrong engines (part=mutants) and lines of figures (part=figures), and then the documents (part=document), which
# stand in the folder `base`. `decide` tells by its shape what a token in backticks has to be. Beside the tokens, mutants
# by their numbers, and paths and links without backticks, are looked up. Lines between ``` are not read. Prints the
# number of checks, or on standard error a line for each that fails.

part ~ /^(antt|rt|c|header|sh|make)$/ && FNR == 1 { is_read[FILENAME] }
part == "files" { read_path($0) }
part == "antt" { read_definitions($0) }
part == "rt" { read_source($0) }
part == "c" || part == "header" { read_c($0) }
part == "sh" && match($0, /^[a-z0-9_]+\(\) /) { define(substr($0, 1, RLENGTH - 3)) }
part == "make" { read_make($0) }
part == "mutants" && /^[0-9]/ { mutant[$1] }
part == "figures" && /^[a-z]/ { figure[$1] }

part == "document" && FNR == 1 { fenced = 0 }
part == "document" && /^ *```/ { fenced = !fenced; next }
part == "document" && !fenced { read_line($0) }

END {
    if (failed) exit 1
    print checks
}

function check(holds, token, text) {
    checks++
    if (holds) return
    failed = 1
    print "names: " FILENAME ":" FNR ": `" token "`: " text > "/dev/stderr"
}

# ---- what there is

function define(name) {
    defined[name]
    in_file[FILENAME, name]
}

# A member of the record, data type, struct or enum that is being read.
function define_member(name) {
    define(name)
    member[holder, name]
    any_member[name]
}

function read_path(path,    step, many) {
    file[path]
    many = split(path, step, "/")
    file_name[step[many]]
    if (step[1] == "crates" && many > 3) {
        crate[step[2]]
        crate_folder[step[3]]
    }
    while (sub(/\/[^\/]*$/, "", path)) folder[path]
}

# The public names of a line, before its colon. What stands further in than a record or a data type is its member.
function read_definitions(text,    indent, word, first, end, kind) {
    if (FNR == 1) holder = ""
    sub(/(^|[ \t])--.*/, "", text)
    line[++lines] = text
    if (text ~ /^use /) read_use(text)
    if (text ~ /^(use .*| *)$/) return
    match(text, /^ */)
    indent = RLENGTH
    if (indent <= holder_indent) holder = ""
    split(text, word, " ")
    for (first = 1; word[first] ~ /^(pub|unfoldable|abbrev|record|data|module)$/; first++) kind = word[first]
    for (end = first; word[end] ~ /^[^(){}=:;,]+$/; end++);
    if (end == first) return
    if (kind ~ /^(record|data)$/) {
        define(word[first])
        holder = word[first]
        holder_indent = indent
        has_members[holder]
    } else if (kind == "module")
        define(word[first])
    else if (word[end] == ":" && (holder != "" || text ~ /(^| )pub /))
        while (--end >= first)
            if (holder == "") define(word[end])
            else define_member(word[end])
}

# Names of the kit. Those of this repository are looked up where they are defined.
function read_use(text,    of, list, i) {
    of = text
    if (sub(/^.*use Rattle\./, "", of) && sub(/\..*/, "", of) && of in crate || !sub(/^[^{]*\{/, "", text)) return
    sub(/\}.*/, "", text)
    for (i = split(text, list, /, */); i > 0; i--) defined[list[i]]
}

# crates/C/src/lib.rt is C, and crates/C/src/m.rt is C::m.
function module_of(path,    step, i, below) {
    sub(/\.rt$/, "", path)
    for (i = split(path, step, "/"); step[i] != "src"; i--)
        if (step[i] != "lib" && step[i] != "main") below = "::" step[i] below
    return step[i - 1] below
}

# Functions, types and constants with their module, and with its last name alone; members of structs and enums, also those
# that are for proofs alone; and the functions and constants of a type, which may stand in another module of its crate and
# are named by the type's own.
function read_source(text,    name) {
    if (FNR == 1) {
        module = module_of(FILENAME)
        is_module[module]
        holder = ""
    }
    sub(/\/\/.*/, "", text)
    line[++lines] = text
    if (text ~ /^ghost use /) read_use(text)
    if (text ~ /^\}/) holder = ""
    if (text ~ /^impl.*\{ *$/) {
        holder = text
        while (gsub(/<[^<>]*>/, "", holder)) continue
        sub(/ *\{ *$/, "", holder)
        holder = last_word(holder)
        is_impl = 1
    } else if (holder != "" && match(text, /^    (pub )?((fn|const|ghost) )?[A-Za-z][A-Za-z0-9_]*/)) {
        name = last_word(substr(text, 1, RLENGTH))
        define_member(name)
        if (text ~ /^    ghost /) return
        item[holder "::" name]
        if (is_impl) of_type[first_step(module), holder, name]
        else item[module "::" holder "::" name]
    } else if (match(text, /^(pub )?(extern "C" )?(fn|struct|enum|const|static|mod|type) [A-Za-z][A-Za-z0-9_]*/)) {
        name = last_word(substr(text, 1, RLENGTH))
        define(name)
        item[module "::" name]
        item[last_step(module) "::" name]
        if (text ~ /(struct|enum) [^(]*\{/) {
            holder = name
            is_impl = 0
            has_members[holder]
        }
    }
}

function last_word(text) {
    sub(/ +$/, "", text)
    sub(/.*[ *]/, "", text)
    return text
}

function first_step(path) {
    sub(/::.*/, "", path)
    return path
}

function last_step(path) {
    sub(/.*::/, "", path)
    return path
}

# What a line that is not indented names before a bracket, an equals sign or a semicolon; macros; members of an enum.
function read_c(text,    rest) {
    if (FNR == 1) holder = ""
    for (rest = text; match(rest, /--[a-z][a-z-]*/); rest = substr(rest, RSTART + RLENGTH)) {
        option[FILENAME, substr(rest, RSTART, RLENGTH)]
        any_option[substr(rest, RSTART, RLENGTH)]
    }
    if (text ~ /^enum/) holder = "enum"
    if (text ~ /\}/) holder = ""
    if (match(text, /^#define [A-Za-z0-9_]+/)) define_c(substr(text, 1, RLENGTH))
    else if (holder != "" && match(text, /^ +[A-Za-z0-9_]+/)) define_c(substr(text, 1, RLENGTH))
    else if (match(text, /^[A-Za-z}][A-Za-z0-9_ *]*[(=;{\[]/)) define_c(substr(text, 1, RLENGTH - 1))
    if (match(text, /^ +BBP_REFUSED_[A-Z]+ = [0-9]+/)) refusal[last_word(substr(text, 1, RLENGTH))]
}

function define_c(text) {
    text = last_word(text)
    define(text)
    if (part == "header") in_header[text]
}

function read_make(text,    list, i) {
    line[++lines] = text
    if (match(text, /^[A-Z_]+ :?=/)) define(word_of(text, 1))
    if (!match(text, /^[a-z][a-z -]*:/)) return
    for (i = split(substr(text, 1, RLENGTH - 1), list, " "); i > 0; i--) target[list[i]]
}

# ---- a line of a document

# What stands between backticks is a token; the rest of the line is plain text.
function read_line(text,    at, token, before, plain) {
    home = last_holder = ""
    names = 0
    while (at = index(text, "`")) {
        before = substr(text, 1, at - 1)
        text = substr(text, at + 1)
        at = index(text, "`")
        if (!at) {
            check(0, text, "a backtick that is not closed")
            break
        }
        token = substr(text, 1, at - 1)
        text = substr(text, at + 1)
        read_token(token, before)
        if (match(text, /^\]\([^)]*\)/) && names > 0) compare_place(token, link_path(substr(text, 3, RLENGTH - 3)))
        plain = plain before "`"
    }
    plain = plain text
    read_mutants(plain)
    read_paths(plain)
    read_links(plain)
}

# Names belong to the file or the module that stands right before them, and with commas to that of the name or function
# before. A name with `in` or a bracket between it and a file is in that file.
function read_token(token, before,    place, kind, i) {
    if (before == ", " ? listed : before == " " || before == ": " && home in is_read) place = home
    if (before ~ /(^|[^A-Za-z])no $/) kind = compare_absent(token)
    else kind = decide(token, place)
    if (kind == "file" && before == " in ")
        for (i = 1; i <= names; i++) compare_place(name[i], found)
    if (kind == "file" && before == " (" && names > 0 && found ~ /\.(antt|rt)$/) compare_place(name[names], found)
    if (kind != "name" || before !~ /^(,| and) $/) names = 0
    if (kind == "name") name[++names] = token
    home = kind == "name" ? place : found in is_read || found in is_module ? found : ""
    listed = kind == "name" || kind == "function"
}

# The shapes, and what a token of each has to be. Gives "name", "file", "module" or "function", in `found` the file or the
# module, or "other". Two letters that stand for folders, and a word of the kit's compiler, are not looked up.
function decide(token, place) {
    found = ""
    if (token ~ /^[SP]\/?$/ || token == "private-field") return other(1)
    if (token ~ /^make [a-z-]+( [A-Z]+=[^ ]*)*$/)
        return other(word_of(token, 2) in target, token, "no target of the Makefile")
    if (token ~ /^rt [a-z]+( [a-z_]+)?$/)
        return other(word_of(token, 3) in crate || token !~ / .* /, token, "no such crate")
    if (token ~ /^refused [0-9]+$/) return other(word_of(token, 2) in refusal, token, "no refusal of the header")
    if (token ~ /^([a-z]+ )?--[a-z]/) return compare_option(token, place)
    if (token ~ /^[A-Za-z0-9_.+*-]+(\/[A-Za-z0-9_.+*-]*)+$/) return compare_path(token)
    if (token ~ /^[A-Za-z0-9_]+(::[A-Za-z0-9_]+)+$/) return compare_item(token, place)
    if (token ~ /^[A-Za-z0-9_]+\.(a|antt|awk|c|h|md|py|rt|sh|txt)$/)
        return other(token in file_name || in_text(token), token, "no file of that name")
    if (token ~ /^([A-Z][A-Za-z0-9]*)?\.[a-z][A-Za-z0-9_]*$/) return compare_member(token, place)
    if (token ~ /^[A-Za-z][A-Za-z0-9_-]*$/) return compare_name(token, place)
    if (token ~ /^[A-Za-z][A-Za-z0-9_-]*(( |\.| \.)[A-Za-z0-9_-]+)+$/) return compare_words(token)
    return other(token != "" && in_text(token), token, "not in the sources")
}

function other(holds, token, text) {
    check(holds, token, text)
    return "other"
}

function word_of(text, which,    list) {
    split(text, list, " ")
    return list[which]
}

# Whether the sources, the definitions or the Makefile have that text.
function in_text(text,    i) {
    for (i = 1; i <= lines; i++)
        if (index(line[i], text)) return 1
    return 0
}

function compare_absent(token) {
    found = ""
    return other(!(token in defined), token, "said not to be there, and is")
}

# An option, of the program before it or of the file that it belongs to.
function compare_option(token, place,    program, named) {
    program = named = token
    if (sub(/ .*/, "", program)) place = (("examples/" program ".c") in file ? "examples/" : "tools/") program ".c"
    sub(/^[a-z]+ /, "", named)
    sub(/ .*/, "", named)
    check(place == "" ? named in any_option : (place, named) in option, token, "no option" (place == "" ? "" : " of " place))
    return token ~ / / ? "other" : "name"
}

function compare_path(token) {
    found = real_path(token)
    check(found != "", token, token ~ /^[a-z_]+\/[a-z0-9_]+$/ ? "no file, folder or must-fail edit" : "no file or folder")
    if (found in file) return "file"
    found = ""
    return "other"
}

# The path of a file, of a folder, also by its name in every crate, or of an edit crate/label; S is specs and P is proofs.
function real_path(token,    step, many, path, i) {
    sub(/\/$/, "", token)
    if (token in crate_folder) return token
    many = split(token, step, "/")
    if (step[2] == "S") step[2] = "specs"
    if (step[2] == "P") step[2] = "proofs"
    path = step[1]
    for (i = 2; i <= many; i++) path = path "/" step[i]
    if (path in file || path in folder) return path
    path = "crates/" path
    if (path in file || path in folder) return path
    path = "crates/" step[1] "/must-fail/" step[2] ".edit"
    if (many == 2 && path in file) return path
    return fitting(token)
}

# A star, and CALL for the name of a call, stand for any name that fits. tests/test_check_CALL are programs of these sources.
function fitting(path,    other_path) {
    if (path !~ /\*|CALL/) return ""
    sub(/test_check_CALL$/, "test_CALL.c", path)
    gsub(/[.+]/, "[&]", path)
    gsub(/\*/, "[^/]*", path)
    gsub(/CALL/, "[a-z_]+", path)
    for (other_path in file)
        if (other_path ~ ("^(crates/)?" path "$")) return path
    return ""
}

# A module, or what is written in one. Behind names of a module a path may start there; a type's variant names no module.
function compare_item(token, place,    above) {
    above = token
    sub(/::[^:]*$/, "", above)
    if (token in is_module) found = token
    else if (above in is_module) found = above
    if (token in is_module) return "module"
    if ((place "::" token) in item) return "name"
    check(token in item || above in item && (first_step(token), last_step(above), last_step(token)) in of_type, token, \
        found == "" ? "no module or type " above : "not in " above)
    return found == "" ? "other" : "function"
}

# A member of a record, struct or enum; without it, of the one last named in the line.
function compare_member(token, place,    named) {
    named = token
    sub(/.*\./, "", named)
    if (token !~ /^\./) last_holder = substr(token, 1, index(token, ".") - 1)
    check((last_holder, named) in member, token, \
        last_holder in has_members ? "no member of " last_holder : "no record, struct or enum " last_holder)
    if (place in is_read) compare_place(token, place)
    return "name"
}

# A name of the header or the beginning of some, or a name that is defined where it belongs, or anywhere. Crates, programs
# and the first words of figures' lines are names, too.
function compare_name(token, place) {
    if (token ~ /_$/) return other(in_names(token, in_header), token, "in no name of the header")
    if (token ~ /-$/) return other(in_names(token, figure), token, "begins no line of figures")
    if (token ~ /^(bbp|BBP)_/) check(token in in_header, token, "not in the header")
    else if (place == "")
        check(token in defined || token in crate || token in figure || is_program(token), token, "not defined")
    else if (place in is_module) check((place "::" token) in item, token, "not in " place)
    if (place in is_read) compare_place(token, place)
    return "name"
}

# A test for check runs has no source of its own.
function is_program(token) {
    sub(/^test_check_/, "test_", token)
    return (token ".c") in file_name
}

function in_names(token, list,    key) {
    for (key in list)
        if (index(key, token)) return 1
    return 0
}

# Names, numbers and members, as in an expression. A member stands behind a point.
function compare_words(token,    spaced, list, i, many) {
    spaced = token
    gsub(/ *\./, " .", spaced)
    many = split(spaced, list, " ")
    for (i = 1; i <= many; i++)
        if (list[i] ~ /^\./) check(substr(list[i], 2) in any_member, token, "no member " list[i])
        else if (list[i] !~ /^[0-9]+$/) check(list[i] in defined, token, list[i] " is not defined")
    return "other"
}

# That a name, a member's type or an option is in the file, if that was read.
function compare_place(token, path) {
    if (token ~ /::/ || !(path in is_read)) return
    sub(/\..*/, "", token)
    check((path, token) in in_file || (path, token) in option, token, "not in " path)
}

# Numbers behind the word, with commas and ranges; what stands in brackets behind a number is passed over.
function read_mutants(text,    number, end) {
    while (match(text, /(^|[^A-Za-z])mutants? [0-9]/)) {
        text = substr(text, RSTART + RLENGTH - 1)
        do {
            sub(/^(,|,? and) /, "", text)
            number = end = text + 0
            sub(/^[0-9]+/, "", text)
            if (sub(/^ to /, "", text)) {
                end = text + 0
                sub(/^[0-9]+/, "", text)
            }
            for (; number <= end; number++) check(number in mutant, "mutant " number, "not in the list")
            sub(/^ \([^()]*\)/, "", text)
        } while (text ~ /^(,|,? and) [0-9]/)
    }
}

# Paths from the folders of the repository on. A point at the end is that of the sentence.
function read_paths(text,    path, from) {
    from = "(^|[^A-Za-z0-9_./-])(bench|crates|docs|examples|include|tests|tools)/"
    while (match(text, from "[A-Za-z0-9_./*+-]*[A-Za-z0-9_*]")) {
        path = substr(text, RSTART, RLENGTH)
        text = substr(text, RSTART + RLENGTH)
        sub(/^[^a-z]/, "", path)
        check(real_path(path) != "", path, "no file or folder")
    }
}

# Links to files, from the folder of the documents.
function read_links(text,    target_path) {
    while (match(text, /\]\([^)]*\)/)) {
        target_path = substr(text, RSTART + 2, RLENGTH - 3)
        text = substr(text, RSTART + RLENGTH)
        if (target_path !~ /^(#|[a-z]+:)/) check(link_path(target_path) != "", target_path, "a link that leads nowhere")
    }
}

function link_path(path) {
    sub(/#.*/, "", path)
    sub(/\/$/, "", path)
    path = base "/" path
    while (sub(/[^\/]+\/\.\.\//, "", path));
    return path in file || path in folder ? path : ""
}
