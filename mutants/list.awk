# awk -f list.awk crates/*/src/*.rt mutate=1 crates/NAME/src/lib.rt
# The mutants of one source file: small wrong edits of the bodies of functions that have a contract, and of constants.
# Each is printed as the number of a line, the function that it is in (TYPE/NAME for a method, - for a constant) and what stands there
# instead, with tabs between. The other files only tell the types of names. The numbers of an enum are its function's `number`, which reads them.
# It reads the layout of `rt fmt`: each clause of a contract on one line, a body's braces at the depth of its `fn`.
# No type is checked here: an edit that does not compile is none.

BEGIN {
    opposite["<"] = "<="; opposite["<="] = "<"; opposite[">"] = ">="; opposite[">="] = ">"
    opposite["=="] = "!="; opposite["!="] = "=="; opposite["+"] = "-"; opposite["-"] = "+"
    opposite["*"] = "+"; opposite["/"] = "*"; opposite["%"] = "/"; opposite["|"] = "&"
    opposite["<<"] = ">>"; opposite[">>"] = "<<"; opposite["+="] = "-="; opposite["-="] = "+="
    comparison["<"]; comparison["<="]; comparison[">"]; comparison[">="]; comparison["=="]; comparison["!="]
    keyword["if"]; keyword["while"]; keyword["match"]; keyword["return"]
    head = "(^| )fn [a-z_0-9]+(<[^(]*>)?\\("
    variant = "^ +[A-Z][A-Za-z]*( = [0-9]+)?,$"
}

{ code = $0; sub(/ *\/\/.*/, "", code) }

# ---- what all files declare

!mutate && code ~ /^(pub )?(struct|enum) [A-Za-z]+(<.*>)? \{$/ { in_type = 1; owner = $(NF - 1); next }
!mutate && in_type && /^\}/ { in_type = 0 }
!mutate && in_type && code ~ /^ +(pub )?[a-z_]+: .*,$/ { declare_field(owner, code); next }
!mutate && in_type && code ~ variant { declare_member(owner, code, "variant"); next }
!mutate && code ~ /^impl / { owner = $2 }
!mutate && code ~ /^ +(pub )?const / { declare_member(owner, code, "const") }
!mutate && code ~ head { declare_function(code) }
!mutate && code ~ /^ *\) -> / { declare_result(latest_function, substr(trimmed(code), 6)) }
!mutate { next }

# ---- the file to mutate

code ~ /^(pub )?enum / { owner = $(NF - 1); in_enum = 1; forget() }
in_enum && /^\}/ { in_enum = 0 }
in_enum { place = module() owner "/number"; if (code ~ variant) mutate_line(FNR, code); next }
code ~ /^impl / { owner = $2 }
code ~ /^ *(pub )?const / && !in_body { in_const = 1; forget() }
in_const { place = "-"; mutate_line(FNR, code); if (code ~ /;$/) in_const = 0; next }
!in_body && code ~ head { in_head = 1; contract = 0; depth = indent(code); place = place_of(code); forget() }
!in_body && code ~ /fn [a-z_0-9]+\(self[,)]/ { local("self", owner) }
in_head && /^ *(requires|ensures) / { contract = contract || /^ *ensures /; next }
in_head { declare_parameters(code) }
in_head && code ~ /(^ *| )\{$/ { in_head = 0; in_body = 1; lines = 0; next }
in_body && code ~ /^ *\}$/ && indent(code) == depth { in_body = 0; if (contract) mutate_body(); next }
in_body { number[++lines] = FNR; body[lines] = code }

function place_of(text,    name) {
    name = text
    sub(/.*fn /, "", name); sub(/[(<].*/, "", name)
    return module() (indent(text) ? owner "/" : "") name
}

# The module of a file beside the root, with a stroke.
function module(    name) {
    name = FILENAME
    sub(/.*\//, "", name); sub(/\.rt$/, "", name)
    return name ~ /^(lib|main)$/ ? "" : name "/"
}

function indent(text) { match(text, /^ */); return RLENGTH }

function trimmed(text) { gsub(/^ +| +$/, "", text); return text }

# ---- declarations

# Fields of one type in one struct can stand for each other.
function declare_field(owner, text,    at, name, type, other) {
    text = trimmed(text)
    sub(/^pub /, "", text); sub(/,$/, "", text)
    at = index(text, ": ")
    name = substr(text, 1, at - 1)
    type = substr(text, at + 2)
    if ((owner, type) in last_field) {
        other = last_field[owner, type]
        siblings[name] = siblings[name] " " other
        siblings[other] = siblings[other] " " name
    }
    last_field[owner, type] = name
    field_type[name] = (name in field_type) && field_type[name] != type ? "?" : type
}

# The variants or constants of a type in a ring: each leads to the next.
function declare_member(owner, text, kind,    name) {
    name = trimmed(text)
    sub(/^pub /, "", name); sub(/^const /, "", name); sub(/[,: ].*/, "", name)
    if ((owner, kind) in first_member) next_member[owner, last_member[owner, kind]] = name
    else first_member[owner, kind] = name
    last_member[owner, kind] = name
    next_member[owner, name] = first_member[owner, kind]
}

function declare_function(text) {
    latest_function = text
    sub(/.*fn /, "", latest_function); sub(/[(<].*/, "", latest_function)
    if (match(text, /-> [^{]*/)) declare_result(latest_function, substr(text, RSTART + 3, RLENGTH - 3))
}

function declare_result(name, type) {
    type = trimmed(type)
    if (type == "Self") type = owner
    result_type[name] = (name in result_type) && result_type[name] != type ? "?" : type
}

function forget() { locals = 0; split("", type_of) }

function local(name, type) {
    if (!(name in type_of)) order[++locals] = name
    type_of[name] = type
}

function declare_parameters(text,    at, name) {
    while (match(text, /const [A-Z_]+: [a-z0-9]+/)) {
        at = index(text, ": ")
        local(substr(text, RSTART + 6, at - RSTART - 6), substr(text, at + 2, RSTART + RLENGTH - at - 2))
        text = substr(text, RSTART + RLENGTH)
    }
    sub(/.*fn [a-z_0-9]+\(/, "", text); sub(/\) ->.*|\)$|\) \{$/, "", text)
    while (match(text, /[a-z_]+: /)) {
        name = substr(text, RSTART, RLENGTH - 2)
        text = substr(text, RSTART + RLENGTH)
        at = match(text, /, [a-z_]+: |,$/) ? RSTART - 1 : length(text)
        local(name, substr(text, 1, at))
        text = substr(text, at + 1)
    }
}

# let [mut] NAME[: TYPE] = VALUE;
function declare_local(text,    name, value, type) {
    text = trimmed(text)
    sub(/^let (mut )?/, "", text)
    name = text; sub(/[:= ].*/, "", name)
    value = text; sub(/^[^=]*= /, "", value); sub(/;$/, "", value)
    type = "?"
    if (text ~ /^[a-z_]+: /) { type = text; sub(/^[a-z_]+: /, "", type); sub(/ = .*/, "", type) }
    else if (value in type_of) type = type_of[value]
    else if (value ~ / as [a-z0-9]+$/) { type = value; sub(/.* /, "", type) }
    else if (value ~ /\.len\(\)$/) type = "usize"
    else if (match(value, /^[A-Za-z_:.]+\(/)) type = result_of(substr(value, 1, RLENGTH - 1))
    else if (match(value, /\.[a-z_]+$/)) type = known(field_type, substr(value, RSTART + 1))
    local(name, type)
}

function result_of(path) { sub(/.*[.:]/, "", path); return known(result_type, path) }

function known(map, name) { return name in map ? map[name] : "?" }

# ---- edits

function mutate_body(    i, last) {
    last = lines ? trimmed(body[lines]) : ""
    for (i = 1; i <= lines; i++) {
        mutate_line(number[i], body[i])
        if (body[i] ~ /^ *let /) declare_local(body[i])
        if (body[i] ~ /^ *(for|while) /) in_loop_head = 1
        if (in_loop_head && body[i] ~ /\{$/) {
            in_loop_head = 0
            if (last ~ /^([a-z_]+|Ok\(.*\))$/) edit(number[i], body[i], body[i] " return " last ";")
        }
    }
}

function mutate_line(at, text,    i) {
    cut_up(text)
    for (i = start_of_value(text); i <= tokens; i++) {
        mutate_word(at, text, i)
        mutate_mark(at, text, i)
        if (token[i] == "if") negate(at, text, i)
        if (token[i] == "(" && token[i - 1] ~ /^[a-z_]/ && !(token[i - 1] in keyword)) mutate_call(at, text, i)
    }
    if (text ~ /^ *[^ }].*;$/ && text !~ /^ *(let|const|pub) / && balanced(text)) edit(at, text, "")
    if (text ~ /^ *self as u[0-9]+$/) edit(at, text, text " + 1")
}

# A declaration's name and type stay.
function start_of_value(text,    i) {
    if (text !~ /^ *((pub )?const|let) /) return 1
    for (i = 1; i <= tokens; i++) if (token[i] == "=") return i + 1
    return tokens + 1
}

function balanced(text) { return gsub(/[({]/, "", text) == gsub(/[)}]/, "", text) }

function cut_up(text) {
    tokens = 0
    while (text != "") {
        if (!match(text, /^([A-Za-z_][A-Za-z0-9_]*|[0-9]+| +|<<|>>|<=|>=|==|!=|=>|->|\+=|-=|&&|::|\.\.)/)) RLENGTH = 1
        token[++tokens] = substr(text, 1, RLENGTH)
        text = substr(text, RLENGTH + 1)
    }
    token[0] = token[tokens + 1] = token[tokens + 2] = ""
}

# The line with other text for the tokens from i to j.
function with(i, j, new,    k, text) {
    for (k = 1; k < i; k++) text = text token[k]
    text = text new
    for (k = j + 1; k <= tokens; k++) text = text token[k]
    return text
}

function edit(at, old, new) {
    if (new == old || ((at, new) in told)) return
    told[at, new] = 1
    print at "\t" place "\t" new
}

function mutate_word(at, text, i,    word, before, after) {
    word = token[i]; before = token[i - 1]; after = token[i + 1]
    if (word ~ /^[0-9]+$/ && before != ".") off_by_one(at, text, i)
    else if (word == "true") edit(at, text, with(i, i, "false"))
    else if (word == "false") edit(at, text, with(i, i, "true"))
    else if (before == "." && word in siblings && after != "(") other_field(at, text, i)
    else if (before == "::" && ((token[i - 2], word) in next_member))
        edit(at, text, with(i, i, next_member[token[i - 2], word]))
    else if (word in type_of && before != "." && before != "::" && after !~ /^(\(|:|::)$/) other_operand(at, text, i)
}

# Whichever struct it is of.
function other_field(at, text, i,    k, count, names) {
    count = split(siblings[token[i]], names, " ")
    for (k = 1; k <= count; k++) edit(at, text, with(i, i, names[k]))
}

# By the last digit, so that numbers of any size are exact.
function off_by_one(at, text, i,    start, digit) {
    start = substr(token[i], 1, length(token[i]) - 1)
    digit = substr(token[i], length(token[i]))
    if (digit < 9) edit(at, text, with(i, i, start (digit + 1)))
    if (digit > 0) edit(at, text, with(i, i, start (digit - 1)))
}

# The next name of the same type, or a constant where there is none.
function other_operand(at, text, i,    k, value, type) {
    type = type_of[token[i]]
    for (k = 1; k <= locals && order[k] != token[i]; k++) ;
    for (k = k % locals + 1; type != "?" && order[k] != token[i]; k = k % locals + 1)
        if (type_of[order[k]] == type) { edit(at, text, with(i, i, order[k])); return }
    value = type ~ /^(u8|u64|usize)$/ ? "0" : type == "bool" ? "true" : ""
    if (value != "" && token[i + 1] != "." && token[i + 2] !~ /^(=|\+=)$/) edit(at, text, with(i, i, value))
}

# Operators, a `!`, and the place in an array.
function mutate_mark(at, text, i,    before, after) {
    before = token[i - 1]; after = token[i + 1]
    if (token[i] in opposite && before == " " && after == " ") edit(at, text, with(i, i, opposite[token[i]]))
    if (token[i] == "!") edit(at, text, with(i, i, ""))
    if (token[i] == "[" && before ~ /^[A-Za-z_]/ && after ~ /^[a-z_]+$/ && token[i + 2] == "]")
        edit(at, text, with(i + 1, i + 1, "0"))
}

# The condition after token i, an `if`. A comparison has edits of its own.
function negate(at, text, i,    k, condition) {
    for (k = i + 2; k <= tokens && token[k] != "{"; k++) {
        if (token[k] in comparison) return
        condition = condition token[k]
    }
    if (condition !~ /^!/) edit(at, text, with(i, k - 1, "if !(" trimmed(condition) ") "))
}

# The call whose bracket is token i: two neighbouring arguments swapped; and the call left out, so that what it is called on,
# or its first argument, stands there.
function mutate_call(at, text, i,    k, from, count, close_at) {
    count = cut_arguments(i)
    close_at = ends[count]
    if (!close_at) return
    for (k = 1; k < count; k++) edit(at, text, with(begins[k], ends[k + 1] - 1, argument[k + 1] ", " argument[k]))
    for (from = i - 1; token[from - 1] ~ /^(\.|::)$/ && token[from - 2] ~ /^[A-Za-z_0-9]/; from -= 2) ;
    if (token[i - 2] == ".") edit(at, text, with(i - 2, close_at, ""))
    else if (argument[1] != "") edit(at, text, with(from, close_at, argument[1]))
}

# The arguments of the call whose bracket is token i: their texts, and the tokens that they begin at and end before; 0 where the
# line ends before the last one. Returns how many.
function cut_arguments(i,    k, level, count) {
    begin_argument(count = 1, i + 1)
    for (k = i + 1; k <= tokens; k++) {
        if (token[k] ~ /^[])]$/ && level-- == 0) { ends[count] = k; return count }
        if (token[k] ~ /^[[(]$/) level++
        if (token[k] == "," && level == 0) {
            ends[count] = k++
            begin_argument(++count, k + 1)
        } else argument[count] = argument[count] token[k]
    }
    return count
}

function begin_argument(count, at) { begins[count] = at; argument[count] = ""; ends[count] = 0 }
