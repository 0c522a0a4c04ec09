# Reads the Rattle files that it is given, all of one crate, and walks from the functions of `starts` along their calls. Lists each product,
# quotient and remainder in what is reached, each constant array, and each shift by a number that is no constant. `crate` is the crate's
# name, `root` the folder of its files.
#
# It reads the whole of each function that it reaches: words, then expressions by how tightly their signs bind, as Rust has it. Whatever it
# does not know is a fault, and ends it: a form, a name, a function that stands in none of the files.
#
# It writes lines `KIND PLACE: FUNCTION: TEXT`, where KIND is function, product, quotient, remainder, shift, table or fault.

BEGIN {
    # Where a number of another kind comes from or goes to, and a count of zeros: there is no product in them.
    split("f32::to_bits f32::from_bits u32::leading_zeros", list, " ")
    for (i in list) primitive[list[i]] = 1
    split("* product / quotient % remainder *= product /= quotient %= remainder", list, " ")
    for (i = 1; i in list; i += 2) called[list[i]] = list[i + 1]
    # How tightly a sign binds. `as`, and what follows a value (a field, an index, arguments), bind tighter.
    split("* 12 / 12 % 12 + 11 - 11 << 10 >> 10 & 9 ^ 8 | 7 == 6 != 6 < 6 > 6 <= 6 >= 6 && 5 || 4 .. 3 ..= 3" \
        " = 2 += 2 -= 2 *= 2 /= 2 %= 2 <<= 2 >>= 2 &= 2 ^= 2 |= 2", list, " ")
    for (i = 1; i in list; i += 2) binding[list[i]] = list[i + 1]
    split("fn const use struct enum impl mod type static extern pub ghost trait unsafe", list, " ")
    for (i in list) begins_item[list[i]] = 1
    most = 16
}

FNR == 1 { open_file(FILENAME) }
{ words_of($0) }

END {
    if (stopped) exit 1
    for (f = 1; f <= files; f++) items(first[f], f < files ? first[f + 1] - 1 : n, module[f])
    for (name in told) if (!(name in is_module)) stop_at(told[name], "there is no file of the module " name)
    count = split(starts, list, " ")
    for (i = 1; i <= count; i++) {
        if (!((crate "::" list[i]) in at)) stop_at(root, "there is no function " list[i])
        reach(crate "::" list[i])
    }
    for (done = 1; done <= reached; done++) body(queue[done])
    exit bad
}

# ---- words

function open_file(path,    name) {
    name_of[++files] = path
    first[files] = n + 1
    name = substr(path, length(root) + 2)
    sub(/\.rt$/, "", name)
    sub(/(^|\/)(lib|main|mod)$/, "", name)
    gsub(/\//, "::", name)
    module[files] = name == "" ? crate : crate "::" name
    is_module[module[files]] = 1
}

function word(kind, size) {
    T[++n] = substr(rest, 1, size)
    K[n] = kind
    file_of[n] = files
    line_of[n] = FNR
    column[n] = length(source[files, FNR]) - length(rest) + 1
    rest = substr(rest, size + 1)
}

function words_of(line) {
    source[files, FNR] = rest = line
    while (rest != "") {
        if (match(rest, /^[ \t\r]+/)) rest = substr(rest, RLENGTH + 1)
        else if (rest ~ /^\/\//) rest = ""
        else if (match(rest, /^b"([^"\\]|\\.)*"/)) word("string", RLENGTH)
        else if (match(rest, /^b'([^'\\]|\\.|\\x[0-9a-fA-F][0-9a-fA-F])'/)) word("number", RLENGTH)
        else if (match(rest, /^[A-Za-z_][A-Za-z0-9_]*/)) word("name", RLENGTH)
        # a field of a field, `p.0.1`, is no fraction
        else if (T[n] == "." && match(rest, /^[0-9]+/)) word("number", RLENGTH)
        else if (match(rest, /^0x[0-9a-fA-F_]+([ui](8|16|32|64|size))?/)) word("number", RLENGTH)
        else if (match(rest, /^[0-9][0-9_]*(\.[0-9][0-9_]*)?([eE][+-]?[0-9_]+)?(f32|f64|[ui](8|16|32|64|size))?/)) word("number", RLENGTH)
        else if (rest ~ /^(<<=|>>=|\.\.=)/) word("sign", 3)
        else if (rest ~ /^(::|->|=>|==|!=|<=|>=|&&|\|\||\+=|-=|\*=|\/=|%=|\^=|&=|\|=|<<|>>|\.\.)/) word("sign", 2)
        else word(index("*/%+-&^|=<>!.,;:()[]{}#", substr(rest, 1, 1)) ? "sign" : "other", 1)
    }
}

function place_of(i) {
    return name_of[file_of[i]] ":" line_of[i]
}

# The source from word a to word b.
function text_of(a, b,    i, text) {
    if (file_of[a] == file_of[b] && line_of[a] == line_of[b])
        return substr(source[file_of[a], line_of[a]], column[a], column[b] + length(T[b]) - column[a])
    for (i = a; i <= b; i++) text = text (i > a ? " " : "") T[i]
    return text
}

# ---- what is found

# What is not known: nothing is read after it.
function stop_at(place, what) {
    print "fault " place ": " what
    stopped = 1
    exit 1
}

function stop(what) {
    stop_at(place_of(p > n ? n : p), what (here == "" ? "" : ", in " here))
}

function fault(i, what) {
    print "fault " place_of(i) ": " here ": " what
    bad = 1
}

function note(kind, i, text) {
    print kind " " place_of(i) ": " here ": " text
}

function product(a, left, sign, right) {
    note(called[T[sign]], sign, text_of(a, p - 1))
    if (!left && !right) fault(sign, "the " called[T[sign]] " " text_of(a, p - 1) " has no constant operand")
}

function table(i, entries, what) {
    note("table", i, what ", " entries)
    if (entries > most) fault(i, what " is a table of " entries " entries, more than " most)
}

# ---- items of a file

function need(text) {
    if (T[p] != text) stop("'" text "' was looked for, and '" T[p] "' found")
    p++
}

function need_name() {
    if (K[p] != "name") stop("a name was looked for, and '" T[p] "' found")
    return T[p++]
}

# Past the bracket that closes the one at p.
function skip_brackets(    depth) {
    do {
        if (p > end) stop("a bracket is not closed")
        if (K[p] == "sign" && index("([{", T[p])) depth++
        if (K[p] == "sign" && index(")]}", T[p])) depth--
        p++
    } while (depth > 0)
}

# Past the next `text`, and past whatever is in brackets before it.
function skip_past(text) {
    while (T[p] != text) {
        if (p > end) stop("'" text "' is missing")
        if (K[p] == "sign" && index("([{", T[p])) skip_brackets()
        else p++
    }
    p++
}

function skip_attributes() {
    while (T[p] == "#" || T[p] == "pub") {
        p++
        if (T[p] == "!") p++
        if (T[p] == "[" || T[p] == "(") skip_brackets()
    }
}

function items(from, to, mod,    name) {
    p = from
    end = to
    while (p <= end) {
        skip_attributes()
        name = mod "::" T[p + 1]
        if (T[p] == "type" || T[p] == "ghost" && T[p + 1] == "use") skip_past(";")
        else if (T[p] == "use") {
            p++
            uses(mod, "")
            need(";")
        } else if (T[p] == "mod") {
            told[name] = place_of(p)
            p += 2
            need(";")
        } else if (T[p] == "const" && T[p + 2] == ":") {
            constant_at[name] = p
            skip_past(";")
        } else if (T[p] == "struct" || T[p] == "enum") {
            type_of[name] = T[p]
            p += 2
            while (T[p] != "{" && T[p] != "(" && T[p] != ";") if (p++ > end) stop("a type has no end")
            if (T[p] != ";") skip_brackets()
            if (T[p] == ";") p++
        } else if (T[p] == "impl") {
            p += 2
            need("{")
            while (T[p] != "}") {
                skip_attributes()
                if (T[p] == "const" && T[p + 2] == ":") {
                    constant_at[name "::" T[p + 1]] = p
                    skip_past(";")
                    continue
                }
                methods[T[p + 1]] = methods[T[p + 1]] " " name "::" T[p + 1]
                skip_function(mod, name "::" T[p + 1])
            }
            p++
        } else skip_function(mod, name)
    }
}

# A path of `use` and what it brings in; `before` is the path up to here.
function uses(mod, before,    name) {
    if (T[p] == "{") {
        do {
            p++
            if (T[p] != "}") uses(mod, before)
        } while (T[p] == ",")
        need("}")
        return
    }
    name = need_name()
    before = before (before == "" ? "" : "::") name
    if (T[p] == "::") {
        p++
        uses(mod, before)
        return
    }
    if (T[p] == "as") {
        p++
        name = need_name()
    }
    brought[mod, name] = before
}

function skip_function(mod, name) {
    if (T[p] != "fn") stop("'" T[p] "' begins nothing that is known here")
    if (name in at) stop("a second function " name)
    at[name] = p
    home[name] = mod
    skip_signature()
    skip_brackets()
}

# To the body of the function at p: past its name, parameters, result and contract.
function skip_signature() {
    p += 2
    while (T[p] != "{") {
        if (p > end) stop("a function has no body")
        if (T[p] == "requires" || T[p] == "ensures") {
            # a clause may have a name
            p += T[p + 1] == "{" ? 1 : 2
            if (T[p] != "{") stop("a clause has no brackets")
            skip_brackets()
        } else if (T[p] == "(" || T[p] == "[") skip_brackets()
        else p++
    }
}

# ---- names

# The full path of what `path` means in the module mod. A path that `use` brought in under the name `by` is not looked up by it again.
function absolute(path, mod, by,    head, tail) {
    head = path
    sub(/::.*/, "", head)
    tail = substr(path, length(head) + 1)
    if (head == "crate") return crate tail
    if (head == "self") return mod tail
    if (head == "super") {
        sub(/::[^:]*$/, "", mod)
        return tail ~ /^::super/ ? absolute(substr(tail, 3), mod) : mod tail
    }
    if (head != by && (mod, head) in brought) return absolute(brought[mod, head] tail, mod, head)
    head = mod "::" head
    return head in is_module || head in type_of || head in at || head in constant_at ? mod "::" path : path
}

function parent_of(path) {
    sub(/::[^:]*$/, "", path)
    return path
}

function reach(name) {
    if (name in seen) return
    seen[name] = 1
    queue[++reached] = name
    print "function " place_of(at[name]) ": " name
}

# What is called at i: a function of these files, a struct or a variant that is made, or a primitive step.
function call(path, i,    full) {
    full = absolute(path, mod)
    if (full in at) reach(full)
    else if (!(full in type_of || parent_of(full) in type_of || full in primitive)) {
        p = i
        stop("the function " path " is in none of the files")
    }
}

function call_method(name, i,    list, count, j) {
    count = split(methods[name], list, " ")
    for (j = 1; j <= count; j++) reach(list[j])
    if (count || name == "len") return
    p = i
    stop("the method " name " is in none of the files")
}

# Whether the name at i is a constant. A parameter or a `let` is none.
function named(path, i,    full) {
    if ((here, path) in bound) return 0
    full = absolute(path, mod)
    if (full in constant_at) {
        constant(full)
        return 1
    }
    if (full in type_of || parent_of(full) in type_of) return 0
    p = i
    stop("the name " path " is not known")
}

# Reads the constant's type and value, once.
function constant(name,    was_p, was_end, was_here, was_mod, was_in, entries) {
    if (name in read_already) return
    read_already[name] = 1
    was_p = p; was_end = end; was_here = here; was_mod = mod; was_in = in_constant
    p = constant_at[name] + 2
    end = n
    here = name
    mod = parent_of(name)
    if (mod in type_of) mod = parent_of(mod)
    need(":")
    entries = type(0)
    if (entries != 1) table(constant_at[name], entries, T[constant_at[name] + 1])
    need("=")
    in_constant = 1
    expression(0, 0)
    need(";")
    p = was_p; end = was_end; here = was_here; mod = was_mod; in_constant = was_in
}

# ---- types

# A type, and how many entries an array of it has in all. After `as`, which is `plain`, a `<` belongs to no type.
function type(plain,    entries) {
    if (T[p] == "&") {
        p++
        if (T[p] == "'") p += 2
        if (T[p] == "mut") p++
        return type(plain)
    }
    if (T[p] == "[") {
        p++
        entries = type(plain)
        if (T[p] == ";") {
            p++
            entries *= size()
        }
        need("]")
        return entries
    }
    if (T[p] == "(") {
        p++
        need(")")
        return 1
    }
    need_name()
    while (T[p] == "::") {
        p++
        need_name()
    }
    if (!plain && T[p] == "<") skip_past(">")
    return 1
}

# The length of an array: a number, or a constant that is one.
function size(    i, name) {
    i = p
    if (K[i] == "name") {
        name = need_name()
        while (T[p] == "::") {
            p++
            name = name "::" need_name()
        }
        name = absolute(name, mod)
        if (!(name in constant_at)) stop("the length " name " is no constant")
        for (i = constant_at[name]; T[i] != "="; i++);
        i++
        if (T[i + 1] != ";") stop("the length " name " is not written as a number")
    } else p++
    if (K[i] != "number" || T[i] !~ /^[0-9_]+(usize)?$/) stop("the length " T[i] " is not written as a number")
    name = T[i]
    gsub(/_|usize/, "", name)
    return name + 0
}

# ---- functions

function body(name) {
    here = name
    mod = home[name]
    end = n
    p = at[name] + 2
    if (T[p] == "<") skip_past(">")
    need("(")
    while (T[p] != ")") {
        if (T[p] == "&") p++
        if (T[p] == "mut") p++
        bound[here, need_name()] = 1
        if (T[p] == ":") {
            p++
            type(0)
        }
        if (T[p] != ")") need(",")
    }
    p = at[name]
    skip_signature()
    block()
}

function block() {
    need("{")
    while (T[p] != "}") statement()
    p++
}

function statement() {
    if (p > end) stop("a block is not closed")
    if (T[p] in begins_item) stop("'" T[p] "' stands within a function")
    if (T[p] == ";") p++
    else if (T[p] == "let") binding_statement()
    else if (is_block()) {
        first_of()
        if (T[p] == ";") p++
    } else {
        expression(0, 0)
        if (T[p] != "}") need(";")
    }
}

# Whether what begins at p ends with its block.
function is_block() {
    return T[p] == "{" || T[p] == "'" || K[p] == "name" && T[p] ~ /^(if|match|while|loop|for)$/
}

function binding_statement() {
    p++
    pattern("=", ":", ";")
    if (T[p] == ":") {
        p++
        type(0)
    }
    if (T[p] == "=") {
        p++
        expression(0, 0)
    }
    if (T[p] == "else") {
        p++
        block()
    }
    need(";")
}

# Up to one of three words outside of brackets; the names on the way are bound. Returns how many patterns there are.
function pattern(a, b, c,    depth, count) {
    count = 1
    while (depth > 0 || T[p] != a && T[p] != b && T[p] != c) {
        if (p > end || T[p] == "if") stop("a pattern of an unknown form")
        if (K[p] == "sign" && index("([{", T[p])) depth++
        if (K[p] == "sign" && index(")]}", T[p])) depth--
        if (T[p] == "|") count++
        if (K[p] == "name" && T[p - 1] != "::" && T[p + 1] !~ /^(::|\(|\{)$/) bound[here, T[p]] = 1
        p++
    }
    return count
}

# ---- expressions: each function returns whether what it reads is a constant

# `bare`: a `{` after a name opens a block and no struct, as after `if`.
function expression(least, bare,    a, left, sign, right) {
    a = p
    left = value(bare)
    for (;;) {
        sign = p
        if (K[p] == "name" && T[p] == "as") {
            p++
            type(1)
        } else if (K[p] != "sign" || !(T[p] in binding) || binding[T[p]] < least) return left
        else {
            p++
            if (T[sign] ~ /^\.\./ && ends()) return 0
            right = expression(binding[T[sign]] + (binding[T[sign]] > 2), bare)
            if (binding[T[sign]] == 2) left = 0
            if (T[sign] in called) product(a, left, sign, right)
            if (T[sign] ~ /^(<<|>>)/ && !right) note("shift", sign, text_of(a, p - 1))
            left = left && right && T[sign] !~ /^\.\./
        }
    }
}

# Whether no value begins at p.
function ends() {
    return p > end || K[p] == "sign" && index(")]},;{", T[p])
}

# A value with what follows it: fields, indices, calls.
function value(bare,    constant_, i) {
    constant_ = first_of(bare)
    for (;;) {
        if (T[p] == "." && K[p + 1] == "number") p += 2
        else if (T[p] == ".") {
            i = ++p
            need_name()
            if (T[p] == "(") {
                arguments()
                call_method(T[i], i)
            }
        } else if (T[p] == "[") {
            p++
            expression(0, 0)
            need("]")
        } else if (T[p] == "(") stop("a call of what is no function's name")
        else return constant_
        constant_ = 0
    }
}

function first_of(bare,    c, i) {
    if (K[p] == "number") return !!p++
    if (K[p] == "string") {
        table(p, length(bytes(T[p])), text_of(p, p))
        return !!p++
    }
    if (K[p] == "name") return after_name(bare)
    if (T[p] == "-" || T[p] == "!") {
        p++
        return value(bare)
    }
    if (T[p] == "*" || T[p] == "&" || T[p] == "&&") {
        p++
        if (T[p] == "mut") p++
        value(bare)
        return 0
    }
    if (T[p] == "(") {
        p++
        if (T[p] != ")") c = expression(0, 0)
        need(")")
        return c + 0
    }
    if (T[p] == "[") return array()
    if (T[p] == "{") {
        block()
        return 0
    }
    if (T[p] ~ /^\.\.=?$/) {
        p++
        if (!ends()) expression(4, bare)
        return 0
    }
    if (T[p] == "'" && K[p + 1] == "name" && T[p + 2] == ":") {
        p += 3
        if (T[p] !~ /^(while|loop|for)$/) stop("a label before '" T[p] "'")
        return after_name(bare)
    }
    stop("'" T[p] "' begins no expression that is known")
}

# A string's bytes, each escape as one letter.
function bytes(text) {
    gsub(/^b"|"$/, "", text)
    gsub(/\\x[0-9a-fA-F][0-9a-fA-F]|\\./, "x", text)
    return text
}

function after_name(bare,    i, path) {
    i = p
    path = need_name()
    if (path == "true" || path == "false") return 1
    if (path == "if") {
        condition()
        block()
        if (T[p] == "else") {
            p++
            if (T[p] == "if") after_name(bare)
            else block()
        }
        return 0
    }
    if (path == "while") {
        condition()
        block()
        return 0
    }
    if (path == "loop") {
        block()
        return 0
    }
    if (path == "for") {
        pattern("in", "in", "in")
        p++
        expression(0, 1)
        block()
        return 0
    }
    if (path == "match") return choice(i)
    if (path == "return" || path == "break" || path == "continue") {
        if (T[p] == "'") p += 2
        if (!ends()) expression(0, bare)
        return 0
    }
    if (path in begins_item || path ~ /^(let|else|in|as|mut|ref|move|where|async|await|dyn|yield)$/) stop("'" path "' stands where a value should")
    while (T[p] == "::") {
        p++
        path = path "::" need_name()
    }
    if (T[p] == "(") {
        arguments()
        call(path, i)
        return 0
    }
    if (T[p] == "!") stop("a macro")
    if (T[p] == "{" && !bare) return made(path, i)
    return named(path, i)
}

function condition() {
    if (T[p] == "let") {
        p++
        pattern("=", "=", "=")
        p++
    }
    expression(0, 1)
}

function choice(i,    arms) {
    expression(0, 1)
    need("{")
    while (T[p] != "}") {
        arms += pattern("=>", "=>", "=>")
        p++
        if (T[p] == "{") {
            block()
            if (T[p] == ",") p++
        } else {
            expression(0, 0)
            if (T[p] != "}") need(",")
        }
    }
    p++
    if (arms > most) fault(i, "a match of " arms " patterns, more than " most ": a compiler makes a table of it")
    return 0
}

function arguments() {
    need("(")
    while (T[p] != ")") {
        expression(0, 0)
        if (T[p] != ")") need(",")
    }
    p++
}

# A struct, field by field.
function made(path, i,    full, field) {
    full = absolute(path, mod)
    if (!(full in type_of || parent_of(full) in type_of)) {
        p = i
        stop("the type " path " is in none of the files")
    }
    need("{")
    while (T[p] != "}") {
        field = p
        if (T[p] == "..") {
            p++
            expression(0, 0)
        } else {
            need_name()
            if (T[p] == ":") {
                p++
                expression(0, 0)
            } else named(T[field], field)
        }
        if (T[p] != "}") need(",")
    }
    p++
    return 0
}

# Elements one by one are a table if they are constants. A value and a length are a line of words to work on, and a table in a constant.
function array(    i, count, constant_) {
    i = p++
    constant_ = 1
    while (T[p] != "]") {
        constant_ = expression(0, 0) && constant_
        count++
        if (T[p] == ";" && count == 1) {
            p++
            count = size()
            need("]")
            if (in_constant) table(i, count, text_of(i, p - 1))
            return 0
        }
        if (T[p] != "]") need(",")
    }
    p++
    if (constant_ || count > most) table(i, count + 0, text_of(i, p - 1))
    return 0
}
