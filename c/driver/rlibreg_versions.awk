# Makes one version script of all, which names no version: symbols that any script has global or local
# stay so, and symbols that are both are global. A line of the character FS follows each script. A
# script that is refused, such as for a symbol with two versions, ends it with 1 and a line of the
# script's number and the reason.
#
# Of emulated thread-local data a variable `x` has the symbol `__emutls_v.x`. If the variable `emulated` is
# set, the scripts' names get such names beside them.

function fail(why) {
    print script " " why
    failed = 1
    exit 1
}
# The next token: a string, a mark, a label, or a pattern.
function take() {
    sub(/^[ \t\r\n]+/, "", text)
    if (!match(text, /^"[^"]*"/) && !match(text, /^(global|local)[ \t\n]*:/) &&
        !match(text, /^[{};]/) && !match(text, /^[^ \t\r\n{};"]+/))
        fail("it ends within a version")
    token = substr(text, 1, RLENGTH)
    text = substr(text, RLENGTH + 1)
    return token
}
# A pattern of this scope, and of a language where that is not C.
function add(pattern, language) {
    key = language SUBSEP pattern
    if (scope == "local") locals[key] = 1
    else if (key in globals && globals[key] != version && pattern !~ /[*?[]/)
        fail(pattern " has two versions, " globals[key] " and " version)
    else globals[key] = version
}
function block(language) {
    while (take() != "}") {
        if (token ~ /^global[ \t\n]*:/) scope = "global"
        else if (token ~ /^local[ \t\n]*:/) scope = "local"
        else if (token == "extern") { inner = take(); take(); block(inner) }
        else if (token != ";") add(token, language)
    }
}
function write(patterns, label, parts, key, first) {
    for (key in patterns) {
        if (!first++) print label ":"
        split(key, parts, SUBSEP)
        if (parts[1] != "") {
            print "  extern " parts[1] " { " parts[2] "; };"
            continue
        }
        print "  " parts[2] ";"
        if (emulated && parts[2] ~ /^[^"*]/) print "  __emutls_v." parts[2] ";"
    }
}
function read_script() {
    script++
    gsub(/\/\*([^*]|\*+[^*\/])*\*+\//, " ", text)
    gsub(/#[^\n]*/, "", text)
    while (text ~ /[^ \t\r\n]/) {
        version = take() == "{" ? "none" : token
        if (token != "{" && take() != "{") fail("it is no version script")
        scope = "global"
        block("")
        while (take() != ";") continue
    }
    text = ""
}
$0 == "\034" { read_script(); next }
{ text = text $0 "\n" }
END {
    if (failed) exit 1
    for (key in globals) delete locals[key]
    print "{"
    write(globals, "global")
    write(locals, "local")
    print "};"
}
