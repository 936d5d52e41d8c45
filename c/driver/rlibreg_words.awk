# Prints the words of a file that gcc or a linker is given as `@FILE`, each followed by the byte 0. Blanks
# separate words, except within quotes and after a backslash, which quotes a character within quotes too.
# A full stop follows as the last word: if it is missing, there was no room for all words.

function finish() {
    if (begun) printf "%s%c", word, 0
    word = ""
    begun = 0
}
{
    count = length($0)
    for (at = 1; at <= count; at++) {
        one = substr($0, at, 1)
        if (escaped || (quote != "" && one != quote && one != "\\")) {
            word = word one
            escaped = 0
        } else if (one ~ /[ \t\r\f\v]/) {
            finish()
        } else {
            begun = 1
            if (one == "\\") escaped = 1
            else if (one == quote) quote = ""
            else if (one == "\"" || one == "\047") quote = one
            else word = word one
        }
    }
    if (!escaped && quote == "") finish()
    else word = word "\n"
    escaped = 0
}
END {
    finish()
    printf ".%c", 0
}
