# page.sh finds the commands of a document. Other scripts read it.

# commands PAGE [SECTION FIRST]: prints all commands of the page, or those of a section that begin with
# the command that contains FIRST, up to the next line that is no command.
commands() {
    awk -v section="${2:-}" -v first="${3:-}" '
        /^## / {inside = substr($0, 4) == section}
        !/^    \$ / {block = 0; next}
        first == "" || inside && index($0, first) {block = 1}
        block {print substr($0, 7)}' "$1" | grep .
}
