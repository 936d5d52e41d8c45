#!/usr/bin/env bash
# manual.sh FOLDER DOCUMENTS makes the manual pages rlibreg.1, rlibreg-tool.1, rlibreg-run.1,
# rlibreg-gcc.1, rlibreg-switch.1 and rlibreg.3 from docs/COMMANDS.md, docs/TOOL.md, docs/LINKING.md,
# docs/DEVICES.md and docs/C.md, by pandoc, and the pages of the calls from rlibreg.h, by python3. It
# prints the pages that it leaves out. The pages say that the documents are in the folder DOCUMENTS.
set -eu
cd "$(dirname "$0")/../../docs"
folder=$1
documents=$2
version=$(../c/version.sh)
if command -v python3 > /dev/null; then
    python3 -B ../c/install/manual_calls.py "$folder" "$version"
else
    echo 'left out: the manual pages of the calls, which python3 makes'
fi
if ! command -v pandoc > /dev/null; then
    echo 'left out: the other manual pages, which pandoc makes'
    exit 0
fi

# page NAME SECTION WHAT: makes a manual page from the Markdown on standard input, whose sections begin
# with `##`. A link to a document that has a manual page becomes the name of that page; any other link
# becomes the document's name. Words aren't hyphenated and lines aren't justified, so that the text can be
# searched.
page() {
    {
        printf '# %s(%s)\n\n## Name\n\n%s - %s\n\n' "$1" "$2" "$1" "$3"
        sed 's/\[C\](C\.md)/rlibreg-run(1)/g; s/\[\([A-Z]*\)\]([A-Z]*\.md)/\1/g; s/`docs\/\([A-Z]*\)\.md`/\1/g
            s/\bCOMMANDS\b/rlibreg(1)/g; s/\bTOOL\b/rlibreg-tool(1)/g'
        cat << END

## See also

rlibreg(1), rlibreg-gcc(1), rlibreg-run(1), rlibreg-switch(1), rlibreg-tool(1), rlibreg(3).

GUIDE, LINKING and other names in capital letters are documents in \`$documents\`; files of
\`c\` and \`crates\` are those of the source.
END
    } | pandoc -f gfm -t man -s --lua-filter ../c/install/manual.lua --shift-heading-level-by=-1 \
        -M hyphenate=false -V adjusting=l -V "header=$1 $version" -V "footer=rlibreg $version" \
        -o "$folder/$1.$2"
}

awk '/^## Synopsis/ {inside = 1} inside' COMMANDS.md |
    page rlibreg 1 'keeps a registry of shared libraries, and binds programs'
awk '/^## Synopsis/ {inside = 1} inside' TOOL.md |
    page rlibreg-tool 1 'shows, copies and changes what is on the disk of a registry'

# section PAGE NAME: prints the section of a page about a program; the section begins with the program's
# arguments.
section() {
    awk -v name="$2" '/^## / {inside = $2 == name; if (inside) print "## Synopsis"; next}
        inside && /^[^ ]/ && !body++ {print "## Description\n"}
        inside' "$1.md"
}
section C rlibreg-run | page rlibreg-run 1 'starts a program with the libraries of a registry'
section LINKING rlibreg-gcc | page rlibreg-gcc 1 'compiles and links what a registry takes'
section DEVICES rlibreg-switch | page rlibreg-switch 1 'changes a registry by way of a second disk'

# The other sections of docs/C.md.
{
    cat << 'END'
## Synopsis

    #include <rlibreg.h>

    $ cc .. $(pkg-config --cflags --libs rlibreg)

Each call has a page of its own, such as rlibreg_open(3), and rlibreg.h(3) says what holds of all.

END
    awk '/^## / {body = 1; inside = $2 == "rlibreg-run"} body && !inside' C.md
} | page rlibreg 3 'a registry of shared libraries, for C'
