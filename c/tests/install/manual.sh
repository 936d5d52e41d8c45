# Tests the manual pages on a terminal of 80 columns: each refusal is on one line with its number and its
# name, each call has a page with its declaration and its statuses, and every page to which another page
# refers is made.

for tool in python3 man; do
    if ! command -v $tool > /dev/null; then
        echo "skipped: the manual pages, which are not made or shown without $tool"
        exit 0
    fi
done
docs=$here/../../docs
mkdir manual
"$here/../install/manual.sh" "$PWD/manual" /somewhere > told
cat told
for page in manual/*.[13]; do
    MANWIDTH=80 MANROFFOPT=-ww man -E UTF-8 -l "$page" > "$page.shown" 2> told
    want "what man says of $page" '' "$(cat told)"
done

# shown PAGE NAME..: checks that each NAME begins a line of the page, with or without more words after
# it.
count=0
shown() {
    local page=$1 name
    shift
    for name; do
        grep -qE "^ +$name( [A-Z ]+|, .*)?\$" "manual/$page.shown" ||
            { echo "$page has no line '$name'" >&2; exit 1; }
        count=$((count + 1))
    done
}
if [ -f manual/rlibreg.1 ]; then
    mapfile -t refusals < <(grep -ohE '\b[EBCSL][0-9]+ [A-Z][A-Za-z]+' "$docs/COMMANDS.md" \
        "$here/../library/rlibreg_status.c" | sort -u)
    shown rlibreg.1 "${refusals[@]/#/"(refused (B1 )?)?"}"
    mapfile -t refusals < <(sed -n 's/^| `\(refused [A-Za-z]*\).*/\1/p' "$docs/TOOL.md")
    shown rlibreg-tool.1 "${refusals[@]}"
    [ $count -gt 60 ] || { echo "there are only $count refusals" >&2; exit 1; }
    for name in $(grep -ohE '\brlibreg(-[a-z]+)?\([0-9]\)' manual/*.shown | tr '()' '. ' | sort -u); do
        [ -f "manual/$name" ] || { echo "a page names $name" >&2; exit 1; }
    done
fi

# The calls, compared with their declarations.
want 'lines that are too long' '' "$(cat manual/rlibreg.h.3.shown manual/rlibreg_*.shown | grep -E '.{81}')"
calls=0
while read -r declaration; do
    name=$(grep -o 'rlibreg_[a-z_]*(' <<< "$declaration")
    page=manual/${name%(}.3.shown
    tr -d ' \n' < "$page" | grep -qF "${declaration// /};" ||
        { echo "$page has no '$declaration'" >&2; exit 1; }
    grep -qF "${name%(} - " "$page" || { echo "$page doesn't say what it is about" >&2; exit 1; }
    calls=$((calls + 1))
done < <(gcc -w -fpreprocessed -E -P "$here/../rlibreg.h" | sed '/^#/d' | tr '\n;' ' \n' | grep -o '[a-z][a-z0-9_ *]*rlibreg_[a-z_]*(.*)$')
want 'pages of calls' $calls "$(ls manual/rlibreg_*.3 | wc -l)"
for name in $(grep -ohE '\brlibreg[a-z_.]*\(3\)' manual/rlibreg*.3.shown | sed 's/(3)/.3/' | sort -u); do
    [ -f "manual/$name" ] || [ ! -f manual/rlibreg.1 ] || { echo "a page names $name" >&2; exit 1; }
done

# The page about all calls: its headings, and the example, which has to be that of the header.
for head in EXAMPLE LAYERS LOCKS 'FAILED WRITES' 'STANDARD STREAMS' MEDIA 'THREADS AND MEMORY'; do
    grep -qx "$head" manual/rlibreg.h.3.shown || { echo "rlibreg.h.3 has no head '$head'" >&2; exit 1; }
done
want 'the example of rlibreg.h.3' "$(sed -n '/^ \* EXAMPLE$/,/^ \* LAYERS$/s/^ \*     //p' "$here/../rlibreg.h")" \
    "$(sed -n '/^EXAMPLE$/,/^LAYERS$/s/^ \{11\}//p' manual/rlibreg.h.3.shown)"

# statuses PAGE NUMBER..: checks the numbers of the statuses on the page of a call.
statuses() {
    want "the statuses of $1" "${*:2}" \
        "$(sed -n '/^ERRORS/,/^NOTES/s/^ *RLIBREG_[A-Z_]* (\([0-9]*\))$/\1/p' "manual/$1.3.shown" | xargs)"
}
statuses rlibreg_bind 1 101 102 103 104 105 303 305 306 311 312
statuses rlibreg_bindings 1 101 102 103 104 105 303 305 306 311 312
statuses rlibreg_executable 1 101 102 103 104 105 303 305 306 311 312 401 402 403 404 405 407 408 409
statuses rlibreg_plan_format 1 304 306 311
statuses rlibreg_plan_update 1 2 201 202 203 204 205 206 303 305 306 307 308 309 310 311 312
statuses rlibreg_open 2 3 4
statuses rlibreg_format 2 3 4 301 304 306 311
statuses rlibreg_remove 2 3 5 203 204 301 302 303 305 306 310 311 312
statuses rlibreg_update 2 3 5 201 202 203 204 205 206 301 302 303 305 306 307 308 309 310 311 312
statuses rlibreg_preview_bind 2 101 102 103 104 105 201 202 203 204 205 206 301 302 303 305 306 307 308 309 310 311 312
statuses rlibreg_bind_program 2 101 102 103 104 105 301 302 303 305 306 311 312
statuses rlibreg_get_bindings 2 101 102 103 104 105 301 302 303 305 306 311 312
statuses rlibreg_get_executable 2 101 102 103 104 105 301 302 303 305 306 311 312 401 402 403 404 405 407 408 409
statuses rlibreg_list 1 303 305 306 311 312
statuses rlibreg_file 1 203 303 305 306 311 312
statuses rlibreg_digest 1 203 303 305 306 311 312
statuses rlibreg_info 1 303 305 306 311 312
statuses rlibreg_check 1 303 305 306 311 312
statuses rlibreg_plan_upgrade 1 303 305 306 307 310 311
statuses rlibreg_plan_install 1 201 202 303 305 306 307 308 309 310 311 312
statuses rlibreg_plan_replace 1 201 203 303 305 306 307 308 310 311 312
statuses rlibreg_plan_remove 1 203 204 303 305 306 310 311 312
statuses rlibreg_plan_preload 1 2 203 205 206 303 305 306 310 311 312
statuses rlibreg_upgrade 2 3 5 301 302 303 305 306 307 310 311
statuses rlibreg_install 2 3 5 201 202 301 302 303 305 306 307 308 309 310 311 312
statuses rlibreg_replace 2 3 5 201 203 301 302 303 305 306 307 308 310 311 312
statuses rlibreg_preload 2 3 5 203 205 206 301 302 303 305 306 310 311 312
statuses rlibreg_get_listing 2 301 302 303 305 306 311 312
statuses rlibreg_get_file 2 203 301 302 303 305 306 311 312
statuses rlibreg_get_digest 2 203 301 302 303 305 306 311 312
statuses rlibreg_get_info 2 301 302 303 305 306 311 312
statuses rlibreg_check_libraries 2 301 302 303 305 306 311 312
statuses rlibreg_text
[ $count = 0 ] || echo "manual: $count refusals, each on one line of 80 columns"
echo "manual: $calls calls, each with its declaration and its statuses"
