# Tests the Python module: its types, the stored cases for which it has calls, properties that no stored
# case can express, and the page docs/PYTHON.md, whose commands and lines of Python have to print the
# lines below them. It also tests the module's wheel, and the module's message if its library isn't
# there.

if [ -n "$musl" ] || ! command -v python3 > /dev/null; then
    echo 'skipped: the Python module, which needs python3, and a library with its C library'
    exit 0
fi
module=$here/../../python
page=$here/../../docs/PYTHON.md
export LD_LIBRARY_PATH=$built PYTHONPATH=$module RLIBREG_TOOL=$built/rlibreg-tool
if command -v mypy > /dev/null; then
    mypy --strict --cache-dir mypy "$module/rlibreg" > types || { cat types >&2; exit 1; }
else
    echo "skipped: the types of the Python module, which mypy tests"
fi
python3 -B "$module/tests/run_cases.py" .
(
    export PYTHONPATH=$module:$module/tests
    python3 -B -X dev -W error -m unittest test_module test_handlers
) 2> unittest || { cat unittest >&2; exit 1; }
mkdir python.files
cd python.files
eval "$(sed -n 's/^    \$ //p' "$page")"
python3 -B -m doctest "$page"
cd ..

# imported FOLDER: prints the last line of Python's output if Python searches this folder first for
# the library.
imported() {
    LD_LIBRARY_PATH=$1 python3 -B -c 'import rlibreg' 2>&1 | tail -n 1
}
name=librlibreg.so.$("$here/../version.sh" | sed 's/\.[0-9]*$//')
calls="ImportError: rlibreg $("$here/../version.sh") calls"
mkdir python.empty python.another
echo > "python.empty/$name"
touch "python.empty/librlibreg.so.0.1"
found=$(imported "$PWD/python.empty")
[[ $found == "$calls $name, "*"($PWD/python.empty)"*"python.empty/$name: "*" there is $PWD/python.empty/librlibreg.so.0.1, "* ]] ||
    { echo "where the library is damaged Python says $found" >&2; exit 1; }
echo 'unsigned rlibreg_version(void) { return 0; }' | gcc -shared -fPIC -o "python.another/$name" -x c -
want 'a library that lacks a call' \
    "$calls a later $name, with rlibreg_status_name: the loader has taken $PWD/python.another/$name" \
    "$(imported python.another)"

if python3 -c 'import setuptools, pip, sys, wheel
sys.exit(int(setuptools.__version__.split(".")[0]) < 61)' 2> /dev/null; then
    cp -r "$module" python.source
    python3 -B -m pip -q wheel --no-index --no-build-isolation --no-deps -w python.wheels ./python.source > told 2>&1 &&
        python3 -B -m pip -q install --no-index --no-deps --target python.packages python.wheels/*.whl > told 2>&1 ||
        { cat told >&2; exit 1; }
    want 'the version of the wheel' "rlibreg-$("$here/../version.sh")-py3-none-any.whl" "$(ls python.wheels)"
    want 'the module of the wheel' "$(ls "$module/rlibreg" | grep -v __pycache__)" "$(ls python.packages/rlibreg | grep -v __pycache__)"
    PYTHONPATH=$PWD/python.packages:$module/tests python3 -B -m unittest test_module.Header test_module.Contents \
        2> told || { cat told >&2; exit 1; }
else
    echo 'skipped: the wheel of the Python module, which pip, setuptools (61 or later) and wheel make'
fi
echo "python: $(sed -n 's/^Ran \([0-9]* tests\) .*/\1/p' unittest) of the module, and its page"
