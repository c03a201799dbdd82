#!/usr/bin/env bash
# The package for Python, by the interpreter that PYTHON names: its tests and examples as it lies here, and once pip has
# installed it from its folder without a network. ENVY_KILLS says how many processes of each kind are killed.
#
#   python.sh FOLDER      a folder to work in
set -eu
work=$(cd "$1" && pwd)
cd "$(dirname "$0")/../python"
here=$PWD
python=${PYTHON-python3}
export PYTHONDONTWRITEBYTECODE=1
# tried FOLDER TESTS: the tests, of the package in a folder
tried() {
    (cd "$2" && PYTHONPATH=$1 "$python" -W error::DeprecationWarning -m unittest discover -s tests -t .) >"$work/python.said" 2>&1 ||
        { cat "$work/python.said" >&2 && return 1; }
    grep '^Ran' "$work/python.said"
}
# (here it finds the library of the repository by itself)
unset ENVY_LIBRARY
said=$(tried "$here" "$here")
echo "python: $said, as the package lies here"
if ! "$python" -m pip --version >/dev/null 2>&1; then
    echo "python: the package wasn't installed: $python has no pip" >&2
    exit 0
fi
"$python" -m pip --disable-pip-version-check install --quiet --no-index --root-user-action=ignore --target "$work/site" "$here"
mkdir "$work/copied" && cp -r tests "$work/copied"
export ENVY_LIBRARY=$here/../../c/out/libenvy.so.0
(cd "$work" && PYTHONPATH=$work/site "$python" -c 'import envy, sys; sys.exit(not envy.__file__.startswith(sys.argv[1]))' "$work/site")
said=$(ENVY_KILLS=2 tried "$work/site" "$work/copied")
echo "python: $said, installed by pip"
