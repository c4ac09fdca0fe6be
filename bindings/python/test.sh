#!/bin/sh
# Runs the module's tests and its example twice: with an interpreter that has numpy, and with one
# that has none or from which it is hidden. Then checks the types with mypy. Says what was run, and
# what could not be.
# Run from the repository's root; PYTHON is the interpreter to try first, KOVRELNA_LIBRARY the
# shared library.
set -eu
work=$(mktemp -d)
trap 'rm -rf "$work"' EXIT
echo 'raise ModuleNotFoundError("numpy is hidden")' >"$work/numpy.py"
here=bindings/python

# run INTERPRETER WORDS [FOLDER]: the tests and the example, with the modules of that folder first.
run() {
  echo "python: $1 ($("$1" -c 'import platform; print(platform.python_version())')), $2"
  (
    export PYTHONPATH="${3:+$3:}$here"
    "$1" -B -W error -m unittest discover -q -s $here/tests
    "$1" -B $here/example.py >"$work/example.txt"
    diff $here/example.txt "$work/example.txt"
  )
}

with="" without=""
for python in "${PYTHON:-python3}" python3 /usr/bin/python3; do
  python=$(command -v "$python") || continue
  if "$python" -c 'import numpy' 2>/dev/null; then
    with=${with:-$python}
  else
    without=${without:-$python}
  fi
done
if [ -n "$with" ]; then
  run "$with" "with numpy $("$with" -c 'import numpy; print(numpy.__version__)')"
else
  echo "python: NOT TESTED with numpy: no interpreter here has it (Debian: python3-numpy)"
fi
if [ -n "$without" ]; then
  run "$without" "without numpy"
else
  run "$with" "with numpy hidden" "$work"
fi

# Strict types. In typed.py each line that must be refused says so, and is refused, or else mypy
# warns of it.
if command -v mypy >/dev/null; then
  MYPYPATH=$here mypy --strict --no-error-summary --cache-dir "$work/types" \
    $here/kovrelna $here/example.py $here/tests/typed.py
  echo "python: types checked by $(mypy --version)"
else
  echo "python: NOT CHECKED: types, for want of mypy (Debian: mypy)"
fi
