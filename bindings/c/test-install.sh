#!/bin/sh
# Installs into a temporary place, builds example.c there through pkg-config, with the shared
# library and with the archive, and compares what it prints with example.txt; the same with the
# Python example. Then checks what the shared library exports, that every version is the same, that
# the header's words are the README's, that unfit places are refused, and that make uninstall leaves
# nothing.
# Run from the repository's root: test-install.sh VERSION.
set -eu
unset MAKEFLAGS
version=$1
work=$(mktemp -d)
trap 'rm -rf "$work"' EXIT
prefix=$work/prefix

fail() {
  echo "install: $*" >&2
  exit 1
}

# The files below a folder, one a line.
files() { (cd "$1" && find . ! -type d | sort); }

(umask 077 && make --no-print-directory install install-python PREFIX="$prefix" >/dev/null)
export PKG_CONFIG_PATH="$prefix/lib/pkgconfig"
found=$(pkg-config --modversion kovrelna)
[ "$found" = "$version" ] || fail "pkg-config has version $found, not $version"

cflags="-std=c99 -O2 -Wall -Wextra -Wpedantic -Werror $(pkg-config --cflags kovrelna)"
${CC:-cc} $cflags bindings/c/example.c $(pkg-config --libs kovrelna) -o "$work/shared"
${CC:-cc} $cflags bindings/c/example.c "$(pkg-config --variable=archive kovrelna)" -o "$work/static"
LD_LIBRARY_PATH="$prefix/lib" "$work/shared" | diff bindings/c/example.txt - \
  || fail "the example prints something else with the shared library"
"$work/static" | diff bindings/c/example.txt - \
  || fail "the example prints something else with the archive"
if "$work/shared" >/dev/null 2>&1; then fail "the example does not load the shared library"; fi
env -u KOVRELNA_LIBRARY PYTHONPATH="$prefix/lib/kovrelna-python" \
  "${PYTHON:-python3}" -B <bindings/python/example.py | diff bindings/python/example.txt - \
  || fail "the Python example prints something else"
closed=$(find "$prefix" ! -type l ! -perm -444)
[ -z "$closed" ] || fail "not everybody may read $closed"

# Refused at once: before anything is built.
for place in relative "$work/a space" ""; do
  for goal in install install-cli install-python uninstall; do
    told=$(make --no-print-directory -n "$goal" PREFIX="$place" ARCHIVE="$work/none" 2>&1 || true)
    [ "${told#*PREFIX must be an absolute path}" != "$told" ] && [ "$(echo "$told" | wc -l)" = 1 ] \
      || fail "make $goal PREFIX='$place' is not refused at once: $told"
  done
done

# The causes in words: those of the README's table of refusals.
cat >"$work/causes.c" <<'END'
#include <kovrelna.h>
#include <stdio.h>
int main(void) {
  uint32_t number;
  for (number = 1; number <= KOVRELNA_REFUSED_VIEW; number++)
    printf("%u: %s\n", (unsigned)number, kovrelna_cause(number));
  return 0;
}
END
${CC:-cc} $cflags "$work/causes.c" -o "$work/causes"
sed -n 's/`//g; s/^| \([0-9]*\) | \([^|]*\) | [^|]* |$/\1: \2/p' README.md >"$work/causes.txt"
"$work/causes" | diff "$work/causes.txt" - || fail "the header has other causes than README.md"

# Exported: what the header declares. Needed from outside: no allocation.
sed -n 's/^kovrelna_[a-z_]* \(kovrelna_[a-z_]*\)(.*/\1/p' "$prefix/include/kovrelna.h" | sort \
  >"$work/declared"
nm -D --defined-only "$prefix/lib/libkovrelna.so" | sed 's/.* //' | sort >"$work/exported"
diff "$work/declared" "$work/exported" || fail "the header declares other calls than are exported"
nm -D --undefined-only "$prefix/lib/libkovrelna.so" | sed 's/@.*//' >"$work/needed"
if grep -wE 'malloc|calloc|realloc|free' "$work/needed"; then fail "the library allocates"; fi

# stated FILE LINE: the file has this line, which names the version.
stated() { grep -qxF "$2" "$1" || fail "$1 has another version than $version: it has no line $2"; }
for file in bindings/rust/Cargo.toml bindings/rust/*/Cargo.toml; do
  stated "$file" "version = \"$version\""
done
stated bindings/python/kovrelna/__init__.py "__version__ = \"$version\""
stated bindings/c/kovrelna.h "#define KOVRELNA_VERSION \"$version\""

make --no-print-directory install install-python DESTDIR="$work/stage" PREFIX=/opt/kovrelna >/dev/null
files "$prefix" >"$work/installed"
files "$work/stage/opt/kovrelna" | diff "$work/installed" - || fail "DESTDIR has other files"
grep -qx 'prefix=/opt/kovrelna' "$work/stage/opt/kovrelna/lib/pkgconfig/kovrelna.pc" \
  || fail "DESTDIR is in kovrelna.pc"
make --no-print-directory uninstall PREFIX="$prefix" >/dev/null
[ -z "$(files "$prefix")" ] || fail "uninstall leaves $(files "$prefix")"
[ ! -e "$prefix/lib/kovrelna-python" ] || fail "uninstall leaves the module's folder"
echo "install: ok"
