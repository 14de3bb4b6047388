#!/usr/bin/env bash
# `make run`: plans whose paths have spaces and quotes, plans that are not there, what it shows of proving and
# where that fails, and that nothing is installed for it.
set -euo pipefail
cd "$(dirname "$0")/.."
unset MAKEFLAGS MAKELEVEL PLAN # of the make that runs this
fail() { echo "run.sh: $*" >&2; exit 1; }

# Outside the checkout, where rt takes no second repository.
top=$(mktemp -d)
trap 'rm -rf "$top"' EXIT
dir="$top/my plans"
mkdir -p "$dir/repo/bin" "$dir/repo/crates/list"
for name in "a b.plan" "the keeper's \"own\".plan"; do
    cp examples/ring-leaks.plan "$dir/$name"
    make run PLAN="$dir/$name" | cmp - examples/ring-leaks.listing || fail "make run PLAN=$dir/$name"
done
PLAN="$dir/a b.plan" make run | cmp - examples/ring-leaks.listing || fail "PLAN=$dir/a b.plan make run"

# refused PLAN MESSAGE: it says that, and fails
refused() {
    if make run PLAN="$1" >"$dir/said" 2>&1; then fail "PLAN=$1 is no error"; fi
    grep -qxF "make run: $2" "$dir/said" || fail "PLAN=$1: $(cat "$dir/said")"
}
refused "$dir/no such.plan" "there is no file '$dir/no such.plan'"
refused "" "there is no file ''"
refused "$dir" "'$dir' cannot be read"

case $(make -n run) in *apt-get*) fail "make run installs something" ;; esac

# A repository where nothing is built, and a kit that is told how proving ends.
cp -R Makefile README.md crates.txt examples "$dir/repo"
cat >"$dir/repo/bin/rt" <<'END'
#!/bin/sh
[ "$1" != version ] || exit 0
mkdir -p out
cp /bin/true out/list
echo "rt: laws proved (1 s)"
echo "a note of the prover"
exit "$ENDS"
END
chmod +x "$dir/repo/bin/rt"
says() { grep -qxF "$1" "$dir/said"; }
runs() { (cd "$dir/repo" && ENDS=$1 PATH=$PWD/bin:$PATH make run) >"$dir/said" 2>&1; }

if runs 1; then fail "what is not proved is run"; fi
says "a note of the prover" || fail "where a proof fails, the prover's notes are not shown"
[ ! -e "$dir/repo/target/bin/list" ] || fail "what is not proved is left there"
runs 0 || fail "what is proved is not run"
says "rt: laws proved (1 s)" || fail "it does not show which crate is proved"
! says "a note of the prover" || fail "it shows the prover's notes"
