#!/bin/sh
# Makes the release in dist/ anew, from the present sources as `rt ci` proves, builds and tests them: the program, its
# man page, completions, folders for editors, the library for other languages with its Python wheel, BUILT and
# SHA256SUMS. Then `git add dist`, and a commit.
#
# Refuses where the tree isn't clean, for what is committed is what is built; where README.md, CHANGELOG.md or the line
# of the kit doesn't go with the version; and where `rt ci` isn't green. Nothing that `rt ci` leaves says that it was, so
# this runs it: over kept proofs in about the time of the tests.
set -eu
cd "$(dirname "$0")/.."
git rev-parse --git-dir > /dev/null
own="dist/release.sh dist/manual.py dist/sources.sh"
program=crates/x10clock/out/x10clock
constants=crates/xk_cli/src/commands.rt

refuse() {
    echo "release: $1" >&2
    exit 1
}

# What isn't as it is committed; but an earlier release in dist/ may be in any state, as it goes.
changes() {
    git status --porcelain -- . ':(exclude)dist'
    # shellcheck disable=SC2086
    git status --porcelain -- $own
}

[ -z "$(changes)" ] || refuse "the tree isn't clean: git status"
number=$(sed -n 's/^const VERSION: &str = "\([0-9.]*\)";$/\1/p' $constants)
[ -n "$number" ] || refuse "$constants has no VERSION"
grep -qF "x10clock-$number-x86_64-linux" README.md || refuse "README.md has another version than $number"
grep -qE "^## $number( |\$)" CHANGELOG.md || refuse "CHANGELOG.md has no heading $number"
kit=$(rt version)
grep -qF "proved with $kit\"" $constants || refuse "$constants names another kit than $kit"
sources=$(sh dist/sources.sh)
said=$(mktemp)
made=$(mktemp -d)
trap 'rm -rf "$said" "$made"' EXIT
rt ci > "$said" 2>&1 || true
verdict=$(tail -n 1 "$said")
if ! echo "$verdict" | grep -qx '[1-9][0-9]* passed, 0 failed'; then
    tail -n 20 "$said" >&2
    refuse "rt ci isn't green"
fi
[ "$sources $(changes)" = "$(sh dist/sources.sh) " ] || refuse "the tree changed meanwhile"

version=$($program -V)
[ "$version" = "x10clock $number" ] || refuse "$program is $version"
cp "$program" "$made/x10clock-$number-x86_64-linux"
chmod 755 "$made/x10clock-$number-x86_64-linux"
python3 dist/manual.py --program "$program" --to "$made"
cp -R editors/vim "$made/vim"
cp -R editors/vscode "$made/vscode"
cp editors/textmate/x10clock.tmLanguage.json "$made/vscode"
sed "s/\"version\": \"0.0.0\"/\"version\": \"$number\"/" editors/vscode/package.json > "$made/vscode/package.json"
# The library: for C, and as a wheel for Python.
mkdir "$made/python"
python3 library/build.py "$made/lib"
python3 python/make_wheel.py "$made/lib" "$made/python"
# The newest version of a symbol that the program takes from the C library is the oldest library that has them all.
glibc=$(grep -ao 'GLIBC_2\.[0-9]*' "$program" | sort -u -t . -k 2n | tail -n 1)
cat > "$made/BUILT" << END
version $version
kit $kit
sources $sources
gate rt ci: $verdict
needs Linux, a processor with x86-64-v2, glibc ${glibc#GLIBC_} or later
END
(cd "$made" && find . -type f | LC_ALL=C sort | sed 's|^\./||' | xargs sha256sum) > "$said"
cp "$said" "$made/SHA256SUMS"
chmod 644 "$made/SHA256SUMS"

for old in dist/*; do
    case " $own " in
        *" $old "*) ;;
        *) rm -r "$old" ;;
    esac
done
cp -R "$made/." dist
cat dist/BUILT
python3 -m tests.program.release
