#!/usr/bin/env bash
# Proves and builds the program of the last commit in a new folder, from nothing, and makes its Debian package there. No
# commit can name itself, so the version of a program that `make` built in a checkout says "checkout". Here the commit
# stands in its place, in the body and in the contracts that name it, and is proved with them.
#
# Usage: package/release.sh FOLDER
# The folder must not exist, and no folder above it may have a crates.txt. It takes as long as the first `make`. Whoever
# makes the release of the same commit with the same kit gets the same bytes. The last lines, which are also in
# FOLDER/release.txt, are those to publish: the commit, the kit, and the SHA-256 of the program and of the package.
set -eu
[ $# = 1 ] && [ -n "$1" ] || { echo "Usage: package/release.sh FOLDER, or make release TO=FOLDER" >&2; exit 2; }
mkdir "$1"
folder=$(cd "$1" && pwd)
cd "$(dirname "$0")/.."
[ -z "$(git status --porcelain)" ] || { echo "there are changes that are not committed" >&2; exit 1; }

version=crates/registry_arguments/src/program.rt
commit=$(git rev-parse --short=12 HEAD)
git archive HEAD | tar -x -C "$folder"
if [ "$(grep -c '0\.1\.0 (checkout, ' "$folder/$version")" != 3 ]; then
    echo "$version: the version has to stand there three times" >&2
    exit 1
fi
sed -i "s/0\.1\.0 (checkout, /0.1.0 (commit $commit, /" "$folder/$version"
make -C "$folder"
install -m 755 "$folder/crates/registry_cli/out/registry_cli" "$folder/usbreg"
package=$(package/build.py --program "$folder/usbreg" --into "$folder")

cd "$folder"
{
    echo "commit $(git -C "$OLDPWD" rev-parse HEAD)"
    echo "kit $(rt version)"
    sha256sum usbreg "$(basename "$package")"
} | tee release.txt
