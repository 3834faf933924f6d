#!/bin/sh
# package.sh [FOLDER]: makes a Debian package of the released program in a folder (the present one without the word): the program, its manual page, the
# completions, the page for browsers, README, all pages of docs/, and the examples. It wants dpkg-deb. The command robin is a short script: it runs the program
# as ./robin does, so that Ctrl-C ends a long command with its best season.
top=$(cd "$(dirname "$0")/.." && pwd) || exit 1
to=$(cd "${1:-.}" && pwd) || exit 1
(cd "$top/release" && sha256sum -c --quiet SHA256SUMS) || { echo "package: release/robin is not the file that release/SHA256SUMS names" >&2; exit 1; }
version=$("$top/release/robin" --version | sed 's/^robin //') || exit 1
room=$(mktemp -d) || exit 1
trap 'rm -rf "$room"' EXIT
chmod 755 "$room"

# put MODE FILE PLACE: copies a file of the repository into the package.
put() {
    install -D -m "$1" "$top/$2" "$room/$3"
}

# Prints the command robin: the last step of ./robin, on the program of the package.
launcher() {
    echo '#!/bin/sh'
    sed -n '/^become() {$/,/^}$/p' "$top/robin"
    echo 'become /usr/lib/robin/robin "$@"'
}

grep -q '^become() {$' "$top/robin" || { echo "package: ./robin has no function become" >&2; exit 1; }
put 755 release/robin usr/lib/robin/robin && mkdir -p "$room/usr/bin" && launcher >"$room/usr/bin/robin" && chmod 755 "$room/usr/bin/robin" &&
    put 644 share/robin.1 usr/share/man/man1/robin.1 && gzip -9n "$room/usr/share/man/man1/robin.1" &&
    put 644 share/robin.bash usr/share/bash-completion/completions/robin &&
    put 644 share/_robin usr/share/zsh/vendor-completions/_robin || exit 1
put 644 release/robin.html usr/share/robin/robin.html || exit 1
for page in README.md CHANGELOG.md "$top"/docs/*.md; do
    page=${page#"$top"/}
    put 644 "$page" "usr/share/doc/robin/$page" || exit 1
done
for example in "$top"/examples/*; do
    mode=644
    [ -x "$example" ] && mode=755
    put "$mode" "examples/$(basename "$example")" "usr/share/doc/robin/examples/$(basename "$example")" || exit 1
done
mkdir "$room/DEBIAN" && cat >"$room/DEBIAN/control" <<END || exit 1
Package: robin
Version: $version
Architecture: amd64
Maintainer: The founders of robin <robin@localhost>
Depends: libc6
Section: misc
Priority: optional
Description: timetabler and validator for sports leagues
 robin judges and finds seasons of double round robins in RobinX form, says
 which demands contradict each other, and writes proofs that it also checks.
END
dpkg-deb --root-owner-group --build "$room" "$to/robin_${version}_amd64.deb"
