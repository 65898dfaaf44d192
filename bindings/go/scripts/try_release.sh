#!/bin/sh
# Tries the module for Go of a release: takes it from a proxy of files, in the folder in which this is
# called.
#
#     bindings/go/scripts/try_release.sh RELEASE <TEXT
#
# It runs the first program of docs/use/go.md, and compares what that prints. Then it prints the tokens
# of the text, a line "BEGIN-END KIND" for each. RUN_BY names what runs programs for another system,
# as wine. The exit status is 3 where a tool or the module is missing; standard error names it.
set -eu

release=$1
top=$(CDPATH='' cd -- "$(dirname -- "$0")/../../.." && pwd)
page="$top/docs/use/go.md"
version=$(cat "$top/VERSION")
module="$release/starlarklexer-go-$version.zip"
[ -f "$module" ] || { echo 'there is no module for Go' >&2 && exit 3; }
for tool in go cc unzip; do
    command -v $tool >/dev/null || { echo "there is no $tool" >&2 && exit 3; }
done

# Runs the program main.go of the folder, which is a module of its own.
run() {
    go mod init tool 2>>../said
    go get "example.org/starlarklexer@v$version" 2>>../said
    go run ${RUN_BY:+-exec "$RUN_BY"} .
}

unzip -q "$module" -d proxy
export GOFLAGS='-mod=mod -modcacherw' GOPROXY="file://$PWD/proxy" GOSUMDB=off GOTOOLCHAIN=local GOWORK=off
export GOPATH="$PWD/gopath" GOCACHE="$PWD/cache"
mkdir first second
awk '/^```go$/ { inside = 1; next } /^```$/ { if (inside) exit } inside' "$page" >first/main.go
awk '/^`go run .` prints$/ { after = 1; next } after && /^    / { print substr($0, 5); next } after && NF { exit }' \
    "$page" >wanted
(cd first && run) | sed 's/ *$//' >printed || { cat said >&2 && exit 1; }
diff wanted printed >&2 || { cat said >&2 && exit 1; }
[ -s wanted ] || { echo 'the page has no program' >&2 && exit 1; }
cp "$top/release/try/main.go" second
(cd second && run) || { cat said >&2 && exit 1; }
