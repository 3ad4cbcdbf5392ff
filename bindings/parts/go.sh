# The package for Go. bindings/check reads it, in the folder bindings; what is made goes to $out.

step "Go"
if [ "$plain" ] && command -v go > /dev/null; then
    ./check_go
elif command -v go > /dev/null && command -v gofmt > /dev/null; then
    badly="$(gofmt -l go)"
    if [ -n "$badly" ]; then
        echo "Go: gofmt would change" $badly >&2
        exit 1
    fi
    export GOCACHE="$PWD/out/go_cache" GOFLAGS=-mod=mod GOPROXY=off IPNETWORK_ROWS="$rows"
    # The check of pointers that cgo passes is chosen as a program is started, and from Go 1.21 on as it is built.
    case "$(go env GOVERSION)" in
        go1.19* | go1.20*) checked="GODEBUG=cgocheck=2" ;;
        *) checked="GOEXPERIMENT=cgocheck2" ;;
    esac
    (cd go && go vet ./... && env "$checked" go test -count=1 -v . &&
        GOGC=1 go test -count=1 -run 'Stacks|Profiled|Each|ManyRows' .) > "$out/go.log" 2>&1 ||
        { cat "$out/go.log" >&2; exit 1; }
    grep '^Go:' "$out/go.log"
    sed -nE 's/^ *--- SKIP: ([^ ]*).*/Go: \1: skipped, since it says so in bindings\/out\/go\/go.log/p' "$out/go.log"
    if (cd go && go test -race -run NONE .) > $out/go_race.log 2>&1; then
        (cd go && IPNETWORK_ROWS=10000 go test -race -count=1 .) > $out/go_race.log 2>&1 ||
            { cat $out/go_race.log >&2; exit 1; }
        echo "Go: the race detector finds nothing"
    else
        skip "Go: the race detector" "go test -race that works" "libc6-dev, gcc"
    fi
    if (cd go && CGO_ENABLED=0 go build .) 2> $out/go_without_cgo.log || ! grep -q 'undefined: .*_needs_cgo_' $out/go_without_cgo.log; then
        echo "Go: without cgo the compiler should say that the package needs it" >&2
        exit 1
    fi
    GOFLAGS='' ./check_go
    if [ "$measure" = yes ]; then
        (cd go && go test -run none -bench . -benchtime 200ms)
    fi
else
    skip Go "go" "golang-go"
fi
