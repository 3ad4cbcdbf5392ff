# The steps of bindings/check for JavaScript, which that script reads after those for WebAssembly:
# they build the package into out/js and run its tests. node is here, and the library as WebAssembly
# is in out; the folder is bindings.

if [ "$(node -p 'process.versions.node.split(".")[0]')" -lt 18 ]; then
    skip JavaScript "node 18 or later" nodejs
    return
fi

rm -rf out/js out/js_wide
js_module="out/ipnetwork_js${plain:+_plain}.wasm"
node js/build.mjs "$js_module" out/js
node --expose-gc --test js/test/*.test.mjs > out/js.log 2>&1 || { cat out/js.log >&2; exit 1; }
echo "JavaScript: $(sed -n 's/^# pass //p' out/js.log) tests of the package"
echo "JavaScript: the package has $(cat out/js/* | wc -c) bytes"

# The example of its page, by import and by require.
for kind in js text; do
    sed -n "/^\`\`\`$kind\$/,/^\`\`\`\$/p" js/README.md | grep -v '^```' > "out/example.$kind"
done
mkdir -p out/js_user/node_modules
ln -sfn ../../js out/js_user/node_modules/ipnetwork
cp out/example.js out/js_user/example.mjs
sed "s/^import \(.*\) from \(.*\);/const \1 = require(\2);/" out/example.js \
    > out/js_user/example.cjs
for kind in mjs cjs; do
    (cd out/js_user && node "example.$kind") > out/example_said.text
    diff out/example.text out/example_said.text
done
echo "JavaScript: the example of README.md prints what the page shows, by import and by require"

if here "JavaScript: bundled" esbuild; then
    for platform in browser node; do
        for kind in mjs cjs; do
            esbuild --bundle --log-level=warning --platform=$platform "out/js_user/example.$kind" \
                --outfile=out/js_bundled.cjs
            node out/js_bundled.cjs > out/example_said.text
            diff out/example.text out/example_said.text
        done
    done
    echo "JavaScript: the same from one file, as esbuild makes it for browsers and for Node"
fi

# The same answers as the library for C, in both modules.
cc $strict -I c js/test/answers.c "$library" -o out/js_answers
js_rows=$((rows > 100000 ? 100000 : rows))
node js/test/against_c.mjs out/js_answers "$js_rows"
# FLAG..: whether node takes a module with a memory of 64 bits.
takes_wide() {
    node "$@" -e \
        'new WebAssembly.Module(Uint8Array.of(0, 97, 115, 109, 1, 0, 0, 0, 5, 3, 1, 4, 1))' 2> /dev/null
}
wide=""
takes_wide || wide=--experimental-wasm-memory64
if [ "$plain" ]; then
    skip "JavaScript: the module with a memory of 64 bits" "proved library"
elif takes_wide $wide; then
    node js/build.mjs out/ipnetwork64.wasm out/js_wide js/test/wide_instance.mjs
    echo "JavaScript: by the module with a memory of 64 bits, as it was before binaryen lowered it:"
    IPNETWORK_JS=out/js_wide node $wide js/test/against_c.mjs out/js_answers "$js_rows"
else
    skip "JavaScript: the module with a memory of 64 bits" "node that takes it" nodejs
fi

if here "JavaScript: types" tsc; then
    cp js/test/types.ts js/test/tsconfig.json out/js_user
    cp js/test/types.ts out/js_user/types.cts
    tsc -p out/js_user
    echo "JavaScript: tsc finds nothing, and the types refuse what they should"
fi

if node js/other_readings.mjs --there; then
    node js/other_readings.mjs --check
    if [ "$measure" = yes ]; then
        step "speed from JavaScript"
        node js/speed.mjs
    fi
else
    skip "JavaScript: compared with other packages" "package of Debian that has them" \
        "node-ipaddr.js node-netmask node-ip node-ip-address"
fi
