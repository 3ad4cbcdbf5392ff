# The library as WebAssembly, the package for JavaScript, and the page. bindings/check reads it, in the folder
# bindings; what is made goes to out, where nothing else has files of these names.

step "WebAssembly"
module=no
if ! command -v wasm-opt > /dev/null || ! command -v wasm-metadce > /dev/null; then
    skip "WebAssembly, JavaScript and the subnet calculator" wasm-opt binaryen
elif [ "$plain" ]; then
    . wasm/steps.sh
else
    wasm/build
    module=yes
fi

step "JavaScript"
if [ "$module" = yes ] && here JavaScript node; then
    . js/steps.sh
fi

step "the subnet calculator"
if [ "$module" = yes ] && [ ! "$plain" ] && here "the subnet calculator" node; then
    ../web/build
    if command -v chromium > /dev/null; then
        node ../web/test.mjs $([ "$measure" = no ] || echo --times)
    else
        skip "the subnet calculator in Chromium" chromium chromium
    fi
fi
