# C: whether the test fails if two arguments of a call are exchanged. bindings/check reads it, in the folder bindings.

step "C, with exchanged arguments"
if here "C: exchanged arguments" python3; then
    python3 c/exchanged.py cc -std=c11 -O1 "$library"
fi
