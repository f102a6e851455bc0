! V2: an instruction that sandboxed code may not ask for: the processor's state is its supervisor's.
.services exit
.function main,leaf,0,0,5
.fuel 5
    rd %psr,%o0
    ta 0
