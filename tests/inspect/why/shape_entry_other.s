! V3: the SAVE of another frame than the one that is declared.
.services exit
.function main,framed,96,104,90
.fuel 90
    save %sp,-104,%sp
    mov 0,%o0
    ta 0
