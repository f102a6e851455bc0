! Twelve functions, each of which calls the next one, and the last puts out a byte: a run on a machine with few windows
! stores windows and loads them again, and gives what it gives on a machine with many. `sandbox trace` shows the handlers.

.services exit,put

.function f0,framed,96,1152,618
.fuel 618
    save %sp,-96,%sp
    call f1             ! weighs 2 and the budget of f1
    nop
    mov 0,%o0
    ta 0

.function f1,framed,96,1056,587
.fuel 587
    save %sp,-96,%sp
    call f2
    nop
    ret
    restore

.function f2,framed,96,960,534
.fuel 534
    save %sp,-96,%sp
    call f3
    nop
    ret
    restore

.function f3,framed,96,864,481
.fuel 481
    save %sp,-96,%sp
    call f4
    nop
    ret
    restore

.function f4,framed,96,768,428
.fuel 428
    save %sp,-96,%sp
    call f5
    nop
    ret
    restore

.function f5,framed,96,672,375
.fuel 375
    save %sp,-96,%sp
    call f6
    nop
    ret
    restore

.function f6,framed,96,576,322
.fuel 322
    save %sp,-96,%sp
    call f7
    nop
    ret
    restore

.function f7,framed,96,480,269
.fuel 269
    save %sp,-96,%sp
    call f8
    nop
    ret
    restore

.function f8,framed,96,384,216
.fuel 216
    save %sp,-96,%sp
    call f9
    nop
    ret
    restore

.function f9,framed,96,288,163
.fuel 163
    save %sp,-96,%sp
    call f10
    nop
    ret
    restore

.function f10,framed,96,192,110
.fuel 110
    save %sp,-96,%sp
    call f11
    nop
    ret
    restore

.function f11,framed,96,96,57
.fuel 57
    save %sp,-96,%sp
    mov 33,%o0
    ta 2
    ret
    restore
