@ The image of a hub for two flats: the supervisor, which runs privileged, and a heating schedule for each flat, which
@ does not. The host hands the regions to one flat for each turn, writes the flat's number to the supervisor's RAM, and
@ resets the core; RAM and panel keep what they hold from turn to turn.
        .syntax unified
        .cpu    cortex-m0
        .thumb

        .equ    SUPERVISOR, 0x20000000  @ the supervisor's RAM
        .equ    STACK, 0x20002000       @ its stack's end
        .equ    RAM, 0x20000400         @ flat 1's RAM, 1024 bytes; flat 2's follows
        .equ    PANEL, 0x40000000       @ flat 1's eight words; flat 2's follow

@ Words of the supervisor's RAM.
        .equ    FLAT, 0                 @ which flat runs, 1 or 2: the host writes it
        .equ    BOOTED, 4               @ 1 once the panel was furnished
        .equ    MINUTES, 8              @ of all turns
        .equ    FAULTS, 12              @ of all turns

@ Words of a flat's part of the panel. Temperatures are signed, in hundredths of a degree; a valve is open 0 to 100.
        .equ    TEMPERATURE, 0
        .equ    TARGET, 4
        .equ    WANTED, 8               @ where the schedule wants the valve
        .equ    VALVE, 12               @ where the supervisor set it
        .equ    MINUTE, 16              @ how many minutes the flat's schedule has run
        .equ    REFUSED, 20             @ how many of its instructions were refused
        .equ    WINDOW, 24              @ 1 while it is open
        .equ    OUTSIDE, 28

@ Words of a frame, and of a flat's RAM.
        .equ    FRAME_R0, 0
        .equ    FRAME_ADDRESS, 24
        .equ    LOOKS, 0                @ how often the schedule looked at the temperature
        .equ    LAST, 4                 @ the valve's position, as the supervisor answered
        .equ    SPIED, 8                @ what was seen of the RAM next door

@ Vectors: the stack's end, and where the reset and each exception begin (bit 0 says Thumb).
        .word   STACK, reset + 1
        .word   stuck + 1               @ 2: NMI
        .word   fault + 1               @ 3: HardFault
        .rept   7
        .word   stuck + 1
        .endr
        .word   call + 1                @ 11: SVCall
        .rept   3
        .word   stuck + 1
        .endr
        .word   tick + 1                @ 15: SysTick
        .word   window + 1              @ 16: the window's contact
        .rept   31
        .word   stuck + 1
        .endr

@ The supervisor.
        .org    0x100, 0xff
reset:  ldr     r4, =SUPERVISOR
        ldr     r0, [r4, #BOOTED]
        cmp     r0, #0
        bne     ready
        bl      furnish
        movs    r0, #1
        str     r0, [r4, #BOOTED]
ready:  bl      own                     @ r0: the flat's RAM, r1: its panel words
        movs    r2, #1
        lsls    r2, r2, #10
        adds    r2, r0, r2
        msr     PSP, r2                 @ the schedule's stack ends with its RAM
        movs    r3, #3                  @ unprivileged, on the process stack
        ldr     r2, =gate_1 + 1
        ldr     r4, [r4, #FLAT]
        cmp     r4, #1
        beq     go
        ldr     r2, =gate_2 + 1
go:     bx      r2

@ What an exception that nobody expects comes to, and a flat whose stack is not its own: nothing more in this turn.
stuck:  b       stuck

@ The RAM (r0) and the panel words (r1) of the flat that runs.
own:    ldr     r2, =SUPERVISOR
        ldr     r2, [r2, #FLAT]
        subs    r2, #1
        cmp     r2, #1
        bhi     stuck
        ldr     r0, =RAM
        ldr     r1, =PANEL
        lsls    r3, r2, #10
        adds    r0, r0, r3
        lsls    r3, r2, #5
        adds    r1, r1, r3
        bx      lr

@ The panel as both flats first find it.
furnish:
        ldr     r1, =PANEL
        ldr     r2, =1850
        str     r2, [r1, #TEMPERATURE]
        ldr     r2, =2100
        str     r2, [r1, #TARGET]
        ldr     r2, =-2155
        str     r2, [r1, #OUTSIDE]
        adds    r1, #32
        str     r2, [r1, #OUTSIDE]
        ldr     r2, =1915
        str     r2, [r1, #TEMPERATURE]
        ldr     r2, =1950
        str     r2, [r1, #TARGET]
        bx      lr

@ A minute is over: the room has lost what the outside takes and got what the valve lets in.
tick:   push    {r4, lr}
        ldr     r0, =SUPERVISOR
        ldr     r1, [r0, #MINUTES]
        adds    r1, #1
        str     r1, [r0, #MINUTES]
        bl      own
        ldr     r0, [r1, #TEMPERATURE]
        ldr     r2, [r1, #OUTSIDE]
        subs    r2, r0, r2
        asrs    r2, r2, #8
        ldr     r3, [r1, #WINDOW]
        cmp     r3, #0
        beq     closed
        lsls    r2, r2, #2              @ four times as much through an open window
closed: subs    r0, r0, r2
        ldr     r2, [r1, #VALVE]
        lsrs    r2, r2, #2
        adds    r0, r0, r2
        str     r0, [r1, #TEMPERATURE]
        ldr     r2, [r1, #MINUTE]
        adds    r2, #1
        str     r2, [r1, #MINUTE]
        pop     {r4, pc}

@ The window was opened or closed.
window: push    {r4, lr}
        bl      own
        ldr     r2, [r1, #WINDOW]
        movs    r3, #1
        eors    r2, r3
        str     r2, [r1, #WINDOW]
        pop     {r4, pc}

@ The schedule asks: with SVC 1 for the valve to go to r0. It is answered where the valve is then.
call:   push    {r4, lr}
        bl      own
        bl      frame
        ldr     r2, [r4, #FRAME_ADDRESS]
        subs    r2, #2
        ldrb    r2, [r2]                @ the number in the SVC
        cmp     r2, #1
        bne     answer
        ldr     r2, [r4, #FRAME_R0]
        cmp     r2, #100
        bls     set
        movs    r2, #100
set:    str     r2, [r1, #VALVE]
answer: ldr     r2, [r1, #VALVE]
        str     r2, [r4, #FRAME_R0]
        pop     {r4, pc}

@ An instruction of the schedule was refused: it is counted, and passed over. One of the supervisor's own is not.
fault:  push    {r4, lr}
        mov     r2, lr
        lsls    r2, r2, #29             @ bit 2 says that the process stack was in use
        bpl     stuck
        bl      own
        bl      frame
        ldr     r2, [r4, #FRAME_ADDRESS]
        adds    r2, #2
        str     r2, [r4, #FRAME_ADDRESS]
        ldr     r2, [r1, #REFUSED]
        adds    r2, #1
        str     r2, [r1, #REFUSED]
        ldr     r0, =SUPERVISOR
        ldr     r2, [r0, #FAULTS]
        adds    r2, #1
        str     r2, [r0, #FAULTS]
        pop     {r4, pc}

@ The frame (r4) of the schedule that was interrupted, if it lies wholly in the flat's RAM (r0): a schedule may point its
@ stack anywhere, and the supervisor must not write there for it.
frame:  mrs     r4, PSP
        subs    r2, r4, r0
        ldr     r3, =1024 - 32
        cmp     r2, r3
        bhi     stuck
        bx      lr
        .ltorg

@ What both flats' code has, since neither may fetch the other's: the gate, at which the supervisor drops its rights, since the
@ next fetch could not reach its own code any more; showing the position (r0), asking for it and counting the look; and
@ looking again in the next minute. r4 is the flat's RAM, r5 its panel words.
        .macro  begin
        msr     CONTROL, r3
        isb
        movs    r4, r0
        movs    r5, r1
        .endm
        .macro  ask
        str     r0, [r5, #WANTED]
        svc     #1
        str     r0, [r4, #LAST]
        ldr     r0, [r4, #LOOKS]
        adds    r0, #1
        str     r0, [r4, #LOOKS]
        .endm
        .macro  await look
1:      ldr     r0, [r5, #MINUTE]
        cmp     r0, r7
        beq     1b
        b       \look
        .endm

@ Flat 1.
        .org    0x400, 0xff
gate_1: begin
        ldr     r6, =RAM + 1024         @ next door
look_1: ldr     r7, [r5, #MINUTE]
        ldr     r0, [r5, #TARGET]
        ldr     r1, [r5, #TEMPERATURE]
        ldr     r2, [r5, #WINDOW]
        bl      position_1
        ask
        movs    r0, #0
        ldr     r0, [r6]                @ is somebody at home there? The regions refuse it, and r0 stays
        str     r0, [r4, #SPIED]
        await   look_1

@ A quarter of the hundredths that are missing, at most 100, and nothing with the window open.
position_1:
        cmp     r2, #0
        bne     none_1
        subs    r0, r0, r1
        ble     none_1
        lsrs    r0, r0, #2
        cmp     r0, #100
        bls     done_1
        movs    r0, #100
done_1: bx      lr
none_1: movs    r0, #0
        bx      lr
        .ltorg

@ Flat 2, which knows only open and closed, and keeps to either until the temperature is half a degree off.
        .org    0x800, 0xff
gate_2: begin
look_2: ldr     r7, [r5, #MINUTE]
        ldr     r0, [r5, #TARGET]
        ldr     r1, [r5, #TEMPERATURE]
        ldr     r2, [r4, #LAST]
        bl      position_2
        ask
        await   look_2

position_2:
        subs    r0, r0, r1
        cmp     r0, #50
        bgt     open_2
        adds    r0, #50
        bmi     shut_2
        movs    r0, r2
        bx      lr
open_2: movs    r0, #100
        bx      lr
shut_2: movs    r0, #0
        bx      lr
        .ltorg
