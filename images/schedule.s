@ A heating schedule for one room, as a controller would run it unprivileged.
@ The panel has sixteen words: word 0 is the room's temperature in hundredths of a degree, word 1 what is aimed at,
@ word 2 the hour of the week, word 15 the count of heat units.
        .syntax unified
        .cpu    cortex-m0
        .thumb
        .equ    PANEL, 0x40000000

schedule:
        push    {r4, r5, r6, lr}
        ldr     r4, =PANEL
        ldr     r0, [r4, #8]            @ the hour of the week
        bl      aim
        str     r0, [r4, #4]
        ldr     r1, [r4]                @ the temperature
        subs    r5, r0, r1              @ how much is missing
        ble     warm
        asrs    r5, r5, #4              @ a unit for each sixteen hundredths
        adds    r5, #1
        ldr     r6, [r4, #60]
        adds    r6, r6, r5
        str     r6, [r4, #60]
        movs    r0, r5
        svc     #1                      @ ask for that much heat
warm:   svc     #0                      @ wait for the next tick
        pop     {r4, r5, r6, pc}

@ The temperature to aim at in an hour of the week (r0), by the table of the day's hours.
aim:    movs    r1, #24
day:    cmp     r0, r1
        blo     found
        subs    r0, r0, r1
        b       day
found:  adr     r2, hours
        ldrb    r0, [r2, r0]
        uxtb    r0, r0
        movs    r1, #50                 @ half degrees
        muls    r0, r1, r0
        bx      lr
        .balign 4
hours:  .byte   32, 32, 32, 32, 32, 36, 42, 42, 40, 38, 38, 38
        .byte   38, 38, 38, 40, 42, 42, 42, 42, 42, 40, 36, 32

@ The supervisor's idle loop, which sleeps with interrupts open.
idle:   mrs     r0, CONTROL
        movs    r1, #1
        orrs    r0, r1
        msr     CONTROL, r0
        isb
sleep:  cpsid   i
        dsb
        wfi
        cpsie   i
        nop
        b       sleep
        .ltorg
