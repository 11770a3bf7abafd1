; An earthing switch may close only while the breaker and both disconnectors are open.
;
; Ports: input 0 the breaker, 1 and 2 the disconnectors (not 0: closed), 3 the request to close the
; earthing switch. Output 0 the close command, 1 how many requests were refused, 2 the scans made,
; 15 the code of an event that nobody expected.
; Line 0 is the scan tick. A scan is: raise line 0, run 100 steps, read output 0.

; ---- the supervisor, in system mode -------------------------------------------------------------
.org 0x8000
        MOVI R0, 0              ; events enter at 0x8100
        MOVIH R0, 0x81
        WRS S5, R0
        MOVI R2, 0              ; page 0, the user's code, is read-only as data
        MOVI R1, -64            ; valid, read-only, frame 0
        WRPD R1, R2
        MOVI R1, 0              ; page 1, the user's data, is no code
        MOVI R2, 1
        WRVI R1, R2
        MOVI R2, 2              ; pages 2 to 31 are not the user's
unmap:  WRVI R1, R2
        WRVD R1, R2
        ADDI R2, R2, 1
        MOVI R3, 32
        CMPLT R4, R2, R3
        BNZ R4, unmap
idle:   MOVI R1, 0              ; to the user's idle loop, interrupts on
        WRS S1, R1
        MOVI R1, 2
        WRS S0, R1
        RETI

.org 0x8100
        RDS R1, S2              ; which event?
        MOVI R2, 15
        CMPEQ R3, R1, R2
        BNZ R3, tick
        MOVI R2, 14
        CMPEQ R3, R1, R2
        BNZ R3, done
        OUT 15, R1              ; a fault of the user's: report it and stop
        HALT
tick:   GETIID R1               ; the tick: start a scan, interrupts off
        MOVI R1, 16
        WRS S1, R1
        MOVI R1, 0
        WRS S0, R1
        RETI
done:   MOVI R1, 0              ; the scan is done: count it
        MOVIH R1, 0x84
        LD R2, 0(R1)
        ADDI R2, R2, 1
        ST 0(R1), R2
        OUT 2, R2
        MOVI R1, 0
        WRS S1, R1
        MOVI R1, 2
        WRS S0, R1
        RETI

; the supervisor's own data: the scans made, an access code and a setting group
.org 0x8400
        .data 0x0000 0x4711 0x0003

; ---- the utility's program, in user mode --------------------------------------------------------
.org 0x0000
        MOVI R0, 0              ; wait for the next scan
wait:   BZ R0, wait

.org 0x0010
        IN R1, 0
        IN R2, 1
        IN R3, 2
        OR R4, R1, R2
        OR R4, R4, R3
        MOVI R5, 0
        CMPEQ R4, R4, R5        ; R4 = 1: all three are open
        IN R6, 3
        CMPLTU R6, R5, R6       ; R6 = 1: the switch is asked to close
        AND R7, R4, R6
        OUT 0, R7
        BZ R6, shown
        BNZ R4, shown
        MOVI R1, 0              ; a request that was refused is counted
        MOVIH R1, 0x04
        LD R2, 0(R1)
        ADDI R2, R2, 1
        ST 0(R1), R2
shown:  MOVI R1, 0
        MOVIH R1, 0x04
        LD R2, 0(R1)
        OUT 1, R2
        MOVI R1, 1              ; the scan is done
        CALLS R1

; the user's data: how many requests were refused
.org 0x0400
        .data 0x0000
