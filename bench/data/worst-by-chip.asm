; Frames by the chip's rules that cost as much as is known: HMOVE moves all five objects for ever, since their motion is changed behind
; its count, so that each clock is decided by itself; RESP0 and RESP1 keep copies of the players on their way, and writes of motion are
; on theirs; on board E0 each access is compared with 24 hot spots. The values are as a search by chance found them.
; dasm worst-by-chip.asm -f3 -oworst-by-chip.rom; vcs_check make worst-by-chip.rom worst-by-chip.txt --text --board E0 --every 12
; --out worst-by-chip.a26m, where worst-by-chip.txt is '12'.
        processor 6502
VSYNC   = $00
WSYNC   = $02
NUSIZ0  = $04
NUSIZ1  = $05
RESP0   = $10
RESP1   = $11
RESM0   = $12
RESM1   = $13
RESBL   = $14
HMP0    = $20
HMP1    = $21
HMM0    = $22
HMM1    = $23
HMBL    = $24
HMOVE   = $2A
passes  = $80
        org $E000
        .byte 0         ; the other banks
        org $F000
        cld
        sta WSYNC       ; where each stands
        repeat 21
        nop
        repend
        bit passes
        sta RESP0
        sta WSYNC
        repeat 22
        nop
        repend
        bit passes
        sta RESP1
        sta WSYNC
        repeat 34
        nop
        repend
        sta RESM0
        sta WSYNC
        repeat 22
        nop
        repend
        sta RESM1
        sta WSYNC
        repeat 26
        nop
        repend
        sta RESBL
        lda #$70        ; all move by the longest motion
        sta HMP0
        sta HMP1
        sta HMM0
        sta HMM1
        sta HMBL
        lda #$90
        sta WSYNC
        sta HMOVE
        nop
        nop
        sta HMP0        ; which is changed behind the count, so that they never stop
        sta HMP1
        sta HMM0
        sta HMM1
        sta HMBL
        sta WSYNC
        lda #$33
        sta NUSIZ0
        sta NUSIZ1
        lda #2
        sta VSYNC
        lda #0
        sta VSYNC       ; a short frame for all that
        jmp frame
        org $F800       ; three windows are looked at before this bank's
frame   lda #68
        sta passes
again
        lda #$00
        ldx #$36
        ldy #$3B
        repeat 94
        sta RESP1
        stx HMM1
        sta RESP0
        stx HMM0
        repend
        dec passes
        beq last
        jmp again
last    lda #2
        sta VSYNC
        lda #0
        sta VSYNC
        jmp frame
        org $FFFC
        .word $F000,$F000
