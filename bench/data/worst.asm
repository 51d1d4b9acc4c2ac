; Frames that cost as much as is known: nearly 8,000 writes of GRP1, FF and AA in turn, so that before each the pairs are told that
; meet in nine pixels, and player 1's pattern is made anew. The values are as a search by chance found them.
; dasm worst.asm -f3 -oworst.rom; vcs_check make worst.rom worst.txt --text --every 300 --out worst.a26m, where worst.txt is '72'.
        processor 6502
VSYNC   = $00
WSYNC   = $02
NUSIZ0  = $04
NUSIZ1  = $05
CTRLPF  = $0A
REFP0   = $0B
REFP1   = $0C
PF0     = $0D
PF1     = $0E
PF2     = $0F
RESP0   = $10
RESP1   = $11
RESM0   = $12
RESM1   = $13
RESBL   = $14
GRP0    = $1B
GRP1    = $1C
ENAM0   = $1D
ENAM1   = $1E
ENABL   = $1F
VDELP0  = $25
VDELP1  = $26
VDELBL  = $27
RESMP0  = $28
RESMP1  = $29
CXCLR   = $2C
passes  = $80
other   = $90
        org $F000
        lda #$F3
        sta NUSIZ0
        lda #$E5
        sta NUSIZ1
        lda #$DC
        sta CTRLPF
        lda #$02
        sta REFP0
        lda #$D3
        sta REFP1
        lda #$43
        sta PF0
        lda #$FF
        sta PF1
        lda #$FF
        sta PF2
        lda #$DF
        sta GRP0
        lda #$02
        sta GRP1
        lda #$02
        sta ENAM0
        lda #$02
        sta ENAM1
        lda #$02
        sta ENABL
        lda #$01
        sta VDELP0
        lda #$00
        sta VDELP1
        lda #$01
        sta VDELBL
        lda #$00
        sta RESMP0
        lda #$00
        sta RESMP1
        sta WSYNC       ; where each stands
        sta other
        repeat 24
        nop
        repend
        sta RESP0
        sta WSYNC
        repeat 20
        nop
        repend
        sta RESP1
        sta WSYNC
        sta RESM0
        sta WSYNC
        repeat 18
        nop
        repend
        sta RESM1
        sta WSYNC
        sta RESBL
        ldx #$AA
        ldy #$FF
frame   lda #4
        sta passes
        lda #$02
body
        repeat 974
        sty GRP1
        stx GRP1
        repend
        dec passes
        beq last
        jmp body
last    sta CXCLR
        lda #2
        sta VSYNC
        lda #0
        sta VSYNC
        jmp frame
        org $FFFC
        .word $F000,$F000
