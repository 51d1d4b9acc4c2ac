; Frames that wait for the timer nearly all the time, by each loop of LDA whose rounds the program passes at once.
; dasm polls.asm -f3 -opolls.rom; vcs_check make polls.rom polls.txt --text --every 300 --out polls.a26m, where polls.txt is '300'.
        processor 6502
VSYNC   = $00
WSYNC   = $02
INTIM   = $0284
TIMINT  = $0285
TIM8T   = $0295
TIM64T  = $0296
T1024T  = $0297
        org $F800
frame   lda #43
        sta TIM64T
blank   lda INTIM
        bne blank
        lda #140
        sta TIM64T
high    lda INTIM
        bmi high
low     lda INTIM
        bpl low
        lda #200
        sta TIM8T
flag    lda TIMINT
        bpl flag
        lda #20
        sta TIM64T
clear   lda TIMINT
        beq clear
        lda #2
        sta T1024T
long    lda INTIM
        bne long
        lda #2
        sta VSYNC
        sta WSYNC
        sta WSYNC
        sta WSYNC
        lda #0
        sta VSYNC
        jmp frame
        org $FFFC
        .word frame, frame
