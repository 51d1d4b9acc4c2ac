; Harbour: a small program for a cartridge of 8 kilobytes, written to show how its two banks are used.
;
; A boat sails below a sky with clouds and a gull. The joystick moves it, the button raises its flag.
; The sky stands in bank 0, code and shapes, the sea in bank 1; each line of the haze between them
; takes one byte of its shape from either.
;
; It is 8192 bytes for Debian's dasm:
;
;     dasm harbour.asm -f3 -oharbour.rom
;
; Only documented instructions are used.
;
; How banks are selected. The console sees 4096 bytes at F000 to FFFF: those of the selected bank. A
; read or a write of data at FFF8 selects bank 0, one at FFF9 bank 1. The access itself still sees the
; bank before it, and the next instruction is fetched out of the new one. So where a program selects
; a bank, the code that follows must stand at the same address in both. Here that is what the macros
; hold: each stands in both banks, at one address. Fetching an instruction selects nothing.
;
; Every kind of access is used:
;
;     a plain write      STA FFF8      ToSky
;     a plain read       BIT FFF9      ToSea
;     an indexed read    LDA FFF0,X    Sweep, which passes both addresses, and Haze
;     an indexed write   STA FFF0,X    Depth
;     a pointer's read   LDA (p),Y     Peek
;     read, then write   INC FFF8      Haze
;
; A frame shows 262 lines: 37 of vertical blank, 64 of sky, 48 of haze, 80 of sea, 30 of overscan, and 3 of vertical
; sync, which end it. It begins and ends within a line, and takes the time of 261. In it bank 0 is selected 56 times, and bank 1 as often.

        processor 6502

; ------------------------------------------------------------------------------------------------
; Registers
; ------------------------------------------------------------------------------------------------
VSYNC   = $00   ; D1: vertical sync; the frame ends when it falls
VBLANK  = $01   ; D1: no picture
WSYNC   = $02   ; any write: the processor waits for the next line
COLUP0  = $06   ; colour of the boat
COLUP1  = $07   ; colour of the gull
COLUPF  = $08   ; colour of the playfield
COLUBK  = $09   ; colour of the background
CTRLPF  = $0A   ; D0: the right half mirrors the left
PF1     = $0E   ; playfield
PF2     = $0F
RESP0   = $10   ; any write: the boat begins here
RESP1   = $11   ; any write: the gull begins here
GRP0    = $1B   ; shape of the boat
GRP1    = $1C   ; shape of the gull
HMP0    = $20   ; D7..D4: how far HMOVE moves the boat to the left (signed)
HMOVE   = $2A   ; any write: the boat moves
CXCLR   = $2C   ; any write: all collisions are forgotten
CXP0FB  = $02   ; read, D7: the boat met the playfield
INPT4   = $0C   ; read, D7 is 0 while the button of joystick 0 is pressed
SWCHA   = $0280 ; D7: joystick 0 right, D6: left; 0 is pressed
INTIM   = $0284 ; the timer
TIM64T  = $0296 ; starts the timer: so many times 64 cycles

; ------------------------------------------------------------------------------------------------
; Memory, and addresses in both banks
; ------------------------------------------------------------------------------------------------
Frame   = $80           ; the number of the frame, modulo 256
BoatX   = $81           ; where the boat is
Sum     = $82           ; the sum of the ten bytes that Sweep reads
Seen    = $83           ; the byte that Peek reads
Spray   = $84           ; frames in which the boat has touched a wave, modulo 256
Pointer = $85           ; FFF0, two bytes
Tint    = $87           ; the colour of the sea from the next line on

Bank0   = $FFF8
Bank1   = $FFF9
Marks   = $FFF0         ; ten bytes up to Bank1, others in each bank

SkyLines  = 64
HazeLines = 48
SeaLines  = 80
BoatLine  = 40          ; the boat's lowest line in the sea; the others are above it
BlankTime    = 43       ; times 64 cycles: ends within the 37th line
OverscanTime = 36       ; ends within the 30th line

; ------------------------------------------------------------------------------------------------
; What stands at one address in both banks
; ------------------------------------------------------------------------------------------------
        MAC SHARED

; From bank 1 to the sky in bank 0.
ToSky{1}
        sta Bank0
        jmp Sky

; From bank 0 to the sea in bank 1.
ToSea{1}
        bit Bank1
        jmp Sea

; From bank 1 and back: adds up the ten bytes before the vectors. The ninth read selects bank 0, the tenth bank 1,
; so the sum has nine bytes of bank 1 and the last one of bank 0.
Sweep{1}
        lda #0
        ldx #0
Add{1}
        clc
        adc Marks,x
        inx
        cpx #10
        bne Add{1}
        sta Sum
        rts

; From bank 1 and back: the byte FFF8 of bank 1, by a pointer, which selects bank 0, and then bank 1 again.
Peek{1}
        ldy #Bank0-Marks
        lda (Pointer),y
        sta Seen
        iny
        lda (Pointer),y
        rts

; From bank 1 and back: the colour of the sea at depth Y, out of a table in bank 0.
Depth{1}
        ldx #Bank0-Marks
        sta Marks,x
        lda Depths,y
        inx
        sta Marks,x
        rts

; Lines of haze: the outer half of the shape comes out of bank 0, the inner one out of bank 1. It ends in bank 0.
Haze{1}
        sta WSYNC
        tya
        ora #$40
        sta COLUBK
        lda Shapes,y
        sta PF1                 ;14: before its first pixel
        ldx #Bank1-Marks
        lda Marks,x
        lda Shapes,y
        sta PF2                 ;27
        inc Bank0
        dey
        bpl Haze{1}
        jmp ToSea{1}
        ENDM

; A start, in whichever bank a console begins. It goes on in bank 1.
        MAC BEGIN
Begin{1}
        bit Bank1
        jmp Start
        ENDM

; ================================================================================================
; Bank 0: the sky
; ================================================================================================
        org $0000
        rorg $F000

        SHARED 0

Shapes                          ; of the haze, the outer half
        .byte $00,$80,$80,$C0,$C0,$E0,$E0,$F0,$F0,$F8,$F8,$FC,$FC,$FE,$FE,$FF
        .byte $FF,$7F,$7F,$3F,$3F,$1F,$1F,$0F,$0F,$07,$07,$03,$03,$01,$01,$00
        .byte $00,$11,$22,$44,$88,$44,$22,$11,$00,$18,$3C,$7E,$7E,$3C,$18,$00

        align 256
Depths                          ; by lines of the sea; that of line 0 is for the first lines of the next frame
        REPEAT 16
        .byte $96
        REPEND
        REPEAT 16
        .byte $80
        REPEND
        REPEAT 16
        .byte $82
        REPEND
        REPEAT 16
        .byte $84
        REPEND
        REPEAT 16
        .byte $94
        REPEND

        align 256
Gull                            ; by the line of the sky, from below
        ds 30, 0
        .byte $18,$3C,$66,$C3,$81
        ds 29, 0
        align 256
SkyColours                      ; by bands of eight lines, from below
        .byte $2C,$2A,$28,$36,$46,$54,$62,$70
CloudsOuter
        .byte $00,$00,$3C,$7E,$00,$0F,$00,$00
CloudsInner
        .byte $00,$E0,$F0,$00,$03,$07,$00,$00

Sky
        lda Seen
        sta COLUPF
        ldy #SkyLines-1
SkyLine
        sta WSYNC
        tya
        lsr
        lsr
        lsr
        tax
        lda SkyColours,x
        sta COLUBK
        lda CloudsOuter,x
        sta PF1
        lda CloudsInner,x
        sta PF2
        lda Gull,y
        sta GRP1
        dey
        bpl SkyLine
        ldy #HazeLines-1
        jmp Haze0

        org $0FE0
        rorg $FFE0

        BEGIN 0

        org $0FF0
        rorg $FFF0
        .byte $01,$02,$04,$08,$10,$20,$40,$80,$1E,$C8
        .word Begin0, Begin0, Begin0

; ================================================================================================
; Bank 1: start, vertical blank, the sea, overscan
; ================================================================================================
        org $1000
        rorg $F000

        SHARED 1

HazeShapes                      ; of the haze, the inner half
        .byte $FF,$7F,$7F,$3F,$3F,$1F,$1F,$0F,$0F,$07,$07,$03,$03,$01,$01,$00
        .byte $00,$01,$01,$03,$03,$07,$07,$0F,$0F,$1F,$1F,$3F,$3F,$7F,$7F,$FF
        .byte $00,$88,$44,$22,$11,$22,$44,$88,$00,$18,$24,$42,$42,$24,$18,$00
        IF HazeShapes != Shapes
            ECHO "the shapes of the haze stand at two addresses"
            ERR
        ENDIF
        IF Haze0 != Haze1 || Depth0 != Depth1 || Peek0 != Peek1 || Sweep0 != Sweep1
            ECHO "shared code stands at two addresses"
            ERR
        ENDIF

Start
        cld
        ldx #$FF
        txs
        lda #76
        sta BoatX
        lda #<Marks
        sta Pointer
        lda #>Marks
        sta Pointer+1
        lda #1
        sta CTRLPF
        lda #$0E
        sta COLUP1
        sta WSYNC
        ldx #7
Wait
        dex
        bne Wait
        sta RESP1

VerticalSync
        lda #2
        sta VSYNC
        sta WSYNC
        sta WSYNC
        sta WSYNC
        lda #0
        sta VSYNC               ; the frame ends

VerticalBlank
        lda #BlankTime
        sta TIM64T
        lda #2
        sta VBLANK
        inc Frame

; The joystick moves the boat by a pixel, within 8 and 143.
        lda SWCHA
        bmi NotRight
        lda BoatX
        cmp #143
        bcs NotRight
        inc BoatX
NotRight
        bit SWCHA
        bvs NotLeft
        lda BoatX
        cmp #9
        bcc NotLeft
        dec BoatX
NotLeft
        ldx #$1A
        bit INPT4
        bmi NoFlag
        ldx #$44
NoFlag
        stx COLUP0

        jsr Sweep1
        jsr Peek1

; The boat begins at BoatX: 15 pixels for each turn, and what is left over by HMOVE.
        lda BoatX
        sta WSYNC
        sec
Fifteen
        sbc #15
        bcs Fifteen
        eor #7
        asl
        asl
        asl
        asl
        sta HMP0
        sta RESP0
        sta WSYNC
        sta HMOVE
        sta CXCLR

WaitForPicture
        lda INTIM
        bne WaitForPicture
        sta WSYNC
        sta VBLANK
        jmp ToSky1

Sea
        lda #0
        sta PF1
        lda Sum
        sta COLUPF
        ldy #SeaLines-1
SeaLine
        sta WSYNC
        lda Tint
        sta COLUBK              ;6
        tya
        clc
        adc Frame
        lsr
        lsr
        and #7
        tax
        lda Waves,x
        sta PF2                 ;31
        tya
        and #15
        bne SameColour
        jsr Depth1              ; in each 16th line, for the next ones
        sta Tint
        dey
        bpl SeaLine             ;72
        bmi Overscan
SameColour
        tya
        sec
        sbc #BoatLine
        cmp #8
        bcs NoBoat
        tax
        lda Boat,x
        sta GRP0
        dey
        bpl SeaLine
NoBoat
        lda #0
        sta GRP0
        dey
        bpl SeaLine

Overscan
        lda #OverscanTime
        sta TIM64T
        lda #2
        sta WSYNC
        sta VBLANK
        lda #0
        sta PF2
        bit CXP0FB
        bpl Dry
        inc Spray
Dry
        lda INTIM
        bne Dry
        jmp VerticalSync

Waves                           ; from the middle of the picture
        .byte $81,$C0,$60,$30,$18,$0C,$06,$03
Boat                            ; from below
        .byte $7E,$FF,$10,$D0,$F0,$70,$30,$10

        org $1FE0
        rorg $FFE0

        BEGIN 1

        IF Begin0 != Begin1
            ECHO "a start stands at two addresses"
            ERR
        ENDIF

        org $1FF0
        rorg $FFF0
        .byte $03,$05,$07,$0B,$0D,$11,$13,$17,$9A,$1D
        .word Begin1, Begin1, Begin1
