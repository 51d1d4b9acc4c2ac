; Sundown: a small game for the Atari 2600, written to show what Votmeshaw's machine does.
;
; A ship flies over a mirrored range of mountains in front of the setting sun. Three rows of aliens
; march above it, a saucer crosses the top, and a rock bounces about. The joystick moves the ship,
; the button fires. A shot takes one alien out of its row; a bomb, the rock or a mountain takes the
; ship. RESET starts again, SELECT changes the light, and the colour switch makes all of it grey.
; Difficulty switch 0 makes the shot thin (A) or thick (B), difficulty switch 1 the bombs fast (A)
; or slow (B).
;
; It is 4096 bytes for Debian's dasm:
;
;     dasm demo.asm -f3 -odemo.rom
;
; Only documented instructions are used. There is no sound, as Votmeshaw's machine has none.
;
; How to read it. The picture of this console isn't kept in a memory. The TIA knows one line at a
; time: two players of 8 pixels, two missiles, a ball, and a playfield of 20 bits for half a line.
; So the program runs with the beam, and gives each line its shapes and colours just before the beam
; is there. A line has 76 cycles of the processor, of which the first 22 and a bit are before
; the first pixel; one cycle is three pixels. A number at the right of a line, as ;12, is the cycle of
; the line in which that instruction has ended.
;
; A frame has 262 lines:
;
;     37 of vertical blank   the places and shapes of what will be shown       VerticalBlank
;    192 of picture          in six bands, from the top                        Picture
;     30 of overscan         collisions, joystick and switches, all motion     Overscan
;      3 of vertical sync    which end the frame                               VerticalSync
;
; The 192 lines of the picture:
;
;     18  the score: both players three times, in turns, by vertical delay     Score
;     64  four rows of 16 lines: a saucer, three rows of aliens                Rows
;      3  between the two: the second player becomes the sun                   Setting
;     88  sky, sun, mountains and ship, two lines at a time                    Land
;      8  the ground                                                           Ground
;     11  the ships that are left                                              Ships

        processor 6502

; ------------------------------------------------------------------------------------------------
; Registers of the TIA that are written
; ------------------------------------------------------------------------------------------------
VSYNC   = $00   ; D1: vertical sync; the frame ends when it falls
VBLANK  = $01   ; D1: no picture
WSYNC   = $02   ; any write: the processor waits for the next line
NUSIZ0  = $04   ; D2..D0: copies or width of player 0; D5 D4: width of missile 0
NUSIZ1  = $05   ; the same of player 1 and missile 1
COLUP0  = $06   ; colour of player 0 and missile 0
COLUP1  = $07   ; colour of player 1 and missile 1
COLUPF  = $08   ; colour of playfield and ball
COLUBK  = $09   ; colour of the background
CTRLPF  = $0A   ; D0: the right half mirrors the left; D2: playfield in front; D5 D4: width of the ball
PF0     = $0D   ; playfield, from the left: D4..D7,
PF1     = $0E   ; then D7..D0,
PF2     = $0F   ; then D0..D7
RESP0   = $10   ; any write: player 0 begins here
RESP1   = $11   ; any write: player 1 begins here
GRP0    = $1B   ; shape of player 0
GRP1    = $1C   ; shape of player 1
ENAM0   = $1D   ; D1: missile 0 is shown
ENAM1   = $1E   ; D1: missile 1 is shown
ENABL   = $1F   ; D1: the ball is shown
HMP0    = $20   ; D7..D4: how far HMOVE moves player 0 to the left (signed)
HMP1    = $21   ; and player 1
VDELP0  = $25   ; D0: player 0 shows the shape that it had before the last write of GRP1
VDELP1  = $26   ; D0: player 1 shows the shape that it had before the last write of GRP0
VDELBL  = $27   ; D0: the ball shows the enable that it had before the last write of GRP1
HMOVE   = $2A   ; any write: players, missiles and ball move
HMCLR   = $2B   ; any write: all motions are 0
CXCLR   = $2C   ; any write: all collisions are forgotten

; ------------------------------------------------------------------------------------------------
; Registers of the TIA that are read
; ------------------------------------------------------------------------------------------------
CXM0P   = $00   ; D7: missile 0 met player 1
CXM1P   = $01   ; D7: missile 1 met player 0
CXP0FB  = $02   ; D7: player 0 met the playfield; D6: player 0 met the ball
CXM0FB  = $04   ; D7: missile 0 met the playfield; D6: missile 0 met the ball
CXM1FB  = $05   ; D7: missile 1 met the playfield
CXBLPF  = $06   ; D7: the ball met the playfield
INPT4   = $0C   ; D7 is 0 while the button of joystick 0 is pressed

; ------------------------------------------------------------------------------------------------
; The RIOT
; ------------------------------------------------------------------------------------------------
SWCHA   = $0280 ; D7..D4: joystick 0 right, left, down, up; 0 is pressed
SWCHB   = $0282 ; D0: reset, D1: select (0 is pressed); D3: colour; D6, D7: difficulty 0 and 1 (1 is A)
INTIM   = $0284 ; the timer
TIM64T  = $0296 ; starts the timer: so many times 64 cycles

; ------------------------------------------------------------------------------------------------
; Sizes and limits
; ------------------------------------------------------------------------------------------------
; Lines of the rows and of the land have numbers that fall: 153 is the first line of the saucer's row.
; The land counts pairs, from 43 to 0; pair n has the lines 2n and 2n + 1.
FirstLine       = 153
Pairs           = 44            ; pairs of lines of the land
LandTop         = 2*Pairs-2     ; 86
RowLines        = 12            ; lines of a shape in a row
Off             = 200           ; a line where nothing is: no line of 0..153 is less than 56 above it

ShotHeight      = 8
BombHeight      = 6
BallHeight      = 6
ShipHeight      = 16            ; 8 pairs

ShipLeft        = 8
ShipRight       = 144
ShipLow         = 1
ShipHigh        = LandTop-ShipHeight
FormationLeft   = 8
FormationRight  = 80
DeadTime        = 48            ; frames for which the ship burns
FlashTime       = 12            ; frames for which a row is bright

; 64 cycles a step. A timer of n shows 0 from cycle 64(n-1)+1 after its write on.
BlankTime       = 44            ; ends within the 37th line
OverscanTime    = 36            ; ends within the 30th line

; ------------------------------------------------------------------------------------------------
; Memory, 128 bytes from 80 on
; ------------------------------------------------------------------------------------------------
        seg.u Memory
        org $80
Frame           ds 1            ; counts frames
Score           ds 3            ; six decimal digits, the highest pair first
Ships           ds 1            ; ships that are left, 0..3
Light           ds 1            ; 0: sunset, 1: moonlight
SelectSeen      ds 1            ; SELECT in the frame before: 0 is pressed
Dead            ds 1            ; frames for which the ship still burns; 0: it flies
ShipX           ds 1
ShipY           ds 1            ; its lowest line
ShotX           ds 1
ShotY           ds 1            ; its lowest line, even, or Off
BombX           ds 1
BombY           ds 1            ; its lowest line, even, or Off
BallX           ds 1
BallY           ds 1            ; its lowest line
BallRight       ds 1            ; 1 or FF
BallUp          ds 1            ; 1 or FF
FormationX      ds 1            ; the left column of aliens
FormationRightward ds 1         ; 1 or FF
SaucerX         ds 1
Flash           ds 4            ; of each row: frames for which it is bright
Alive           ds 4            ; of each row: bit 0 the left alien, 1 the middle one, 2 the right one
; What the vertical blank prepares for the picture. Row 0 is the saucer's.
RowHit          ds 5            ; D7: missile 0 met player 1 above this row, or, the fifth, in any
RowFine         ds 4            ; HMP1
RowCoarse       ds 4            ; rounds of waiting before RESP1
RowSize         ds 4            ; NUSIZ1
RowShape        ds 4            ; low byte of the shape
RowTint         ds 4            ; low byte of the colours
ShipFine        ds 1            ; HMP0
ShipCoarse      ds 1            ; rounds of waiting before RESP0
ShipDelay       ds 1            ; VDELP0
; In the land lines come in pairs, of which the lowest is 0. A pair later: for what is made a pair ahead.
ShotPair        ds 1            ; the shot's lowest pair
BombPair        ds 1            ; the bomb's, a pair later
BallPair        ds 1            ; the ball's, a pair later
BallDelay       ds 1            ; VDELBL in the land
ShotNow         ds 1            ; what DUE has made
BombNow         ds 1
BallNow         ds 1
Shape           ds 2            ; pointers, low byte first
Tint            ds 2
Sky             ds 2
Hills           ds 2
Sun             ds 2
Ship            ds 2
ShipTint        ds 2
Digits          ds 12           ; one pointer for each digit of the score
Row             ds 1
Temp            ds 1
Last            ds 1

; ------------------------------------------------------------------------------------------------
; DUE transfer, variable, lowest, height: whether a missile or the ball is due in a line, as a byte for
; its enable register. The transfer, txa or tya, brings that line's number. 16 cycles. The line is due
; where 0 <= number - lowest < height, which is where the comparison leaves carry clear; 3 + 0 has bit 1
; set, 3 + 1 has it clear.
;
; The byte is made one line ahead and stored as the line begins. Stored when it is made, it would change
; the object in the middle of the line.
; ------------------------------------------------------------------------------------------------
        mac DUE
        {1}
        sec
        sbc {3}
        cmp #{4}
        lda #3
        adc #0
        sta {2}
        endm

; ------------------------------------------------------------------------------------------------
; SAMEPAGE label: assembles nothing, and stops the assembly where the label is in another page of 256
; bytes than this place. A branch that is taken to another page takes a cycle more, which a loop that is
; timed by its cycles can't have.
; ------------------------------------------------------------------------------------------------
        mac SAMEPAGE
        if >{1} != >.
        echo "another page:", {1}
        err
        endif
        endm

        seg Program
        org $F000

; ================================================================================================
; Power-on
; ================================================================================================
; The first frame begins here. Its vertical blank is timed as that of every other frame, so that it
; too has 262 lines: the timer comes before all else.
Reset
        lda #BlankTime
        sta TIM64T
        lda #2
        sta VBLANK
        cld
        ldx #$FF
        txs
        lda #0
        ldx #31
Clear                           ; the memory in four quarters, 672 cycles
        sta $80,x
        sta $A0,x
        sta $C0,x
        sta $E0,x
        dex
        bpl Clear
        jsr NewGame
        jmp Prepare

; ================================================================================================
; Vertical sync: three lines, and the frame's end
; ================================================================================================
; Sync is taken back in the very last cycle of the third line. So each frame begins with a line, and
; its picture has 262 rows rather than 263 with two parts of one.
VerticalSync
        lda #2
        sta VSYNC
        sta WSYNC
        sta WSYNC
        ldx #14
WaitForEnd
        dex
        bne WaitForEnd          ;71
        SAMEPAGE WaitForEnd
        lda #0                  ;73
        sta VSYNC               ;76: the frame ends

; ================================================================================================
; Vertical blank: places and shapes
; ================================================================================================
VerticalBlank
        lda #BlankTime
        sta TIM64T

Prepare
; The two players of the score, the missiles and the ball. Place takes a line for each.
        lda #56-3
        ldx #0
        jsr Place
        lda #64-3
        inx
        jsr Place
        lda ShotX
        inx
        jsr PlaceNarrow
        lda BombX
        inx
        jsr PlaceNarrow
        lda BallX
        inx
        jsr PlaceNarrow
        sta WSYNC
        sta HMOVE

; The rows of aliens. What is left of a row is shown by other copies from another place.
        ldx #3
PrepareRow
        ldy Alive,x
        lda CopiesOf,y
        sta RowSize,x
        lda ShiftOf,y
        clc
        adc FormationX
        jsr Split
        sta RowFine,x
        sty RowCoarse,x
        lda #<Nothing
        ldy Alive,x
        beq ShapeFound
        lda Frame               ; every 16 frames the other of two shapes
        and #16
        beq FirstShape
        lda #RowLines
FirstShape
        clc
        adc ShapeOf,x
ShapeFound
        sta RowShape,x
        lda TintOf,x
        ldy Flash,x
        beq TintFound
        lda #<TintFlash
TintFound
        sta RowTint,x
        dex
        bne PrepareRow

; The saucer: one player, twice as wide.
        lda #5
        sta RowSize
        lda SaucerX
        jsr Split
        sta RowFine
        sty RowCoarse
        lda #<Nothing
        ldy Alive
        beq SaucerFound
        lda #<Saucer
SaucerFound
        sta RowShape
        lda #<TintSaucer
        ldy Flash
        beq SaucerTintFound
        lda #<TintFlash
SaucerTintFound
        sta RowTint

; The colours of the land: sunset, moonlight, or grey by the colour switch.
        ldx Light
        lda SWCHB
        and #$08
        bne Coloured
        ldx #2
        lda #<TintGrey
        sta RowTint
        sta RowTint+1
        sta RowTint+2
        sta RowTint+3
Coloured
        lda SkyLow,x
        sta Sky
        lda HillsLow,x
        sta Hills
        lda SunLow,x
        sta Sun
        lda PaletteHigh,x
        sta Sky+1
        sta Hills+1
        sta Sun+1

; The ship. Two lines show one byte of its shape. An odd line is reached by vertical delay: the same
; shape, one line later.
        lda ShipX
        jsr Split
        sta ShipFine
        sty ShipCoarse
        lda ShipY
        and #1
        sta ShipDelay
        lda ShipY
        clc
        adc #1
        lsr
        sta Temp                ; its lowest pair
        ldx #0
        lda Dead
        beq Flying
        ldx #2                  ; two shapes of a fire
        cmp #1
        bne Burning
        ldx #4                  ; no ships are left: 44 pairs of nothing
        lda #0
        sta Temp
Burning
        lda #<TintFire
        bne ShipTintFound
Flying
        lda #<TintShip
ShipTintFound
        sec
        sbc Temp
        sta ShipTint
        lda #>TintShip
        sta ShipTint+1
        lda Frame
        and #4
        beq FirstShip
        inx
FirstShip
        lda ShipOf,x
        clc                     ; and one less, as the land reads it before it counts the pair
        sbc Temp
        sta Ship
        lda #>ShipShapes
        sta Ship+1

; Shot, bomb and ball in pairs of lines. The ball has a delay too, the others are at even lines.
        lda ShotY
        lsr
        sta ShotPair
        ldx BombY
        inx
        inx
        txa
        lsr
        sta BombPair
        lda BallY
        and #1
        sta BallDelay
        ldx BallY
        inx
        inx
        inx
        txa
        lsr
        sta BallPair

; The digits of the score.
        ldx #2
        ldy #8
PrepareDigits
        lda Score,x
        and #$0F
        asl
        asl
        asl
        sta Digits+2,y
        lda Score,x
        and #$F0
        lsr
        sta Digits,y
        lda #>DigitShapes
        sta Digits+3,y
        sta Digits+1,y
        dey
        dey
        dey
        dey
        dex
        bpl PrepareDigits

        lda #>AlienShapes
        sta Shape+1
        lda #>AlienTints
        sta Tint+1

WaitForPicture
        lda INTIM
        bne WaitForPicture
        sta WSYNC

; ================================================================================================
; The score: 18 lines
; ================================================================================================
; Both players have three copies, 16 pixels apart, and player 1 stands 8 pixels right of player 0:
; together 48 pixels. Each copy shows another digit. With both delays on, a write of one player's
; shape brings out the shape that the other one has been waiting with, so four writes
; in twelve cycles give four changes, each at a moment when the copy before has just been shown.
Picture
        lda #0
        sta VBLANK
        sta COLUBK
        sta PF0
        sta PF1
        sta PF2
        sta GRP0
        sta GRP1
        sta ENAM0
        sta ENAM1
        sta ENABL
        lda #3
        sta NUSIZ0
        sta NUSIZ1
        sta VDELP0
        sta VDELP1
        ldx Light
        lda ScoreTint,x
        sta COLUP0
        sta COLUP1
        ldx #5                  ; line 1 to 5: nothing
TopLines
        sta WSYNC
        dex
        bne TopLines
        ldy #7                  ;6 with the last DEX and BNE
        sty Temp                ;9
        nop                     ;11
        ldx #10                 ;13
WaitForScore
        dex
        bne WaitForScore        ;62
        SAMEPAGE WaitForScore
ScoreLine
        ldy Temp                ;65
        lda (Digits+10),y       ;70
        sta.w Last              ;74
        nop                     ;76: here a line begins
        lda (Digits),y          ;5
        sta GRP0                ;8
        lda (Digits+2),y        ;13
        sta GRP1                ;16
        lda (Digits+4),y        ;21
        sta GRP0                ;24
        lda (Digits+8),y        ;29
        tax                     ;31
        lda (Digits+6),y        ;36
        ldy.w Last              ;40
        nop                     ;42
        sta GRP1                ;45: pixel 67, and player 0 was at 56 to 63
        stx GRP0                ;48: pixel 76
        sty GRP1                ;51: pixel 85
        sta GRP0                ;54: pixel 94
        dec Temp                ;59
        bpl ScoreLine           ;62
        SAMEPAGE ScoreLine
        lda #0
        sta GRP0
        sta GRP1
        sta GRP0
        sta WSYNC               ; line 15
        sta VDELP1
        sta HMCLR
        lda ShipDelay
        sta VDELP0
        lda ShipFine
        sta HMP0
        lda SWCHB               ; difficulty 0: a shot of 1 or 4 pixels
        and #$40
        eor #$40
        lsr
        sta NUSIZ0
        lda #$1E
        sta COLUP0              ; the shot
        sta COLUPF              ; the ball
        lda #$20
        sta CTRLPF              ; a ball of 4 pixels
        lda #0
        sta VDELBL
        sta Row
        sta ShotNow
        sta BombNow
        sta BallNow
        sta WSYNC               ; line 16: the ship's place
        ldy ShipCoarse          ;3
WaitForShip
        dey
        bne WaitForShip
        SAMEPAGE WaitForShip
        sta RESP0
        sta WSYNC               ; line 17
        sta HMOVE
        ldx #FirstLine+1
        sta WSYNC               ; line 18
        dex

; ================================================================================================
; The rows: four times 16 lines
; ================================================================================================
; Player 1 is the saucer and then each row of aliens. Between two rows it gets another place: RESP1
; after so many rounds of waiting, of 15 pixels each, and HMOVE for what is left. HMOVE blanks the
; first 8 pixels of its line; the sky is black here, so it doesn't show.
NextRow
        sta WSYNC               ; line 1 of a row
        sta HMCLR               ;3
        lda ShotNow             ;6
        sta ENAM0               ;9
        lda BallNow             ;12
        sta ENABL               ;15
        ldy Row                 ;18
        lda RowFine,y           ;22
        sta HMP1                ;25
        lda RowSize,y           ;29
        sta NUSIZ1              ;32
        lda RowShape,y          ;36
        sta Shape               ;39
        lda RowTint,y           ;43
        sta Tint                ;46
        lda RowCoarse,y         ;50
        tay                     ;52
        dex                     ; for line 3, as line 2 has no time for stores
        dex                     ;56
        DUE txa,BallNow,BallY,BallHeight        ;72
        sta WSYNC               ;75: line 2
        lda Row                 ;3: any three cycles will do
WaitForRow
        dey
        bne WaitForRow
        SAMEPAGE WaitForRow
        sta RESP1
        sta WSYNC               ; line 3
        sta HMOVE               ;3
        lda BallNow             ;6
        sta ENABL               ;9
        dex
        DUE txa,ShotNow,ShotY,ShotHeight
        DUE txa,BallNow,BallY,BallHeight        ;43
        ldy Row
        lda CXM0P               ; whether the shot has met an alien so far
        sta RowHit,y
        ldy #0
RowLine
        lda (Shape),y           ;69
        sta WSYNC               ;72: lines 4 to 15
        sta GRP1                ;3
        lda ShotNow             ;6
        sta ENAM0               ;9
        lda BallNow             ;12
        sta ENABL               ;15
        lda (Tint),y            ;20
        sta COLUP1              ;23
        dex                     ;25
        DUE txa,ShotNow,ShotY,ShotHeight        ;41
        DUE txa,BallNow,BallY,BallHeight        ;57
        iny                     ;59
        cpy #RowLines           ;61
        bne RowLine             ;64
        sta WSYNC               ; line 16
        lda #0
        sta GRP1
        lda ShotNow
        sta ENAM0
        lda BallNow
        sta ENABL
        dex
        DUE txa,ShotNow,ShotY,ShotHeight
        DUE txa,BallNow,BallY,BallHeight
        ldy Row
        iny
        sty Row
        cpy #4
        beq RowsEnd             ;64
        jmp NextRow             ; too far for a branch
RowsEnd

; ================================================================================================
; Setting: 3 lines
; ================================================================================================
; Player 1 becomes the sun: four times as wide, at pixel 64. The playfield is mirrored, and in front
; of the players, so that the sun sets behind the mountains.
        sta WSYNC               ; line 1
        sta HMCLR
        lda #$50
        sta HMP1
        lda #$17                ; four times as wide; a bomb of 2 pixels
        sta NUSIZ1
        lda #$25                ; mirrored, in front, a ball of 4 pixels
        sta CTRLPF
        lda BallDelay
        sta VDELBL
        lda ShotNow
        sta ENAM0
        lda BallNow
        sta ENABL
        lda CXM0P
        sta RowHit+4
        sta WSYNC               ; line 2
        ldy #8                  ;2
WaitForSun
        dey
        bne WaitForSun          ;41
        SAMEPAGE WaitForSun
        sta RESP1               ;44: pixel 69, and HMP1 moves it 5 to the left
        sta WSYNC               ; line 3
        sta HMOVE
        ldy #Pairs
        DUE tya,BallNow,BallPair,BallHeight/2
        DUE tya,BombNow,BombPair,BombHeight/2
        ldx Land1-1,y
        lda (Ship),y
        dey

; ================================================================================================
; The land: 44 pairs of lines
; ================================================================================================
; The first line of a pair gives ship and mountains their shape, the second one gives all their colours
; and the sun its shape, which also brings out a delayed ship and ball. What must be there before
; the first pixel comes first, and is partly in A and X when the line begins.
LandLines
        sta WSYNC               ;74: the first line of a pair
        sta GRP0                ;3
        stx PF1                 ;6
        lda Land0,y             ;10
        sta PF0                 ;13
        lda BallNow             ;16
        sta ENABL               ;19
        lda BombNow             ;22
        sta ENAM1               ;25
        lda Land2,y             ;29
        sta PF2                 ;32: before pixel 48
        DUE tya,ShotNow,ShotPair,ShotHeight/2   ;48
        DUE tya,BallNow,BallPair,BallHeight/2   ;64: for the next pair
        lda (Hills),y           ;69
        sta WSYNC               ;72: the second line
        sta COLUPF              ;3
        lda (Sky),y             ;8
        sta COLUBK              ;11
        lda ShotNow             ;14
        sta ENAM0               ;17
        lda SunShape,y          ;21
        sta GRP1                ;24
        lda (Sun),y             ;29
        sta COLUP1              ;32
        lda (ShipTint),y        ;37
        sta COLUP0              ;40
        DUE tya,BombNow,BombPair,BombHeight/2   ;56: for the next pair
        ldx Land1-1,y           ;60: the next pair's
        lda (Ship),y            ;65: the next pair's
        dey                     ;67
        bpl LandLines           ;70

; ================================================================================================
; The ground: 8 lines
; ================================================================================================
        sta WSYNC               ;72
        ldy #7                  ;2
        lda GroundTint,y        ;6
        sta COLUBK              ;9
        lda #0                  ;11
        sta PF0
        sta PF1
        sta PF2
        sta GRP0
        sta GRP1
        sta ENAM0
        sta ENAM1
        sta ENABL
        sta VDELP0
        ldx Ships
        lda CopiesLeft,x
        sta NUSIZ0
        dey
GroundLines
        lda GroundTint,y
        sta WSYNC
        sta COLUBK
        dey
        bpl GroundLines

; ================================================================================================
; The ships that are left, as copies of player 0: 11 lines
; ================================================================================================
        lda #0
        sta WSYNC               ; line 1
        sta COLUBK
        lda #$AC
        sta COLUP0
        ldy #8                  ; the shape's first byte is empty, and all of it where no ship is left
        lda Ships
        bne SomeShips
        ldy #0
SomeShips
        ldx #7
        sta RESP0
        sta WSYNC               ; line 2
ShipLines
        lda SmallShip,y
        sta WSYNC               ; lines 3 to 10
        sta GRP0
        dey
        bpl MoreShip
        iny
MoreShip
        dex
        bpl ShipLines
        lda #0
        sta WSYNC               ; line 11
        sta GRP0
        sta WSYNC

; ================================================================================================
; Overscan: what happens
; ================================================================================================
Overscan
        lda #2
        sta VBLANK
        lda #OverscanTime
        sta TIM64T
        inc Frame

; Console switches. SELECT counts when it is pressed, not while it is held.
        lda SWCHB
        lsr
        bcs NoReset
        jsr NewGame
        jmp WaitForSync
NoReset
        lda SWCHB
        and #2
        tax
        bne NoSelect
        lda SelectSeen
        beq NoSelect
        lda Light
        eor #1
        sta Light
NoSelect
        stx SelectSeen

; Flashes fade.
        ldx #3
Fade
        lda Flash,x
        beq Faded
        dec Flash,x
Faded
        dex
        bpl Fade

; What the shot met. The first row in which the collision shows is the one that was hit.
        lda ShotY
        cmp #Off
        beq ShotDone
        ldx #0
FindRow
        lda RowHit+1,x
        bmi RowFound
        inx
        cpx #4
        bne FindRow
        bit CXM0FB
        bmi ShotEnds            ; a mountain
        bvc ShotDone
        lda #1                  ; the rock: it flies up, for 5 points
        sta BallUp
        lda #$05
        ldx #0
        jsr AddScore
        jmp ShotEnds
RowFound
        lda #FlashTime
        sta Flash,x
        lda ShotX               ; the column: a shot of 4 pixels may begin up to 3 left of its alien
        clc
        adc #4
        sec
        sbc FormationX
        ldy #1
        cmp #24
        bcc ColumnFound
        iny
        cmp #56
        bcc ColumnFound
        ldy #4
ColumnFound
        tya
        eor #$FF
        and Alive,x
        cpx #0
        bne StillAlive
        lda #0                  ; there is but one saucer
StillAlive
        sta Alive,x
        lda PointsLow,x
        ldy PointsHigh,x
        pha
        tya
        tax
        pla
        jsr AddScore
ShotEnds
        lda #Off
        sta ShotY
ShotDone

; What the bomb and the rock met.
        bit CXM1FB
        bpl BombDone
        lda #Off
        sta BombY
BombDone
        bit CXBLPF
        bpl BallDone
        lda #1                  ; up it goes
        sta BallUp
BallDone

; What the ship met: a mountain, the rock, a bomb.
        lda Dead
        bne ShipBurns
        lda CXP0FB
        and #$C0
        bne ShipIsHit
        bit CXM1P
        bpl ShipFlies
ShipIsHit
        lda #DeadTime
        sta Dead
        lda #1
        sta BallUp
        lda #Off
        sta BombY
        jmp ShipDone
ShipBurns
        cmp #1
        bne ShipBurnsOn
        lda Ships
        beq ShipDone            ; the game is over; only RESET goes on
        dec Ships
        jsr NewShip
        jmp ShipDone
ShipBurnsOn
        dec Dead
        jmp ShipDone

; The joystick. Each bit is 0 where the stick is pressed that way.
ShipFlies
        lda SWCHA
        asl
        bcs NotRight
        ldx ShipX
        cpx #ShipRight
        bcs NotRight
        inc ShipX
NotRight
        asl
        bcs NotLeft
        ldx ShipX
        cpx #ShipLeft+1
        bcc NotLeft
        dec ShipX
NotLeft
        asl
        bcs NotDown
        ldx ShipY
        cpx #ShipLow+1
        bcc NotDown
        dec ShipY
NotDown
        asl
        bcs NotUp
        ldx ShipY
        cpx #ShipHigh
        bcs NotUp
        inc ShipY
NotUp
        lda INPT4               ; the button
        bmi ShipDone
        lda ShotY
        cmp #Off
        bne ShipDone            ; one shot at a time
        lda ShipX
        clc
        adc #3
        sta ShotX
        lda ShipY
        clc
        adc #ShipHeight
        and #$FE
        sta ShotY
ShipDone
        sta CXCLR

; The shot flies four lines a frame, until it is above the saucer.
        lda ShotY
        cmp #Off
        beq ShotMoved
        clc
        adc #4
        cmp #FirstLine-2
        bcc ShotStays
        lda #Off
ShotStays
        sta ShotY
ShotMoved

; The bomb falls two lines a frame, or every other frame, by difficulty 1.
        lda BombY
        cmp #Off
        beq NewBomb
        bit SWCHB
        bmi BombFalls
        lda Frame
        lsr
        bcs BombMoved
BombFalls
        lda BombY
        sec
        sbc #2
        bcs BombStays
        lda #Off
BombStays
        sta BombY
        jmp BombMoved

; A new bomb, every 32 frames at most, below an alien of the lowest row that has one.
NewBomb
        lda Frame
        and #31
        bne BombMoved
        ldx #3
FindThrower
        lda Alive,x
        bne ThrowerFound
        dex
        bne FindThrower
        beq BombMoved
ThrowerFound
        ldx #0                  ; its leftmost alien, or by the frame the next ones
        ldy Frame
        cpy #128
        bcc FirstColumn
        ldx #2
        cmp #4
        bcs ColumnThrows
        dex
        cmp #2
        bcs ColumnThrows
        dex
        jmp ColumnThrows
FirstColumn
        lsr
        bcs ColumnThrows
        inx
        lsr
        bcs ColumnThrows
        inx
ColumnThrows
        lda ColumnShift,x
        clc
        adc FormationX
        adc #3
        sta BombX
        lda #LandTop
        sta BombY
BombMoved

; The rock.
        lda BallX
        clc
        adc BallRight
        sta BallX
        cmp #2
        bne NotAtLeft
        lda #1
        sta BallRight
NotAtLeft
        cmp #154
        bne NotAtRight
        lda #$FF
        sta BallRight
NotAtRight
        lda Frame
        lsr
        bcs BallMoved           ; it rises and falls every other frame
        lda BallY
        clc
        adc BallUp
        sta BallY
        cmp #2
        bne NotAtBottom
        lda #1
        sta BallUp
NotAtBottom
        cmp #FirstLine-8
        bne BallMoved
        lda #$FF
        sta BallUp
BallMoved

; The aliens, one pixel every other frame.
        lda Frame
        lsr
        bcs FormationMoved
        lda FormationX
        clc
        adc FormationRightward
        sta FormationX
        cmp #FormationLeft
        bne NotAtFormationLeft
        lda #1
        sta FormationRightward
NotAtFormationLeft
        cmp #FormationRight
        bne FormationMoved
        lda #$FF
        sta FormationRightward
FormationMoved

; The saucer. At the right it begins again, a new one if need be.
        inc SaucerX
        lda SaucerX
        cmp #144
        bcc SaucerMoved
        lda #8
        sta SaucerX
        lda #1
        sta Alive
SaucerMoved

; Where no alien is left, all come back.
        lda Alive+1
        ora Alive+2
        ora Alive+3
        bne WaitForSync
        jsr NewAliens

WaitForSync
        lda INTIM
        bne WaitForSync
        sta WSYNC
        jmp VerticalSync

; ================================================================================================
; Subroutines
; ================================================================================================

; Place: object X (players, missiles, ball: 0 to 4) to pixel A + 3, or A + 2 for missiles and ball, at
; the next HMOVE. One round of the loop is 5 cycles, so 15 pixels; what is left over is its motion.
PlaceNarrow
        sec
        sbc #2
        bcs Place
        adc #160
Place
        sta WSYNC
        sec                     ;2
PlaceRound
        sbc #15                 ;4
        bcs PlaceRound          ;6 and 5 a round
        SAMEPAGE PlaceRound
        eor #7                  ;8
        asl
        asl
        asl
        asl                     ;16
        sta HMP0,x              ;20
        sta RESP0,x             ;24
        rts

; Split: for pixel A, 6 to 152, the rounds of waiting in Y and the motion in A, for RESP0 or RESP1 in a
; line that waits as NextRow does. Rounds of Y end at pixel 15 Y - 48. X stays.
Split
        clc
        adc #54
        ldy #$FF
        sec
SplitRound
        iny
        sbc #15
        bcs SplitRound
        eor #7
        asl
        asl
        asl
        asl
        rts

; AddScore: X hundreds and A, both decimal.
AddScore
        sed
        clc
        adc Score+2
        sta Score+2
        txa
        adc Score+1
        sta Score+1
        lda #0
        adc Score
        sta Score
        cld
        rts

NewGame
        lda #0
        sta Score
        sta Score+1
        sta Score+2
        lda #3
        sta Ships
        lda #8
        sta SaucerX
        lda #1
        sta Alive
        sta BallRight
        sta BallUp
        lda #20
        sta BallX
        lda #70
        sta BallY
        lda #2
        sta SelectSeen
        jsr NewAliens
NewShip
        lda #76
        sta ShipX
        lda #24
        sta ShipY
        lda #0
        sta Dead
        lda #Off
        sta ShotY
        sta BombY
        rts

NewAliens
        lda #7
        sta Alive+1
        sta Alive+2
        sta Alive+3
        lda #44
        sta FormationX
        lda #1
        sta FormationRightward
        rts

; ================================================================================================
; Tables by row
; ================================================================================================
ShapeOf         .byte <Saucer,<Crab,<Squid,<Beetle
TintOf          .byte <TintSaucer,<TintCrab,<TintSquid,<TintBeetle
PointsLow       .byte $00,$30,$20,$10
PointsHigh      .byte $01,$00,$00,$00
; By the aliens of a row that are left: NUSIZ1, and how far right the first of them is.
CopiesOf        .byte 0,0,0,2,0,4,2,6
ShiftOf         .byte 0,0,32,0,64,0,32,0
ColumnShift     .byte 0,32,64
; By the number of ships that are left: NUSIZ0.
CopiesLeft      .byte 0,0,1,3
ScoreTint       .byte $2C,$9C
ShipOf          .byte <Ship1,<Ship2,<Fire1,<Fire2,<NoShip,<NoShip
; By light: sunset, moonlight, grey.
SkyLow          .byte <SunsetSky,<MoonSky,<GreySky
HillsLow        .byte <SunsetHills,<MoonHills,<GreyHills
SunLow          .byte <SunsetSun,<MoonSun,<GreySun
PaletteHigh     .byte >SunsetSky,>MoonSky,>GreySky

; ================================================================================================
; Shapes and colours
; ================================================================================================
; Each group lies within a page of 256 bytes, as an index that crosses into the next page costs a cycle.
; What is read by a count that goes down to 0 begins with its bottom.
        align 256

; ------------------------------------------------------------------------------------------------
; Digits: 8 lines each, the bottom first, because ScoreLine counts down
; ------------------------------------------------------------------------------------------------
DigitShapes
        ; 0
        .byte %01111100
        .byte %11000110
        .byte %11000110
        .byte %11100110
        .byte %11010110
        .byte %11001110
        .byte %11000110
        .byte %01111100
        ; 1
        .byte %01111110
        .byte %00110000
        .byte %00110000
        .byte %00110000
        .byte %00110000
        .byte %00110000
        .byte %01110000
        .byte %00110000
        ; 2
        .byte %11111110
        .byte %11000000
        .byte %01100000
        .byte %00110000
        .byte %00001100
        .byte %00000110
        .byte %11000110
        .byte %01111100
        ; 3
        .byte %01111100
        .byte %11000110
        .byte %00000110
        .byte %00000110
        .byte %00111100
        .byte %00000110
        .byte %11000110
        .byte %01111100
        ; 4
        .byte %00001100
        .byte %00001100
        .byte %11111110
        .byte %11001100
        .byte %01101100
        .byte %00111100
        .byte %00011100
        .byte %00001100
        ; 5
        .byte %01111100
        .byte %11000110
        .byte %00000110
        .byte %00000110
        .byte %11111100
        .byte %11000000
        .byte %11000000
        .byte %11111110
        ; 6
        .byte %01111100
        .byte %11000110
        .byte %11000110
        .byte %11000110
        .byte %11111100
        .byte %11000000
        .byte %11000110
        .byte %01111100
        ; 7
        .byte %00110000
        .byte %00110000
        .byte %00110000
        .byte %00110000
        .byte %00011000
        .byte %00001100
        .byte %00000110
        .byte %11111110
        ; 8
        .byte %01111100
        .byte %11000110
        .byte %11000110
        .byte %11000110
        .byte %01111100
        .byte %11000110
        .byte %11000110
        .byte %01111100
        ; 9
        .byte %01111100
        .byte %11000110
        .byte %00000110
        .byte %00000110
        .byte %01111110
        .byte %11000110
        .byte %11000110
        .byte %01111100

; ------------------------------------------------------------------------------------------------
; Aliens: 12 lines each, the top first. Each but the saucer has a second shape after its first.
; ------------------------------------------------------------------------------------------------
AlienShapes
Saucer
        .byte %00000000
        .byte %00011000
        .byte %00111100
        .byte %00111100
        .byte %01111110
        .byte %01111110
        .byte %11011011
        .byte %11111111
        .byte %11111111
        .byte %01111110
        .byte %00100100
        .byte %00000000
Crab
        .byte %01000010
        .byte %00100100
        .byte %00111100
        .byte %01111110
        .byte %11011011
        .byte %11011011
        .byte %11111111
        .byte %11111111
        .byte %10111101
        .byte %10100101
        .byte %10100101
        .byte %00100100
CrabToo
        .byte %01000010
        .byte %10100101
        .byte %10111101
        .byte %11111111
        .byte %11011011
        .byte %11011011
        .byte %11111111
        .byte %01111110
        .byte %00111100
        .byte %00100100
        .byte %01000010
        .byte %10000001
Squid
        .byte %00011000
        .byte %00111100
        .byte %01111110
        .byte %11111111
        .byte %11011011
        .byte %11011011
        .byte %11111111
        .byte %01111110
        .byte %00100100
        .byte %01011010
        .byte %10100101
        .byte %10000001
SquidToo
        .byte %00011000
        .byte %00111100
        .byte %01111110
        .byte %11111111
        .byte %11011011
        .byte %11011011
        .byte %11111111
        .byte %01111110
        .byte %00100100
        .byte %01011010
        .byte %01000010
        .byte %00100100
Beetle
        .byte %00111100
        .byte %01111110
        .byte %11111111
        .byte %10011001
        .byte %10011001
        .byte %11111111
        .byte %01111110
        .byte %00111100
        .byte %01100110
        .byte %11000011
        .byte %10000001
        .byte %11000011
BeetleToo
        .byte %00111100
        .byte %01111110
        .byte %11111111
        .byte %10011001
        .byte %10011001
        .byte %11111111
        .byte %01111110
        .byte %00111100
        .byte %01100110
        .byte %01000010
        .byte %01100110
        .byte %00100100
Nothing
        .byte 0,0,0,0,0,0,0,0,0,0,0,0

; ------------------------------------------------------------------------------------------------
; Their colours, line by line
; ------------------------------------------------------------------------------------------------
AlienTints
TintSaucer
        .byte $9E,$9E,$9C,$9C,$9A,$4A,$1E,$4A,$48,$46,$44,$44
TintCrab
        .byte $5E,$5E,$5C,$5C,$5A,$5A,$58,$58,$56,$56,$54,$54
TintSquid
        .byte $BE,$BE,$BC,$BC,$BA,$BA,$B8,$B8,$B6,$B6,$B4,$B4
TintBeetle
        .byte $1E,$1E,$1C,$1C,$1A,$1A,$2A,$2A,$28,$28,$26,$26
TintGrey
        .byte $0E,$0E,$0C,$0C,$0C,$0A,$0A,$0A,$08,$08,$08,$06
TintFlash
        .byte $1E,$0E,$1E,$0E,$1E,$0E,$1E,$0E,$1E,$0E,$1E,$0E
        align 256

; ------------------------------------------------------------------------------------------------
; The ship and its fire: 8 pairs of lines each, the bottom first, with nothing for 44 pairs before and
; after each. A pointer that is set back by the ship's lowest pair then gives each pair of the land its
; byte, without a comparison.
; ------------------------------------------------------------------------------------------------
ShipShapes
        ds 44,0
Ship1
        .byte %00011000
        .byte %11011011
        .byte %11111111
        .byte %01111110
        .byte %00100100
        .byte %00111100
        .byte %00011000
        .byte %00011000
        ds 44,0
Ship2
        .byte %00100100
        .byte %11011011
        .byte %11111111
        .byte %01111110
        .byte %00100100
        .byte %00111100
        .byte %00011000
        .byte %00011000
        ds 44,0
Fire1
        .byte %10010010
        .byte %01001000
        .byte %00101101
        .byte %10111100
        .byte %00111101
        .byte %01011001
        .byte %00100100
        .byte %10010001
        ds 44,0
Fire2
        .byte %10001000
        .byte %00100001
        .byte %10010010
        .byte %00110100
        .byte %01011010
        .byte %00101000
        .byte %10000101
        .byte %00010000
        ds 44,0
        align 256

; ------------------------------------------------------------------------------------------------
; Their colours, laid out alike. Where the ship isn't, this is the colour of the shot.
; ------------------------------------------------------------------------------------------------
ShipTints
        ds 44,$1E
TintShip
        .byte $3A,$A6,$A8,$AA,$9C,$AC,$AE,$4C
        ds 44,$1E
TintFire
        .byte $36,$38,$2A,$1C,$1E,$2C,$3A,$48
        ds 44,$1E
        align 256

; ------------------------------------------------------------------------------------------------
; The land: 44 pairs of lines, the bottom first. The left half; the right half mirrors it.
; ------------------------------------------------------------------------------------------------
Land0
        .byte $F0,$F0,$F0,$F0,$F0,$F0,$F0,$F0,$F0,$F0,$F0
        .byte $F0,$F0,$F0,$F0,$F0,$F0,$E0,$E0,$C0,$C0,$80
        .byte $00,$00,$00,$00,$00,$00,$00,$00,$00,$00,$00
        .byte $00,$00,$00,$00,$00,$00,$00,$00,$00,$00,$00
Land1
        .byte $FF,$FF,$FF,$FF,$FF,$FF,$FF,$FF,$FF,$FF,$FF
        .byte $FF,$FB,$F9,$F1,$F0,$F0,$E0,$A0,$80,$00,$00
        .byte $00,$00,$00,$00,$00,$00,$00,$00,$00,$00,$00
        .byte $00,$00,$00,$00,$00,$00,$00,$00,$00,$00,$00
Land2
        .byte $FF,$FF,$FF,$7F,$3F,$1F,$1F,$0F,$0B,$03,$01
        .byte $01,$01,$00,$00,$00,$00,$00,$00,$00,$00,$00
        .byte $00,$00,$00,$00,$00,$00,$00,$00,$00,$00,$00
        .byte $00,$00,$00,$00,$00,$00,$00,$00,$00,$00,$00

; ------------------------------------------------------------------------------------------------
; The sun: 8 bits, each 4 pixels wide
; ------------------------------------------------------------------------------------------------
SunShape
        .byte $00,$18,$3C,$3C,$7E,$00,$00,$7E,$00,$00,$FF
        .byte $FF,$00,$FF,$FF,$00,$FF,$FF,$FF,$FF,$FF,$FF
        .byte $7E,$7E,$7E,$7E,$3C,$3C,$18,$00,$00,$00,$00
        .byte $00,$00,$00,$00,$00,$00,$00,$00,$00,$00,$00

; ------------------------------------------------------------------------------------------------
; The ground's colours, and a ship that is left
; ------------------------------------------------------------------------------------------------
GroundTint
        .byte $00,$D0,$00,$D0,$D0,$D2,$D0,$D2
SmallShip       ; 8 lines, the bottom first, and an empty one before
        .byte %00000000
        .byte %10011001
        .byte %11011011
        .byte %11111111
        .byte %01111110
        .byte %00100100
        .byte %00111100
        .byte %00011000
        .byte %00011000
        align 256

; ------------------------------------------------------------------------------------------------
; The colours of the land by light, pair by pair: of the sky; of the mountains, and above them of the
; ball; of the sun, and above it of the bomb
; ------------------------------------------------------------------------------------------------
SunsetSky
        .byte $3A,$3A,$38,$38,$38,$48,$48,$46,$48,$46,$46
        .byte $46,$44,$46,$44,$44,$54,$44,$54,$54,$52,$54
        .byte $52,$52,$62,$52,$62,$62,$60,$62,$60,$60,$70
        .byte $60,$70,$70,$80,$70,$80,$80,$80,$00,$80,$00
SunsetHills
        .byte $00,$00,$00,$00,$00,$00,$00,$00,$80,$00,$80
        .byte $80,$00,$80,$80,$80,$80,$70,$80,$70,$70,$70
        .byte $70,$1E,$1E,$1E,$1E,$1E,$1E,$1E,$1E,$1E,$1E
        .byte $1E,$1E,$1E,$1E,$1E,$1E,$1E,$1E,$1E,$1E,$1E
SunsetSun
        .byte $38,$38,$38,$3A,$3A,$3A,$3A,$3A,$3A,$2A,$2A
        .byte $2A,$2C,$2C,$2C,$2C,$2E,$2E,$2E,$1C,$1C,$1E
        .byte $1E,$1E,$1E,$1E,$1E,$1E,$1E,$4C,$4C,$4C,$4C
        .byte $4C,$4C,$4C,$4C,$4C,$4C,$4C,$4C,$4C,$4C,$4C
        align 256
MoonSky
        .byte $AC,$AA,$AA,$A8,$A8,$A6,$A8,$A6,$A6,$A4,$A6
        .byte $A4,$A4,$A4,$A2,$A4,$A2,$A2,$92,$A2,$92,$92
        .byte $92,$92,$90,$92,$90,$90,$90,$90,$90,$90,$80
        .byte $90,$80,$80,$80,$80,$80,$80,$80,$00,$80,$00
MoonHills
        .byte $00,$00,$00,$00,$00,$00,$00,$00,$80,$00,$80
        .byte $00,$80,$80,$00,$80,$80,$80,$80,$80,$80,$80
        .byte $80,$1E,$1E,$1E,$1E,$1E,$1E,$1E,$1E,$1E,$1E
        .byte $1E,$1E,$1E,$1E,$1E,$1E,$1E,$1E,$1E,$1E,$1E
MoonSun
        .byte $A8,$A8,$A8,$AA,$AA,$AA,$AA,$AC,$AC,$AC,$AC
        .byte $AC,$0C,$0C,$0C,$0C,$0C,$0C,$0E,$0E,$0E,$0E
        .byte $0E,$0E,$0E,$0E,$0E,$0E,$0E,$4C,$4C,$4C,$4C
        .byte $4C,$4C,$4C,$4C,$4C,$4C,$4C,$4C,$4C,$4C,$4C
        align 256
GreySky
        .byte $0C,$0C,$0A,$0A,$0A,$0A,$08,$0A,$08,$08,$08
        .byte $08,$06,$08,$06,$06,$06,$06,$06,$06,$04,$06
        .byte $04,$04,$04,$04,$04,$04,$04,$04,$02,$04,$02
        .byte $02,$02,$02,$02,$02,$02,$00,$02,$00,$00,$00
GreyHills
        .byte $00,$00,$00,$00,$00,$00,$00,$00,$02,$00,$02
        .byte $00,$02,$02,$02,$02,$02,$02,$02,$02,$02,$02
        .byte $02,$1E,$1E,$1E,$1E,$1E,$1E,$1E,$1E,$1E,$1E
        .byte $1E,$1E,$1E,$1E,$1E,$1E,$1E,$1E,$1E,$1E,$1E
GreySun
        .byte $0A,$0A,$0A,$0A,$0A,$0A,$0C,$0C,$0C,$0C,$0C
        .byte $0C,$0C,$0C,$0C,$0C,$0E,$0E,$0E,$0E,$0E,$0E
        .byte $0E,$0E,$0E,$0E,$0E,$0E,$0E,$0E,$0E,$0E,$0E
        .byte $0E,$0E,$0E,$0E,$0E,$0E,$0E,$0E,$0E,$0E,$0E

NoShip = Ship1+8                 ; 44 pairs of nothing

        org $FFFA
        .word Reset             ; not wired on this console
        .word Reset             ; where the processor begins
        .word Reset             ; BRK
