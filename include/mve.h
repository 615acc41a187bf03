/* mve.h - a player core for Interplay MVE films: 8-bit pictures or true colour, and sound

SYNOPSIS

The text of examples/synopsis.c, a whole program:

    // Plays the pictures of the film on standard input: counts them, or says why the film is refused.
    #include "mve.h"
    #include <stdio.h>

    static uint8_t film[1 << 24]; // 16 MiB; a longer film is cut there
    static uint8_t palette[MVE_PALETTE_BYTES], a[MVE_PICTURE_BYTES], b[MVE_PICTURE_BYTES], room[1];
    static uint16_t c[MVE_PICTURE_WORDS], d[MVE_PICTURE_WORDS], e[MVE_PICTURE_WORDS]; // for a film with true colour
    static struct mve_stepped answers[2]; // in turn: the state of the one goes in, the other is written
    static size_t length, place, pictures, last; // last: which answer holds

    // In a function of its own, so that the steps do not stand on its stack.
    __attribute__((noinline)) static size_t begin(void) {
        return mve_begin(film, length, MVE_NO_STREAM, &answers[0], MVE_STEPPED_NUMBERS, palette, sizeof palette, &place);
    }

    int main(void) {
        length = fread(film, 1, sizeof film, stdin);
        size_t kind = begin();
        while (kind != MVE_ENDED && kind != MVE_REFUSED) {
            const struct mve_state *from = &answers[last].state;
            struct mve_stepped *out = &answers[1 - last];
            kind = mve_step(film, length, from, MVE_STATE_NUMBERS, out, MVE_STEPPED_NUMBERS, palette, sizeof palette,
                            a, sizeof a, b, sizeof b, c, MVE_PICTURE_WORDS, d, MVE_PICTURE_WORDS, e, MVE_PICTURE_WORDS,
                            &place, room, sizeof room, MVE_ALL_STORES, MVE_DEFAULT);
            if (mve_is_sent(from, &out->state)) {
                // Show picture `front` of the film's kind: a or b by the palette, as many bytes as mve_shown says; or c, d
                // or e, as many words as mve_shown_words says.
                pictures += 1;
            }
            last = 1 - last;
        }
        const struct mve_stepped *end = &answers[last];
        if (kind == MVE_REFUSED) {
            fprintf(stderr, "refusal %zu at byte %zu: %s\n", end->number, end->state.position,
                    mve_refusal_text(end->number));
            return 1;
        }
        printf("%zu pictures of %zu by %zu pixels\n", pictures, 8 * end->state.columns, 8 * end->state.rows);
        return 0;
    }

    cc -I include examples/synopsis.c target/staticlib/libmve.a -o synopsis && ./synopsis < film.mve

mve_begin        opens a film and steps until its size is known: the state just after opcode 0x05
mve_open         the first state of a film, for one stream of its sound or for none
mve_step         one step: a chunk's head, or one opcode with its palette change, its drawing or its samples
mve_shown        how many bytes of the front picture of an 8-bit film are shown
mve_shown_words  how many words of the front picture of a film with true colour are shown
mve_check        whether a packet of an 8-bit film is accepted, without drawing it
mve_check_words  the same of a packet with true colour
mve_draw         the drawing of a packet of an 8-bit film, without the film
mve_draw_words   the same of a packet with true colour
mve_origin       which byte or pixel gave a pixel of an 8-bit packet's picture its value
mve_salvage      what is left of a scratched film, as a new film
mve_strip        a film without what the player passes over, as a new film
mve_encode       map and packet of an 8-bit picture of your own
mve_video1       the drawing of a frame of Microsoft Video 1

mve_step with MVE_STRICT, mve_check_strict, mve_draw_strict, mve_check_words_strict and mve_draw_words_strict are the strict
forms: a packet may leave no byte over (THE PACKET). mve_is_sent tells whether a step sent a picture to the display.
mve_timer reads how long a picture stays (THE TIME OF A PICTURE). mve_widened makes 8 bits of a colour's 6, mve_widened_5 of
5. mve_refusal_text says in words why a call was refused. mve_is_of_block tells whether a refusal names a block. These six
are functions of this header, and are not proved.

A film is 8-bit or has true colour; opcode 0x05 tells which, and so does true_colour in the state. An 8-bit film has two
pictures of bytes, a and b, whose colours the palette has. A film with true colour has three of words, c, d and e, with a
colour of 15 bits in each. A step uses the pictures of the film's own kind alone. The others stay as they are, and may be of
length 0: a host of 8-bit films lends three addresses with length 0, and a film with true colour is then refused by
MVE_ERROR_LENT_LENGTH, right behind its size.

examples/play.c is a whole player, which is stopped again and again and goes on. docs/RULES.md has all rules in full.

mve_begin opens a film and steps until its size is known. It refuses a film that mve_open or one of these steps refuses, and
one that has no size. It drops the samples before the size, and tells nothing of the opcodes that it passes. So a host that
wants these samples, or the time of a picture (opcode 0x02) or the rate of the sound (opcode 0x03), calls mve_open and steps
from there on.

MEMORY

The library allocates nothing and keeps nothing between calls. The caller lends all memory. (The library calls memset, to
set lent bytes, and no other function.) The caller must keep three rules:

    While a call runs, nobody else writes to lent memory, and nobody else reads what is lent for writing: out, palette,
    pictures, place, room and list, and of mve_encode map and body.
    What is lent for writing shares no byte with anything else that is lent. So from and out share no number.
    Every address comes with its length, and is not null even where the length is 0. The addresses of from, out, place
    and list are aligned, as those of size_t are, and the addresses of pictures of words, as those of uint16_t are.

The length of a picture of words is counted in words.

Beyond these rules nothing is asked: the library answers any values and any lengths.

A state is MVE_STATE_NUMBERS numbers, and an answer about a film MVE_STEPPED_NUMBERS: struct mve_state and struct mve_stepped
have a size_t for each and nothing else. A call takes them by their address and the count of their numbers. The state that
goes in, from, is only read. The answer is written to out, with the next state at its end, and its first number, the kind,
is what the call returns. Before all else a call tests the counts:

    First, where out has fewer numbers than an answer, the call returns MVE_REFUSED. Nothing that is lent changes, out
    neither. Where out has more, those behind the answer stay as they were.
    Then, where from has more or fewer numbers than a state, or its left or right is above 65,535, mve_step refuses it by
    MVE_ERROR_STATE. Nothing else that is lent changes, and the state in out is zeros. mve_shown and
    mve_shown_words give 0.

Before the first step, set palette, pictures and the place to 0. The library writes only what the film says, so
until a film sets a colour or draws a block, the host's bytes are used as they are. A film may copy from a picture that
it has not drawn yet.

A refused call changes nothing that is lent but out. A step that is refused, ended or unfinished gives back the state that
it was given. A refused mve_begin gives back the state that the refused step was given, so that the byte can be named.

What a player lends for writing, at most:

                                               8-bit        true colour
    palette                                      768                768 bytes
    two pictures of 307,200 bytes            614,400
    three pictures of 307,200 words                           1,843,200 bytes
    room                                     131,070            131,070 bytes; 0 where no sound is wanted
    place                                          8                  8 bytes
    two answers of 208                           416                416 bytes
    in all                                   746,662          1,975,462 bytes

Palette, pictures and room are 746,238 bytes of it, or 1,975,038. No picture is needed before the size is known. So a player
of both kinds may open the film by mve_begin, and lend the same memory as pictures of the one kind or of the other.

STOPS

A step makes its stores one by one, in a fixed order. Each is of one byte of the palette, of one pixel (a byte, or with true
colour a word), or of the place:

    0x0B, 0x0C, 0x0D   the bytes of the palette, by rising entry, red, green, blue; of 0x0B the red-blue gradient first. An
                       entry that both gradients have is stored twice.
    0x0F               the place, which becomes 0
    0x11               of each block its pixels, row by row, then the place, which becomes the number of the next block
    all others         none. Samples are not counted: they go to the room.

The place is the number of the first block that is not finished. `allowed` limits the stores of a step, and `stores` tells
how many it made. A step that is allowed fewer than are due makes the first of them, answers MVE_UNFINISHED and gives its
state back as it came; the next call takes the opcode again. A drawing then goes on from the place: a block that was begun
is drawn again from its first pixel, which gives the same picture, because no block reads a pixel of its own. A palette
and 0x0F begin again with their first store.

A block has at most MVE_BLOCK_STORES stores (with true colour each has so many), a palette MVE_PALETTE_STORES, the largest
picture MVE_ALL_STORES. A palette that begins again is never done by calls that are each allowed fewer stores than it has. So
allow MVE_PALETTE_STORES or more; then every call gets on. With MVE_ALL_STORES no call is unfinished. mve_draw,
mve_draw_words and their strict forms are limited and counted as 0x11 is.

A watchdog may stop the program between any two stores, in any step of a film or in a drawing call. To go on, call again with
the same film and the same state, and with palette, pictures and place as the stop left them. Where this call is allowed
MVE_ALL_STORES, its answer, the new state, the palette, the place and the pictures are those of a call that nothing stopped;
its count of stores may be smaller. So a film sends the same pictures with the same palettes, gives the same samples and ends
alike, however often it is stopped, and wherever. This is proved of every film (docs/PROOFS.md). A host must keep, in memory
that outlives the stop:

    the film, unchanged;
    palette, the film's pictures and the place, as the stop leaves them. Set none of them back.
    the state that went into the step which was stopped. It is never written. The new one is written to out number by
    number, and a stop may fall between two of them. So have two answers in that memory and use them in turn, the state of
    the one as from and the other as out. Which of them holds is a word of its own, stored when the step has returned. A
    stop before that store leaves the old state, and the step is taken again. An older state is not enough: what is kept
    with it has moved on.

A step that sends a picture is taken again where the program is stopped before the new state is saved, and sends the same
picture again. Show it before the state is saved: then none is lost.

The room need not outlive the stop. A step that was stopped while it wrote samples writes the same samples again, because
the state holds the last samples before them. To play no sample twice, count the samples of a step as played when its new
state is saved, and not before. (examples/play.c keeps the length of its sound file with the state, and cuts the file back
to it after a stop.)

mve_begin is not limited, but it may be stopped, too. It has then changed some bytes of the palette, or the place, which
were lent before the film's first picture. Open again: call it anew, with palette and place as the stop left them or as
they were before. The answer, the palette and the place are then those of a call that was not stopped. A call that is
refused makes no store but to out, so a stop inside it changes nothing else.

All this holds on a machine that keeps two rules:

    Stores reach that memory in program order: when the program starts again, a store is there only if all stores before
    it are there. A write-back cache must not be lost at the stop, or must be flushed in order.
    No store is torn: it is there in full or not at all. The place is one aligned word, stored at once, and so is the word
    that says which answer holds. Compiled code may store neighbouring pixels, or bytes of the palette, by one wider store.
    The three bytes of a gradient with one entry are stored by memset, in its order; a palette that is taken again stores
    them again.

On x86-64 both hold for memory that processes share, whenever one of them is stopped or killed. host/stops tests it.

LINKING FOR A BOOT STAGE

libmve.a is one object for x86-64 and the System V ABI. It needs no operating system, and of the C library only what is
undefined below. Every function has a section of its own, so that the linker's --gc-sections leaves out those that are not
called. All relocations are relative: code and constants may be loaded at any address, as long as they stay together.

    code                            66,183 bytes
    constants                       1,806 bytes
    memory of its own               0 bytes
    undefined symbols               memset
    relocations                     R_X86_64_PC32, R_X86_64_PLT32
    vector registers                xmm0 to xmm15
    below the stack pointer         88 bytes
    stack of mve_begin              840 bytes
    stack of mve_check              208 bytes
    stack of mve_check_strict       208 bytes
    stack of mve_check_words        240 bytes
    stack of mve_check_words_strict 240 bytes
    stack of mve_draw               440 bytes
    stack of mve_draw_strict        440 bytes
    stack of mve_draw_words         544 bytes
    stack of mve_draw_words_strict  544 bytes
    stack of mve_encode             408 bytes
    stack of mve_open               168 bytes
    stack of mve_origin             272 bytes
    stack of mve_salvage            584 bytes
    stack of mve_shown              8 bytes
    stack of mve_shown_words        8 bytes
    stack of mve_step               816 bytes
    stack of mve_strip              520 bytes
    stack of mve_video1             72 bytes

The stack of a call is the most that it takes, together with all that it calls: return addresses, pushed registers and
arguments, locals with the copies of constant tables, and what is used below the stack pointer. Each call takes less than
1,024 bytes. The arguments that its caller puts on the stack and the caller itself come on top. An undefined function, such
as memset, is the host's own, and so is its stack: only its return address is counted.

A boot stage has one stack for all of this. A whole stage is a least caller in C, its arguments and the call, compiled with
-O2 and with -Os, the larger of both:

    compiler of the stages                gcc 12.2.0
    whole stage of mve_begin              872 bytes
    whole stage of mve_check              304 bytes
    whole stage of mve_check_strict       304 bytes
    whole stage of mve_check_words        336 bytes
    whole stage of mve_check_words_strict 336 bytes
    whole stage of mve_draw               648 bytes
    whole stage of mve_draw_strict        648 bytes
    whole stage of mve_draw_words         768 bytes
    whole stage of mve_draw_words_strict  768 bytes
    whole stage of mve_encode             520 bytes
    whole stage of mve_open               184 bytes
    whole stage of mve_origin             416 bytes
    whole stage of mve_salvage            680 bytes
    whole stage of mve_shown              24 bytes
    whole stage of mve_shown_words        40 bytes
    whole stage of mve_step               1,024 bytes
    whole stage of mve_strip              536 bytes
    whole stage of mve_video1             88 bytes

The least caller of mve_step is main of examples/synopsis.c. It keeps all its variables out of the stack, and opens the film
in a function of its own that is not inlined, so that the steps do not stand on the frame of the opening. The others are
functions of one call. No stage takes more than 1,024 bytes. The stages are also run, on a stack that is painted before. What
the example calls of the C library is not counted.

At a call the stack pointer is a multiple of 16, as the ABI says. An interrupt that is taken on the same stack must leave
the ABI's red zone alone, the 128 bytes below the stack pointer. Every instruction is one that every x86-64 processor
has, up to SSE2; a stage without an operating system switches SSE on first (CR4.OSFXSR).

`cargo run -p stack -- --header` in host/ makes the tables, and a test compares them with the archive.

THE FILM

Numbers are little-endian. A word has 16 bits.

    header   "Interplay MVE File", 1A 00, words 001A 0100 1133      26 bytes
    chunk    word length, word type (not read), body                length counts the body alone
    opcode   word length, byte type, byte version, body             the same; opcodes fill a chunk's body exactly

    type    version  body
    0x00    0        none, last in its chunk; ends the film
    0x01    0        none, last in its chunk; ends the chunk
    0x03    0, 1     8, 10 bytes: the format of the sound
    0x05    0 to 2   4, 6, 8 bytes: words columns and rows, a count, and in version 2 the true-colour word. If this is not 0,
                     the film has true colour; in the other versions it is 8-bit. Columns and rows count blocks of 8x8
                     pixels: 1 to 80 and 1 to 60, up to 640x480 pixels. Once in a film.
    0x07    0, 1     4, 6 bytes, not read: sends the frame. If one is finished and unsent, the picture that was drawn on
                     becomes the front: in an 8-bit film front and back change roles, with true colour front goes from
                     0 to 1, from 1 to 2 and from 2 to 0.
    0x08    0        6 bytes or more: sound
    0x09    0        6 bytes: silence
    0x0B    0        6 bytes: two gradients of the palette, red-blue and red-green: base, rows, columns of each
    0x0C    0        words start and count, then 3 bytes an entry
    0x0D    0        32 groups: a mask byte, lowest bit first, and 3 bytes for each bit that is one
    0x0F    0        the map for the next 0x11; the place becomes 0
    0x11    0        14 bytes that are skipped, then the packet; of a film with true colour 16 bytes or more
    0x02, 0x04, 0x0A, 0x12 to 0x15: passed over unread. 0x03, 0x08 and 0x09 are passed over, too, where the stream is above
    15. All other types are refused.

The palette has 256 entries of red, green and blue, 0 to 63, one byte each. mve_widened gives the 8 bits that a display
takes. Palette opcodes act in films with true colour, too, whose pixels do not read the palette.

A picture of an 8-bit film has one byte a pixel, row by row: 8 times columns bytes for each row of pixels, 64 times columns
times rows in all. A picture with true colour has as many words: red in bits 10 to 14, green in bits 5 to 9 and blue in bits
0 to 4, each 0 to 31, of which mve_widened_5 makes 8 bits. Bit 15 of every word that is stored is 0.

THE TIME OF A PICTURE

The library keeps no time and passes over opcode 0x02, which gives it: a rate of 32 bits, in microseconds, then a word, the
subdivision. Rate times subdivision is how long each picture stays, from this opcode on to the next 0x02. The usual values
are 8,341 and 8: 66,728 microseconds, about 15 pictures a second. mve_timer reads an 0x02 at the state that goes into a step:

    static uint64_t now, stays = 66728; // in microseconds
    uint64_t timer = mve_timer(film, length, from);
    if (timer != 0) stays = timer;
    // then the step; and where mve_is_sent tells that it sent a picture:
    // show the picture when `now` microseconds of the film have passed
    now += stays;

After a stop, `now` and `stays` are needed again: save them together with the state.

THE SOUND

A film has up to 16 streams of sound, 0 to 15. mve_open and mve_begin are told which one is wanted. Any number above 15
chooses none (MVE_NO_STREAM): 0x03, 0x08 and 0x09 are then passed over, whatever their version and length.

    0x03         a word that is not read; word of flags: bit 0 stereo, bit 1 16-bit, bit 2 compressed (in version 1 alone);
                 word of the rate, in samples of a channel a second, and the length of a buffer. The library reads neither
                 rate nor length; a host finds the rate in bytes 4 and 5 of the body, counted from 0. A later 0x03 starts
                 afresh.
    0x08, 0x09   word of an index that is not read; word of a mask, which has bit n for stream n; word of the count of
                 samples, of both channels together; in 0x08 then the data. A packet whose mask lacks the stream's bit is
                 passed over.

A step that takes an 0x08 or 0x09 of the stream writes its samples at the room's front and answers how many bytes in `bytes`.
The rest of the room stays. Samples of 16 bits are signed, with the low byte first; those of 8 bits are unsigned. In
stereo left and right come in turn. state.stereo and state.wide tell the format.

    0x08, uncompressed   the data: one byte a sample, or two
    0x08, compressed     16-bit. The first one behind a 0x03 has a start word for each channel, which are its first samples;
                         then, as in all later ones, a byte a sample, which picks one of 256 steps from the last sample of
                         its channel, added with wrap-around. The state carries the last samples from packet to packet.
    0x09                 zero samples (of 8 bits 128); the last samples stay

A room of MVE_ROOM_BYTES is always enough. After MVE_ERROR_ROOM call again with more: nothing has changed.

THE PACKET

Blocks are 8x8 pixels, left to right, then down. The map has a code for each: a nibble, low nibble first. The data has the
bytes of each block in the same order. This is a packet of an 8-bit film; the next section has the other kind. "Front" is the
picture shown. "Back" is the other one, two frames old, which is drawn on. A copied 8x8 lies inside its picture.

Many films pad a packet to an even length, so one byte may be left over behind the data of the last block; it is not read.
Two or more are refused. This is the default form of the calls that have two: mve_check, mve_draw, mve_step with MVE_DEFAULT,
mve_check_words and mve_draw_words. Players use it. The strict forms, mve_check_strict, mve_draw_strict, mve_step with
MVE_STRICT, mve_check_words_strict and mve_draw_words_strict, refuse one byte, too. They are for those who make films and
want every byte accounted for. A default call and a strict one give the same answer and leave the same memory, unless exactly
one byte is left over and nothing else is wrong: then the default call accepts the packet, and the strict one refuses it by
MVE_ERROR_DATA_LEFT. Calls of both forms may be mixed, also within one picture.

    code     bytes           pixels
    0        0               the same block of front
    1        0               left as they are
    2, 3     1               copied from back, forward or the negated offset
    4, 5     1, 2            copied from front, nibble or byte offsets
    7        10, 4           two colours, a bit a pixel or a 2x2
    8        16, 12          two colours for each quarter or half
    9        20, 8, 12, 12   four colours, two bits a pixel, 2x2, 2 wide or 2 high
    A        32, 24          four colours for each quarter or half
    B to E   64, 16, 4, 1    a byte a pixel, 2x2, 4x4, 8x8
    F        2               two colours in turn, as on a chessboard

The fields of 7 to A, of one bit or two, run left to right, then down, from the low end of each byte. docs/RULES.md says
how the colours choose a form, and what the offsets are.

THE PACKET WITH TRUE COLOUR

The packet of a film with true colour has two parts. It begins with a word, the offset, counted from the packet's first byte.
The first part lies between this word and the offset, the second from the offset on. A packet under 2 bytes, and an offset
below 2 or above the packet's length, are refused by MVE_ERROR_PARTS. An offset that is the length is taken: the second part
is empty then. The map is that of an 8-bit packet.

A pixel is a word, with the low byte first. There are three pictures. "Last" is the one that is shown, "oldest" the one that
was shown before it, and "new" the one that is drawn on. With front f, picture f is the last, f + 1 the new one and f + 2 the
oldest, where 3 means 0 and 4 means 1, and pictures 0, 1 and 2 are c, d and e.

    code     first part       second part   pixels
    0        0                0             the same block of last
    1, F     0                0             the same block of oldest
    2        0                1             copied from oldest, forward offset
    3        0                1             copied from new, the negated offset
    4        0                1             copied from last, nibble offsets
    5        2                0             copied from last, byte offsets
    6        2                0             copied from oldest, byte offsets
    7        12, 6            0             two colours, a bit a pixel or a 2x2
    8        24, 16           0             two colours for each quarter or half
    9        24, 12, 16, 16   0             four colours, two bits a pixel, 2x2, 2 wide or 2 high
    A        48, 32           0             four colours for each quarter or half
    B to E   128, 32, 8, 2    0             a word a pixel, 2x2, 4x4, 8x8

Colours have two bytes; the fields of 7 to A are those of an 8-bit packet. Where the order of two colours chooses the form of
an 8-bit block, bit 15 of the first of the two does here: where it is 1 the pair counts as falling. In every other colour bit
15 means nothing. It is never stored: each word that is stored, also by a copy, has bit 15 cleared. Every block is stored,
that of code 1, too, so each has 65 stores. Offsets are those of an 8-bit packet, and a copied 8x8 lies inside its picture.

One byte may be left over at the end of the second part, in the strict forms none. No byte may be left over in the first
part.

mve_origin and mve_encode are of 8-bit packets alone.

THE ROWS TOUCHED

A row of blocks is touched by a packet where it holds a block other than code 1; code 0 counts, whatever it copies. With true
colour every row is touched, because every block is stored. If there is a touched row, `touched` is 1, and `first_row` and
`last_row` are the first and the last of them, counted from 0 (8 rows of pixels each). If there is none, all three are 0.
They come with MVE_ACCEPTED of the checks, and with MVE_WHOLE and MVE_UNFINISHED of the drawing calls and of mve_step at an
0x11, in both forms. They are always those of the whole packet, whatever the place and the count of stores. Every other
answer has none. A drawing leaves all pixels of the other rows, and all pictures but the one that it is drawn on, as they
are.

A display with a slow link may keep a copy of each of the film's pictures, as each was last sent, and be sent the touched
rows alone. For this, keep the rows touched since the last sending, for each of the pictures. Begin with no row if the
copies begin as the pictures do, else with all. Then:

    When a step answers MVE_WHOLE, join its rows to those of the picture drawn on: b if the front of the state that went in
    is 0, a if it is 1; with true colour d if it is 0, e if it is 1, c if it is 2.
    When mve_is_sent tells that a picture was sent, it is now the front. Send the rows kept for it, from the first to the
    last, to its copy; then keep none for it. The other copies stay as they are.

The rows of the last packet alone may be too few: a frame that is never sent is drawn over, and its rows are still to be
sent.

Save the rows together with the state, in one write: a stop may fall between 0x11 and 0x07. A drawing that was stopped or is
unfinished is taken again and tells the same rows at its end. A host that gives up an unfinished drawing must join the
rows of MVE_UNFINISHED, too.

WHERE A PIXEL COMES FROM

Every pixel of a picture is read from one place: a byte of the packet, or a pixel of a picture. mve_origin names it, and it
holds the very value that the pixel has once the packet is drawn. Of a pattern that is the byte of the colour, not that of
the bits which chose it.

    MVE_DATA     byte `byte` of the packet, counted from its first: codes 7 to F
    MVE_FRONT    pixel x, y of front: codes 0, 4 and 5
    MVE_BACK     pixel x, y of back as it was before the packet: code 1, the pixel itself, and code 2
    MVE_NEW      pixel x, y of the new picture, in an earlier block: code 3. Ask again for that pixel to go on.

The packet is what mve_check takes as data: in a film, what stands behind the 14 bytes of opcode 0x11. Of front and back only
the lengths are read.

WHAT IS LEFT OF A SCRATCHED FILM

mve_salvage walks over a film chunk by chunk and writes what is left of it to the room, as a new film:

    the header;
    each chunk in which no opcode meets refusal 3, 4 or 5: the same bytes in the same order. An empty chunk is kept, too;
    unless the last kept chunk has opcode 0x00, a chunk that has nothing else: 04 00 05 00 00 00 00 00.

Of an opcode, refusals 3, 4 and 5 are tested as a step tests them, and 0x03, 0x08 and 0x09 whatever the stream. 0x11 needs 14
bytes, also in a film with true colour. Of 0x0C and 0x0D, 5 means that the content does not fill the body exactly. Nothing
else is tested, so the new film may still be refused where it is played: for a packet that does not fit, for instance.

The list gets MVE_LOSS_NUMBERS numbers for each chunk left out, in the order of the film:

    the position of its head in the film
    its length, as the head has it, without the head
    the refusal first met in it: 3, 4 or 5

The answer tells how the walk stopped, apart from the list:

    MVE_STOP_FILM_END     at the end of the film
    MVE_STOP_BEHIND_END   behind a kept chunk with opcode 0x00. A 0x00 in a chunk left out does not stop the walk.
    MVE_STOP_PAST_END     where a chunk or its head passes the end of the film (refusal 2). All from there on is not kept.

It counts the bytes of the header, of the chunks kept and of the chunks left out, both with their heads, and of the rest that
was not walked. These four are counted by the walk, and it is proved that they add up to the length of the film.

A room of film_length + 8 bytes is always enough, and so is a list of 3 * (film_length / 5) numbers, since a chunk left out
has five bytes or more. Where room or list is too short, nothing is written. The film is walked twice, once to measure and
once to write. The new film saved again is kept whole, with nothing left out: that is proved, too. A call that is stopped in
the middle leaves any part of both written; call it anew.

A FILM WITHOUT WHAT THE PLAYER PASSES OVER

mve_strip writes a film to the room that takes less memory and plays the same, for one stream of its sound or for none:

    the header;
    the opcodes that are acted on, with the same bytes in the same order. Of sound, where the stream is 0 to 15, these are
    0x03 and those of 0x08 and 0x09 whose mask has the stream's bit; where it is above 15, none of the three. 0x01 is kept.
    All others go;
    around them their chunks, with the same types; each length is that of what is left. A chunk without an opcode goes;
    nothing of what follows the chunk with 0x00.

Opcode 0x02 goes, too: a host that needs the time of a picture must keep it elsewhere (THE TIME OF A PICTURE).

It is proved that both films, played from equal lent memory with 312,000 stores a step, send the same pictures with the same
palettes, give the same samples of the stream, and end alike: both come to their end, or both are refused by the same number.

Refused by 1 for the header; then by the first of 2 to 5 that the film meets, tested as mve_salvage tests them: sound
whatever the stream, nothing behind the chunk with 0x00; then by 19 where the room is too short. A scratched film is for
mve_salvage first. Other refusals are not tested: a film that is refused by them where it is played is stripped, and so is
the new one.

The new film is never longer, so a room of film_length bytes is always enough. Stripped again for the same stream it stays as
it is. Both are proved. The film is walked twice, once to measure and once to write. A call that is stopped in the middle
leaves any part of the room written; call it anew.

PICTURES OF YOUR OWN

mve_encode writes map and packet of an 8-bit film that give a wanted picture, from the two pictures that a player has before
it: front, the one shown, and back, the one that is drawn on. The map is the body of opcode 0x0F. The packet goes to body
with 14 zero bytes in front of it: that is the body of opcode 0x11.

    mve_check_strict accepts map and packet, and mve_draw_strict from place 0 on back gives the wanted picture exactly. What
    back has beyond the size stays.
    For each block no choice among codes 0, 1, 7 and B to F gives its pixels by fewer data bytes, and none by as many has a
    lower code. So a block that front has is code 0, and one that back has code 1.

Both are proved. The map has half a byte for each block, rounded up, with 0 in a spare nibble: MVE_MAP_BYTES at most. The
body has at most MVE_BODY_BYTES, the most that an opcode can hold behind its head in a chunk. A picture that needs more is
refused by MVE_ERROR_PACKET_LENGTH: no choice among these codes is shorter.

Take as front and back what a player has: after 0x07 front and back change roles. So keep two pictures, write the wanted one
over back when the frame is in the film, and change their roles. Some other players change roles only where bit 0 of byte 12
of opcode 0x11's body is set; this library skips these bytes. A film for them sets it (docs/PEERS.md).

The blocks are measured first and then written, so nothing is written where the call is refused. A call that is stopped in
the middle leaves any part of map and body written; call it anew.

MICROSOFT VIDEO 1

mve_video1 draws a frame of Microsoft Video 1 with 8-bit pixels on the picture, to be stored in a film. The size is counted
in blocks of 8x8 pixels, as of a film; the frame has blocks of 4x4 pixels, 2 * columns in a row and 2 * rows of these. They
come left to right, from the bottom row of the picture up. The data is a list of codes, each with its bytes a and b:

    b            bytes   what it gives
    00 to 7F     4       a block of two colours, the third byte and the fourth
    84 to 87     2       (b - 84) * 256 + a blocks are skipped, 0 to 1,023: they stay as lent
    90 to FF     10      a block of eight colours: two for each 2x2 quarter, in the order lower left, lower right, upper
                         left, upper right
    others       2       a block of one colour, a

A bit of a or b chooses between two colours: 1 the first, 0 the second. Bits 0 to 3 of a are the block's bottom row, from
the left; bits 4 to 7 of a, 0 to 3 of b and 4 to 7 of b are the rows above it. After all blocks stands the end mark, 00 00,
and nothing behind it. Before that 00 00 are the bytes a and b of a block of two colours.

All is judged before the first store, so a refusal leaves the picture as it was. So does a frame leave what it skips, and all
bytes behind the first 64 * columns * rows. The data is walked twice. A call that is stopped in the middle leaves any part
of the picture drawn; called anew, it gives the same picture, because no code reads a pixel.
*/

#ifndef MVE_H
#define MVE_H

#include <stddef.h>
#include <stdint.h>

#ifdef __cplusplus
extern "C" {
#endif

/* The version of this interface. It changes with every change of the calls, of the structs, of the names, of the packets
   that are accepted and of the pictures that they give. CHANGELOG.md says what changed in each. */
#define MVE_VERSION 16

/* The bytes of the palette: 256 entries of red, green and blue. */
#define MVE_PALETTE_BYTES 768

/* The bytes of the largest picture of an 8-bit film: 640x480 pixels. Pictures of this length are always enough. */
#define MVE_PICTURE_BYTES 307200

/* The words of the largest picture of a film with true colour, which is as large. */
#define MVE_PICTURE_WORDS 307200

/* The bytes of a room that is always enough: a word counts a packet's samples, and each has two bytes at most. */
#define MVE_ROOM_BYTES 131070

/* The stores of the largest picture: a call that is allowed so many is never unfinished. */
#define MVE_ALL_STORES 312000

/* The stores of the longest palette, 0x0B with 256 entries in both of its gradients: a palette that is allowed so many is
   never unfinished. */
#define MVE_PALETTE_STORES 1536

/* The stores of a block that has pixels to store, 64 pixels and the place: a call that is allowed fewer finishes none. */
#define MVE_BLOCK_STORES 65

/* The bytes of the largest map and of the longest body that mve_encode writes. */
#define MVE_MAP_BYTES 2400
#define MVE_BODY_BYTES 65531

/* A stream number that no film has: all sound is passed over. So it is with every larger number. */
#define MVE_NO_STREAM 16

/* How many numbers a state and an answer about a film have, and the list of mve_salvage for each chunk left out. */
enum { MVE_STATE_NUMBERS = 18, MVE_STEPPED_NUMBERS = 26, MVE_LOSS_NUMBERS = 3 };

/* The forms of a step: how many bytes a packet may leave over. Any other number means the strict form, too. */
enum mve_form {
    MVE_DEFAULT = 0, /* one byte or none */
    MVE_STRICT = 1   /* none */
};

/* What a call answers. */
enum mve_kind {
    MVE_ACCEPTED = 0,   /* a check: the packet gives a picture, and no more bytes are left over than may be */
    MVE_FOUND = 0,      /* mve_origin: the byte or the pixel is named */
    MVE_TAKEN = 0,      /* mve_begin, mve_open, mve_step: done; no pixel was drawn */
    MVE_WHOLE = 1,      /* the picture is drawn to its end */
    MVE_UNFINISHED = 2, /* the stores allowed were made; more are due (STOPS) */
    MVE_ENDED = 3,      /* mve_step: the film has ended; nothing is changed */
    MVE_REFUSED = 4     /* nothing is changed but out; the number says why */
};

/* The numbers of refusal. A call gives the first that it meets. mve_step meets 2 to 20, and tests them in the order of this
   list; an out that is too short (MEMORY) comes before them, and has no number. The other calls test in these orders:

       mve_open                        1
       mve_begin                       1, 8 for the palette; then at each step 2 to 7, 9, 17, 18, as mve_step does; 21 at the
                                       film's end
       mve_check, mve_check_strict     6, 10, the blocks, 15
       mve_check_words and _strict     6, 10, 20, the blocks, 15
       mve_draw, mve_draw_strict       6, 8, 10, 11, the blocks, 15
       mve_draw_words and _strict      6, 8, 10, 11, 20, the blocks, 15
       mve_origin                      6, 8, 10, the blocks, 15, 22
       mve_salvage                     1, 19
       mve_strip                       1, the first of 2 to 5 in the order of the film, 19
       mve_encode                      6, 8, 23, 19
       mve_video1                      6, 8, the first met of 24 and 25, 26

   Of several blocks with a fault, the one with the lowest number is given, with its first fault in the order 12, 13, 14. */
enum mve_refusal {
    MVE_ERROR_STATE = 16,        /* from is no state (MEMORY), or one with position, chunk end, map, front, size or sound
                                    format out of bounds */
    MVE_ERROR_LENT_LENGTH = 8,   /* palette not 768 bytes, or a picture of the film's kind shorter than the frame */
    MVE_ERROR_HEADER = 1,        /* film header wrong or short (not mve_step) */
    MVE_ERROR_CHUNK = 2,         /* a chunk or its head passes the end of the film */
    MVE_ERROR_OPCODE = 3,        /* an opcode or its head passes its chunk, or bytes follow 0x00 or 0x01 */
    MVE_ERROR_TYPE = 4,          /* opcode type or version not taken */
    MVE_ERROR_BODY_LENGTH = 5,   /* opcode body of a wrong length: of 0x11 under 14 bytes, with true colour under 16 */
    MVE_ERROR_FRAME_SIZE = 6,    /* columns not 1 to 80, rows not 1 to 60, or a second size */
    MVE_ERROR_PALETTE = 7,       /* palette range or colour component too large */
    MVE_ERROR_NO_FRAME = 9,      /* 0x11 without a frame size or a map */
    MVE_ERROR_MAP_LENGTH = 10,   /* map length does not fit the frame size */
    MVE_ERROR_PLACE = 11,        /* place above the block count */
    MVE_ERROR_PARTS = 20,        /* with true colour: packet under 2 bytes, or offset below 2 or past the packet's end */
    MVE_ERROR_CODE_6 = 12,       /* code 6, which 8-bit films do not have */
    MVE_ERROR_DATA_SHORT = 13,   /* too few data bytes */
    MVE_ERROR_COPY_OUTSIDE = 14, /* copied from outside the picture */
    MVE_ERROR_DATA_LEFT = 15,    /* two data bytes or more left over; in the strict forms, and in the first part of a packet
                                    with true colour, one or more */
    MVE_ERROR_SOUND_FORMAT = 17, /* 0x08 or 0x09 of the stream before a 0x03, or a 0x03 both 8-bit and compressed */
    MVE_ERROR_SOUND_LENGTH = 18, /* data not as long as the count of samples says, a count that is odd in stereo, or
                                    below the channels in the first compressed 0x08 */
    MVE_ERROR_ROOM = 19,         /* room too small for the samples or for a new film, list for the chunks left out, or map
                                    or body for what is to be written there */
    MVE_ERROR_NO_SIZE = 21,      /* the film ends without a frame size (mve_begin alone) */
    MVE_ERROR_POSITION = 22,     /* a position outside the picture (mve_origin alone) */
    MVE_ERROR_PACKET_LENGTH = 23, /* a packet that is longer, with its 14 bytes, than MVE_BODY_BYTES (mve_encode alone) */
    MVE_ERROR_FRAME_SHORT = 24,  /* data ends before all blocks are passed (mve_video1 alone, as the next two) */
    MVE_ERROR_SKIP_OUTSIDE = 25, /* a skip passes the last block */
    MVE_ERROR_END_MARK = 26      /* behind the last block stands not the end mark alone */
};

/* What a number of refusal means, for messages. */
static inline const char *mve_refusal_text(size_t number) {
    switch (number) {
    case MVE_ERROR_HEADER: return "the film does not begin with the header of an MVE film";
    case MVE_ERROR_CHUNK: return "a chunk or its head passes the end of the film";
    case MVE_ERROR_OPCODE: return "an opcode or its head passes its chunk, or bytes follow the chunk's last opcode";
    case MVE_ERROR_TYPE: return "this type or version of opcode is not one that the player takes";
    case MVE_ERROR_BODY_LENGTH: return "the opcode's body has a wrong length";
    case MVE_ERROR_FRAME_SIZE: return "the frame size is out of bounds or given twice";
    case MVE_ERROR_PALETTE: return "a palette range or a colour component is too large";
    case MVE_ERROR_LENT_LENGTH: return "the palette or a picture that was lent has a wrong length";
    case MVE_ERROR_NO_FRAME: return "video data comes before a frame size or without a map";
    case MVE_ERROR_MAP_LENGTH: return "the map's length does not fit the frame size";
    case MVE_ERROR_PLACE: return "the place is above the number of blocks";
    case MVE_ERROR_CODE_6: return "the block has code 6, which 8-bit films do not have";
    case MVE_ERROR_DATA_SHORT: return "the packet's data ends before the block's";
    case MVE_ERROR_COPY_OUTSIDE: return "the block is copied from outside the picture";
    case MVE_ERROR_DATA_LEFT: return "too many data bytes are left over behind the last block";
    case MVE_ERROR_STATE: return "the state is one that no film gives";
    case MVE_ERROR_SOUND_FORMAT: return "sound comes before its format, or a format is both 8-bit and compressed";
    case MVE_ERROR_SOUND_LENGTH: return "the sound's data or its count of samples has a wrong length";
    case MVE_ERROR_ROOM: return "a room is too small for what is to be written there";
    case MVE_ERROR_PARTS: return "the packet does not say where its second part begins, or it begins outside the packet";
    case MVE_ERROR_NO_SIZE: return "the film ends without a frame size";
    case MVE_ERROR_POSITION: return "the position lies outside the picture";
    case MVE_ERROR_PACKET_LENGTH: return "the picture needs a packet longer than an opcode can be";
    case MVE_ERROR_FRAME_SHORT: return "the frame's data ends before all blocks are passed";
    case MVE_ERROR_SKIP_OUTSIDE: return "a skip passes the frame's last block";
    case MVE_ERROR_END_MARK: return "the end mark does not stand alone behind the frame's last block";
    default: return "not a number of refusal";
    }
}

/* Whether a refusal by this number names a block. */
static inline int mve_is_of_block(size_t number) {
    return number >= MVE_ERROR_CODE_6 && number <= MVE_ERROR_COPY_OUTSIDE;
}

/* What gave a pixel its value. */
enum mve_source {
    MVE_DATA = 0,  /* a byte of the packet */
    MVE_FRONT = 1, /* a pixel of front */
    MVE_BACK = 2,  /* a pixel of back, as it was before the packet */
    MVE_NEW = 3    /* a pixel of the new picture */
};

/* Where a walk over a film is. It goes into a step, and the next state comes back. Change nothing in it.

   A step takes any numbers; left or right above 65,535 is refused (MEMORY). has_map, unsent, has_format, stereo, wide,
   compressed, begun and true_colour are flags: one that is not 0 counts as 1. Where has_map is 0, map_start and map_length
   are not used; where has_format is 0, nothing from there to right is. The state that comes back with MVE_TAKEN or MVE_WHOLE
   has 0 or 1 in each flag, and 0 in each field that is not used. With MVE_UNFINISHED, MVE_ENDED and MVE_REFUSED every number
   comes back as it went in. */
struct mve_state {
    size_t position;    /* in the film */
    size_t chunk_end;
    size_t columns;     /* of 8x8 blocks; 0 by 0 before opcode 0x05 */
    size_t rows;
    size_t front;       /* 0: picture a is shown, 1: picture b; with true colour 0: c, 1: d, 2: e */
    size_t has_map;     /* 0: no map is pending */
    size_t map_start;   /* the pending map's part of the film */
    size_t map_length;
    size_t unsent;      /* 0: no frame is finished and unsent */
    size_t stream;      /* of sound; above 15: none */
    size_t has_format;  /* 0: no 0x03 was taken yet */
    size_t stereo;      /* 0: one channel */
    size_t wide;        /* 0: 8-bit samples, else 16-bit */
    size_t compressed;
    size_t begun;       /* 0: no compressed 0x08 was taken since the last 0x03 */
    size_t left;        /* the last samples of compressed sound; of one channel, left */
    size_t right;
    size_t true_colour; /* 1: a film with true colour; 0: an 8-bit film, or no size yet */
};

/* number and block: of a refusal, else 0; block only for 12 to 14. stores: how many the call made (of a check none).
   touched, first_row, last_row: see THE ROWS TOUCHED. */
struct mve_answer {
    size_t kind;
    size_t number;
    size_t block;
    size_t stores;
    size_t touched;
    size_t first_row;
    size_t last_row;
};

/* As above; mve_open and mve_begin count no store. bytes: how many bytes of samples the step wrote at the room's front; only
   an 0x08 or 0x09 of the stream writes any. state: the next state. */
struct mve_stepped {
    size_t kind;
    size_t number;
    size_t block;
    size_t stores;
    size_t bytes;
    size_t touched;
    size_t first_row;
    size_t last_row;
    struct mve_state state;
};

/* A pointer to a struct of numbers is passed as one to its first number: there must be nothing between them. */
#if defined(__cplusplus)
static_assert(sizeof(struct mve_state) == MVE_STATE_NUMBERS * sizeof(size_t), "a state is numbers alone");
static_assert(sizeof(struct mve_stepped) == MVE_STEPPED_NUMBERS * sizeof(size_t), "an answer is numbers alone");
#elif __STDC_VERSION__ >= 201112L
_Static_assert(sizeof(struct mve_state) == MVE_STATE_NUMBERS * sizeof(size_t), "a state is numbers alone");
_Static_assert(sizeof(struct mve_stepped) == MVE_STEPPED_NUMBERS * sizeof(size_t), "an answer is numbers alone");
#endif

/* Whether the step from `before` to `after` sent a picture: it is to be shown now. A picture is sent by the step that
   leaves no frame unsent where one was finished and unsent: opcode 0x07. Give the state that went into mve_step and the one
   that came back. */
static inline int mve_is_sent(const struct mve_state *before, const struct mve_state *after) {
    return before->unsent != 0 && after->unsent == 0;
}

/* The microseconds that each picture stays from here on, where the next step from `from` takes an opcode 0x02 that says so;
   else 0 (THE TIME OF A PICTURE). Reads the film alone, and never outside it. */
static inline uint64_t mve_timer(const uint8_t *film, size_t film_length, const struct mve_state *from) {
    size_t at = from->position, end = from->chunk_end;
    if (end > film_length || at > end || end - at < 10 || film[at + 2] != 0x02) {
        return 0;
    }
    size_t length = film[at] + 256u * film[at + 1];
    if (length < 6 || length > end - at - 4) {
        return 0;
    }
    uint64_t rate = film[at + 4] + 256u * film[at + 5] + 65536u * film[at + 6] + 16777216u * film[at + 7];
    return rate * (film[at + 8] + 256u * film[at + 9]);
}

/* A component of the palette, 0 to 63, as 8 bits: the two high bits come again as the low ones, so that 0 is 0 and 63 is
   255. What is above 63 counts as 63. */
static inline uint8_t mve_widened(uint8_t component) {
    unsigned least = component > 63 ? 63 : component;
    return (uint8_t)(least << 2 | least >> 4);
}

/* A component of a word with true colour, 0 to 31, as 8 bits: the three high bits come again as the low ones, so that 0 is 0
   and 31 is 255. What is above 31 counts as 31. Of a word w, red is w >> 10 & 31, green w >> 5 & 31 and blue w & 31. */
static inline uint8_t mve_widened_5(uint8_t component) {
    unsigned least = component > 31 ? 31 : component;
    return (uint8_t)(least << 3 | least >> 2);
}

/* Where a pixel comes from. number: of a refusal, else 0. block: the pixel's, or that of a refusal. code: the block's.
   source says which fields count: byte for MVE_DATA; x and y for the others. Fields that do not count are 0. A refusal has 0
   behind block. */
struct mve_traced {
    size_t kind;
    size_t number;
    size_t block;
    size_t code;
    size_t source;
    size_t byte;
    size_t x;
    size_t y;
};

/* How the walk of mve_salvage stopped. */
enum mve_stop {
    MVE_STOP_FILM_END = 0,   /* at the end of the film */
    MVE_STOP_BEHIND_END = 1, /* behind a kept chunk with opcode 0x00 */
    MVE_STOP_PAST_END = 2    /* where a chunk or its head passes the end of the film */
};

/* What is left of a scratched film. number: of a refusal, and all else is 0 then; else 0. bytes: how many the new film has,
   at the room's front. left_out: how many chunks are in the list. header, kept, lost and rest are bytes of the film and add
   up to its length. */
struct mve_salvaged {
    size_t number;
    size_t bytes;
    size_t left_out;
    size_t stop;   /* one of enum mve_stop */
    size_t header; /* 26 */
    size_t kept;   /* of the chunks kept, with their heads */
    size_t lost;   /* of the chunks left out, with their heads */
    size_t rest;   /* not walked */
};

/* A film without what the player passes over. number: of a refusal, and length is 0 then; else 0. length: how many bytes the
   new film has, at the room's front. */
struct mve_stripped {
    size_t number;
    size_t length;
};

/* What mve_encode wrote. number: of a refusal, and both lengths are 0 then; else 0. */
struct mve_encoded {
    size_t number;
    size_t map_length;  /* bytes of the map */
    size_t body_length; /* bytes of the body, with the 14 in front */
};

/* The first state of a film, for this stream of its sound: MVE_TAKEN, or MVE_REFUSED by MVE_ERROR_HEADER with a state of
   zeros. Reads the film alone. out_numbers is MVE_STEPPED_NUMBERS, here and below; MEMORY says what other counts get. */
size_t mve_open(const uint8_t *film, size_t film_length, size_t stream, struct mve_stepped *out, size_t out_numbers);

/* Opens a film and steps until its size is known. Answers:

       MVE_TAKEN     the state is that just after opcode 0x05. Palette and place are as the steps up to there leave them.
       MVE_REFUSED   by the first refusal that mve_open and these steps meet, or by MVE_ERROR_NO_SIZE where the film ends
                     first. Palette and place are as they were, since all is judged before the first store. The state is
                     that which the refused step was given: zeros for MVE_ERROR_HEADER, the film's last for
                     MVE_ERROR_NO_SIZE.

   A palette that has not 768 bytes is refused right behind the header. Sound before the size is decoded, so that the state
   goes on rightly, but its samples are dropped: MVE_ERROR_ROOM is not met. No picture is needed before the size. The call
   reads the film twice, up to the size. */
size_t mve_begin(const uint8_t *film, size_t film_length, size_t stream, struct mve_stepped *out, size_t out_numbers,
                 uint8_t *palette, size_t palette_length, size_t *place);

/* One step from the state `from`, by at most `allowed` stores (STOPS). MVE_TAKEN: a chunk's head or an opcode other than
   0x11 was taken. MVE_WHOLE: opcode 0x11 was drawn to its end. MVE_UNFINISHED: a palette, 0x0F or 0x11 ran short of stores;
   the state stays. a and b are the pictures of an 8-bit film, c, d and e those of a film with true colour, their lengths in
   words; once the size is known, each of the film's own kind has at least 64 times columns times rows bytes or words. The
   others are not read and stay as they are; they may be of length 0, and their addresses are not null. The place starts at
   0. Only sound writes to the room. A step is refused by 2 to 20. from_numbers is MVE_STATE_NUMBERS. `form` is MVE_DEFAULT
   or MVE_STRICT: at opcode 0x11 a packet may leave one byte over, or none. */
size_t mve_step(const uint8_t *film, size_t film_length, const struct mve_state *from, size_t from_numbers,
                struct mve_stepped *out, size_t out_numbers, uint8_t *palette, size_t palette_length,
                uint8_t *a, size_t a_length, uint8_t *b, size_t b_length, uint16_t *c, size_t c_length,
                uint16_t *d, size_t d_length, uint16_t *e, size_t e_length, size_t *place, uint8_t *room,
                size_t room_length, size_t allowed, size_t form);

/* How many bytes of the front picture of an 8-bit film (a where from->front is 0, b where it is 1) are shown: 64 times
   columns times rows (8 times columns for each row of pixels), or 0 where no size is known yet, front is above 1, the size
   is not one that 0x05 may give, that picture is shorter, the film has true colour, or from is no state (MEMORY). */
size_t mve_shown(const struct mve_state *from, size_t from_numbers, const uint8_t *a, size_t a_length,
                 const uint8_t *b, size_t b_length);

/* How many words of the front picture of a film with true colour (c where from->front is 0, d where it is 1, e where it is
   2) are shown: 64 times columns times rows, or 0 where no size is known yet, front is above 2, the size is not one that
   0x05 may give, that picture is shorter, the film is 8-bit, or from is no state (MEMORY). */
size_t mve_shown_words(const struct mve_state *from, size_t from_numbers, const uint16_t *c, size_t c_length,
                       const uint16_t *d, size_t d_length, const uint16_t *e, size_t e_length);

/* Whether a packet of an 8-bit film is accepted for a picture of columns by rows blocks: MVE_ACCEPTED with the rows that it
   touches, or MVE_REFUSED by 6, 10, 12 to 15. */
struct mve_answer mve_check(size_t columns, size_t rows, const uint8_t *map, size_t map_length,
                            const uint8_t *data, size_t data_length);

/* The strict form of mve_check: one byte left over is refused by refusal 15, too. */
struct mve_answer mve_check_strict(size_t columns, size_t rows, const uint8_t *map, size_t map_length,
                                   const uint8_t *data, size_t data_length);

/* Draws a packet of an 8-bit film on `back`, a picture of columns by rows blocks, from the block *place on, by at most
   `allowed` stores: MVE_WHOLE, MVE_UNFINISHED, or MVE_REFUSED by 6, 8, 10 to 15. A call that is refused makes no store. */
struct mve_answer mve_draw(size_t columns, size_t rows, const uint8_t *map, size_t map_length,
                           const uint8_t *data, size_t data_length, const uint8_t *front,
                           size_t front_length, uint8_t *back, size_t back_length, size_t *place,
                           size_t allowed);

/* The strict form of mve_draw: one byte left over is refused by refusal 15, too. */
struct mve_answer mve_draw_strict(size_t columns, size_t rows, const uint8_t *map, size_t map_length,
                                  const uint8_t *data, size_t data_length, const uint8_t *front,
                                  size_t front_length, uint8_t *back, size_t back_length, size_t *place,
                                  size_t allowed);

/* Whether a packet with true colour is accepted for a picture of columns by rows blocks: MVE_ACCEPTED with the rows that it
   touches, all of them, or MVE_REFUSED by 6, 10, 20, 13 to 15. The packet, data, begins with its offset (THE PACKET WITH
   TRUE COLOUR). */
struct mve_answer mve_check_words(size_t columns, size_t rows, const uint8_t *map, size_t map_length,
                                  const uint8_t *data, size_t data_length);

/* The strict form of mve_check_words: one byte left over in the second part is refused by refusal 15, too. */
struct mve_answer mve_check_words_strict(size_t columns, size_t rows, const uint8_t *map, size_t map_length,
                                         const uint8_t *data, size_t data_length);

/* Draws a packet with true colour on `drawn`, a picture of columns by rows blocks, from the block *place on, by at most
   `allowed` stores: MVE_WHOLE, MVE_UNFINISHED, or MVE_REFUSED by 6, 8, 10, 11, 20, 13 to 15. `last` is the picture that is
   shown and `oldest` the one that was shown before it; both are only read, and may be the same memory. The lengths of the
   three are counted in words. A call that is refused makes no store. */
struct mve_answer mve_draw_words(size_t columns, size_t rows, const uint8_t *map, size_t map_length,
                                 const uint8_t *data, size_t data_length, const uint16_t *last, size_t last_length,
                                 const uint16_t *oldest, size_t oldest_length, uint16_t *drawn, size_t drawn_length,
                                 size_t *place, size_t allowed);

/* The strict form of mve_draw_words: one byte left over in the second part is refused by refusal 15, too. */
struct mve_answer mve_draw_words_strict(size_t columns, size_t rows, const uint8_t *map, size_t map_length,
                                        const uint8_t *data, size_t data_length, const uint16_t *last, size_t last_length,
                                        const uint16_t *oldest, size_t oldest_length, uint16_t *drawn,
                                        size_t drawn_length, size_t *place, size_t allowed);

/* Which byte or pixel gives the pixel at x, y its value, in the picture of columns by rows blocks that an 8-bit packet gives
   where front and back are as mve_draw finds them at place 0: MVE_FOUND, or MVE_REFUSED by 6, 8, 10, 12 to 15, then 22. One
   byte may be left over. Nothing is drawn. */
struct mve_traced mve_origin(size_t columns, size_t rows, const uint8_t *map, size_t map_length,
                             const uint8_t *data, size_t data_length, const uint8_t *front,
                             size_t front_length, const uint8_t *back, size_t back_length, size_t x,
                             size_t y);

/* Writes what is left of a scratched film to the room, and MVE_LOSS_NUMBERS numbers for each chunk left out to the list
   (WHAT IS LEFT OF A SCRATCHED FILM). Refused by 1 for the header, then by 19 where the room or the list is too short; both
   are then as they were. What lies in them behind what is written stays. */
struct mve_salvaged mve_salvage(const uint8_t *film, size_t film_length, uint8_t *room, size_t room_length,
                                size_t *list, size_t list_numbers);

/* Writes a film without what a player of this stream passes over to the room (A FILM WITHOUT WHAT THE PLAYER PASSES OVER).
   Refused by 1 for the header, by the first of 2 to 5 that is met, then by 19 where the room is too short; the room is then
   as it was. What lies in it behind what is written stays. */
struct mve_stripped mve_strip(const uint8_t *film, size_t film_length, size_t stream, uint8_t *room,
                              size_t room_length);

/* Writes map and body of an 8-bit film that give the wanted picture (PICTURES OF YOUR OWN). Reads wanted, front and back.
   Refused by 6 for the size, 8 where one of the three pictures is shorter than it, 23 where the body would be too long, 19
   where map or body is too short; both are then as they were. What lies in them behind what is written stays. */
struct mve_encoded mve_encode(size_t columns, size_t rows, const uint8_t *wanted, size_t wanted_length,
                              const uint8_t *front, size_t front_length, const uint8_t *back, size_t back_length,
                              uint8_t *map, size_t map_length, uint8_t *body, size_t body_length);

/* Draws a frame of Microsoft Video 1 with 8-bit pixels on the picture, which has columns by rows blocks of 8x8 (MICROSOFT
   VIDEO 1): 0, or the number of the refusal: 6, 8, then the first met of 24 and 25, then 26. The picture is then as it
   was. */
size_t mve_video1(size_t columns, size_t rows, const uint8_t *data, size_t data_length, uint8_t *picture,
                  size_t picture_length);

#ifdef __cplusplus
}
#endif

#endif
