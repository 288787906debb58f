/* A rack's control program, small and whole: both ends of a line in one loop.
 *
 *     rack MODE [TEXT] < samples > heard
 *
 * Samples are read from standard input, 16 kHz, two bytes each, high byte first, and coded in frames of 160 octets, 20 ms.
 * TEXT goes into the last bits of the octets, if MODE is 2 or 3. At the other end the text is taken out again, and shown
 * on standard error; the octets are decoded in MODE, 0 to 3, and what is heard is written to standard output.
 *
 * The overload lamp is on while samples of what is heard have to be limited: a line says in which frame it went on, and one
 * at the end how many samples were limited in how many frames.
 *
 * The status is 0 where all was done, 2 where the arguments are not those, and 1 else, with a line on standard error. */
#include <errno.h>
#include <stdio.h>
#include <stdlib.h>
#include <string.h>

#include <zelcandry.h>

enum { FRAME = 160, SAMPLES = 4 * FRAME, DATA = FRAME / 4 };

/* What the program keeps from frame to frame. */
struct rack {
    uint8_t coder[ZELCANDRY_CODER_BYTES];
    uint8_t decoder[ZELCANDRY_DECODER_BYTES];
    uint8_t mode;
    const char *text; /* what is still to be sent, or null where no text was given */
    int shown;        /* whether a line of text has been begun on standard error */
    int lit;          /* whether samples of the last frame were limited */
    unsigned long frames, lit_frames, limited; /* frames decoded, those with limited samples, and all such samples */
};

/* Ends the line of text, so that what is said next has a line of its own. */
static void end_line(struct rack *r)
{
    if (r->shown)
        fputc('\n', stderr);
    r->shown = 0;
}

/* Whether a call was done. A refusal is shown by its name; it has changed nothing, so what was wrong could be mended and the
 * call made again. This program stops. */
static int done(struct rack *r, const char *call, uint64_t answer)
{
    static const char *const names[] = {
        "done", "the mode is above 3", "the state is broken", "the lengths do not fit", "a sample is out of range",
        "the mode has no room for data"
    };
    unsigned number = zelcandry_number(answer);
    if (number == ZELCANDRY_DONE)
        return 1;
    end_line(r);
    fprintf(stderr, "%s: refused: %s", call, number < sizeof names / sizeof *names ? names[number] : "unknown");
    if (number == ZELCANDRY_BAD_SAMPLE)
        fprintf(stderr, ", number %lu of its frame", (unsigned long)zelcandry_index(answer));
    fputc('\n', stderr);
    return 0;
}

static int failed(struct rack *r, const char *what)
{
    int reason = errno;
    end_line(r);
    fprintf(stderr, "%s: %s\n", what, strerror(reason));
    return 0;
}

/* The data of n octets: how many bytes they have room for, and how many octets those fill. A short last frame may have
 * octets over that fill no whole byte; they stay as they are. */
static size_t room(uint8_t mode, size_t n, size_t *filled)
{
    size_t bits = mode == 2 ? 1 : mode == 3 ? 2 : 0, bytes = n * bits / 8;
    *filled = bits ? 8 * bytes / bits : n;
    return bytes;
}

/* The sending end: codes n pairs of samples, and puts the next of the text in. After the text come zero bytes. */
static int send_frame(struct rack *r, const uint8_t *samples, uint8_t *octets, size_t n)
{
    uint8_t data[DATA] = {0};
    size_t filled, bytes = room(r->mode, n, &filled), left;
    if (!done(r, "code", zelcandry_code(r->coder, sizeof r->coder, samples, 4 * n, octets, n)))
        return 0;
    if (!r->text)
        return 1;
    left = strlen(r->text);
    memcpy(data, r->text, left < bytes ? left : bytes);
    r->text += left < bytes ? left : bytes;
    return done(r, "put", zelcandry_put(r->mode, octets, filled, data, bytes));
}

/* Shows what has come of the text. */
static void show(struct rack *r, const uint8_t *data, size_t bytes)
{
    size_t i;
    for (i = 0; i < bytes; i++)
        if (data[i]) {
            fputs(r->shown ? "" : "text: ", stderr);
            fputc(data[i], stderr);
            r->shown = 1;
        }
}

/* The overload lamp: what the answer of a decoded frame says of it. A frame that is limited like the one before has no line. */
static void light(struct rack *r, uint64_t answer)
{
    unsigned long limited = (unsigned long)zelcandry_limited(answer);
    if (limited && !r->lit) {
        end_line(r);
        fprintf(stderr, "overload: frame %lu, %lu samples limited\n", r->frames, limited);
    }
    r->lit = limited != 0;
    r->lit_frames += limited != 0;
    r->limited += limited;
    r->frames++;
}

/* The receiving end: takes the text out, decodes, and lights the lamp. */
static int receive_frame(struct rack *r, const uint8_t *octets, size_t n, uint8_t *heard)
{
    uint8_t data[DATA];
    size_t filled, bytes = room(r->mode, n, &filled);
    uint64_t answer;
    if (r->text) {
        if (!done(r, "take", zelcandry_take(r->mode, octets, filled, data, bytes)))
            return 0;
        show(r, data, bytes);
    }
    answer = zelcandry_decode(r->decoder, sizeof r->decoder, r->mode, octets, n, heard, 4 * n);
    if (!done(r, "decode", answer))
        return 0;
    light(r, answer);
    return 1;
}

/* One frame of up to 160 pairs of samples, through both ends. */
static int turn(struct rack *r, const uint8_t *samples, size_t n)
{
    uint8_t octets[FRAME], heard[SAMPLES];
    if (!send_frame(r, samples, octets, n) || !receive_frame(r, octets, n, heard))
        return 0;
    if (fwrite(heard, 1, 4 * n, stdout) != 4 * n || fflush(stdout))
        return failed(r, "write");
    return 1;
}

/* The main loop: frame after frame to the end of the input. The last one may be shorter. */
static int run(struct rack *r)
{
    uint8_t samples[SAMPLES];
    size_t got;
    do {
        got = fread(samples, 1, SAMPLES, stdin);
        if (ferror(stdin))
            return failed(r, "read");
        if (got >= 4 && !turn(r, samples, got / 4))
            return 0;
    } while (got == SAMPLES);
    end_line(r);
    if (got % 4)
        fprintf(stderr, "left out: %lu bytes after the last whole pair of samples\n", (unsigned long)(got % 4));
    if (r->text && *r->text)
        fprintf(stderr, "not sent: %s\n", r->text);
    return got % 4 == 0 && !(r->text && *r->text);
}

int main(int argc, char **argv)
{
    struct rack r = {ZELCANDRY_CODER_RESET, ZELCANDRY_DECODER_RESET, 0, NULL, 0, 0, 0, 0, 0};
    int all;
    char *end = NULL;
    unsigned long mode = (argc == 2 || argc == 3) ? strtoul(argv[1], &end, 10) : 0;
    if (!end || end == argv[1] || *end || mode > 255 || *argv[1] == '-') {
        fputs("usage: rack MODE [TEXT] < samples > heard, where MODE is 0, 1, 2 or 3, and 2 or 3 with a TEXT\n", stderr);
        return 2;
    }
    r.mode = (uint8_t)mode;
    r.text = argv[2];
    all = run(&r);
    if (r.limited)
        fprintf(stderr, "overload: %lu samples limited in %lu frames\n", r.limited, r.lit_frames);
    return all ? 0 : 1;
}
