/* Calls the static library for the comparison: requests on standard input, outcomes on standard output.
   The second program is native code, the library is x86-64 code; this program stands between them, over a pipe.
   A request is an op byte, then for each slice of the call a length (4 bytes, low byte first) and its bytes.
   The response is the packed outcome (8 bytes, low byte first), then the bytes of each buffer the call may write.
   Each slice lies between guard bytes. A call that touches a guard or a slice it may only read ends this with 3.
   It leans on read, write, memcpy and _exit alone, and on no header: it compiles where no C library is laid out. */

typedef unsigned char byte;
typedef unsigned long size;    /* size_t on 64-bit Linux */
typedef unsigned long outcome; /* uint64_t on 64-bit Linux */
typedef unsigned int mask;     /* uint32_t on 64-bit Linux */

extern long read(int file, void *bytes, size length);
extern long write(int file, const void *bytes, size length);
extern void *memcpy(void *to, const void *from, size length);
extern void _exit(int status) __attribute__((noreturn));

/* The calls that take job sheets, for form one and for form two. */
typedef outcome reading(const byte *job, size job_len);
typedef outcome checking(const byte *job, size job_len, const byte *answer, size answer_len);
typedef outcome solving(const byte *job, size job_len, byte *answer, size answer_len);
typedef solving moving; /* with a job sheet of the other form for an answer */
typedef outcome widening(const byte *p, size p_len, const byte *q, size q_len, const byte *answer, size answer_len,
                         byte *out, size out_len);

extern reading ormsvelg_read, ormsvelg_read_two;
extern checking ormsvelg_check, ormsvelg_check_two;
extern solving ormsvelg_solve, ormsvelg_solve_two;
extern moving ormsvelg_to_two, ormsvelg_to_one;
extern widening ormsvelg_widen, ormsvelg_widen_two;
extern outcome ormsvelg_write(const byte *pins, size pins_len, mask sees_a, mask sees_b, const mask *rules, size rules_len,
                              byte *sheet, size sheet_len);

enum {
    SLICES = 4,           /* the most slices that one call takes */
    LONGEST = 65536,      /* the longest slice */
    GUARDS = 4,           /* guard bytes on either side of a slice */
    BUFFER = 65536,       /* bytes gathered before a read or a write */
    BAD_REQUEST = 2,      /* exit status: the request is not of the form above, or the pipe failed */
    BAD_CALL = 3          /* exit status: the call wrote where it must not */
};

static const byte guard[GUARDS] = {0xC5, 0x3A, 0x96, 0x01};

/* A lent slice between its guards, and the bytes it had before the call.
   The place is aligned for masks, and so is the slice behind its guards: a slice of masks is lent as it lies. */
struct lent {
    size length;
    int as_null;
    _Alignas(mask) byte place[GUARDS + LONGEST + GUARDS];
    byte before[LONGEST];
};

_Static_assert(sizeof(mask) == 4 && GUARDS % _Alignof(mask) == 0, "the guards keep masks aligned");

static struct lent lents[SLICES];
static byte input[BUFFER], output[BUFFER];
static size input_at, input_end, output_end;
static int empty_as_null;

/* Writes all bytes, however many calls that takes. Answers 0 if the file refuses them. */
static int write_all(int file, const byte *bytes, size length)
{
    while (length > 0) {
        long done = write(file, bytes, length);
        if (done <= 0) return 0;
        bytes += done;
        length -= (size)done;
    }
    return 1;
}

static void flush(void)
{
    size length = output_end;
    output_end = 0;
    if (!write_all(1, output, length)) _exit(BAD_REQUEST);
}

/* Ends the program; the outcomes so far go out first, so that the reader can count them. */
__attribute__((noreturn)) static void fail(int status, const char *line)
{
    size length = 0;
    flush();
    while (line[length] != 0) length++;
    write_all(2, (const byte *)line, length);
    _exit(status);
}

/* Whether there is more input. Reading may wait, so what is gathered for the output goes out first. */
static int has_input(void)
{
    long got;
    if (input_at < input_end) return 1;
    flush();
    got = read(0, input, BUFFER);
    if (got < 0) fail(BAD_REQUEST, "drive: standard input can't be read\n");
    input_at = 0;
    input_end = (size)got;
    return got > 0;
}

/* Takes so many bytes of a request, in runs as long as the input holds. */
static void take_bytes(byte *to, size length)
{
    while (length > 0) {
        size run;
        if (!has_input()) fail(BAD_REQUEST, "drive: input ends within a request\n");
        run = input_end - input_at;
        if (run > length) run = length;
        memcpy(to, input + input_at, run);
        input_at += run;
        to += run;
        length -= run;
    }
}

static void put_bytes(const byte *from, size length)
{
    while (length > 0) {
        size run;
        if (output_end == BUFFER) flush();
        run = BUFFER - output_end;
        if (run > length) run = length;
        memcpy(output + output_end, from, run);
        output_end += run;
        from += run;
        length -= run;
    }
}

/* A number of 4 bytes, low byte first. */
static size number_of(const byte *bytes)
{
    size number = 0;
    int i;
    for (i = 0; i < 4; i++) number |= (size)bytes[i] << (8 * i);
    return number;
}

/* Takes one slice from the request and lays it between guards. Every second empty slice is lent as a null pointer. */
static void take(struct lent *lent)
{
    byte number[4];
    size length;
    take_bytes(number, 4);
    length = number_of(number);
    if (length > LONGEST) fail(BAD_REQUEST, "drive: a slice is too long\n");
    lent->length = length;
    lent->as_null = 0;
    if (length == 0) {
        lent->as_null = empty_as_null;
        empty_as_null = !empty_as_null;
    }
    take_bytes(lent->before, length);
    memcpy(lent->place, guard, GUARDS);
    memcpy(lent->place + GUARDS, lent->before, length);
    memcpy(lent->place + GUARDS + length, guard, GUARDS);
}

static byte *bytes_of(int slice)
{
    return lents[slice].as_null ? 0 : lents[slice].place + GUARDS;
}

static size length_of(int slice)
{
    return lents[slice].length;
}

static int guards_stand(const struct lent *lent)
{
    size i;
    for (i = 0; i < GUARDS; i++) {
        if (lent->place[i] != guard[i]) return 0;
        if (lent->place[GUARDS + lent->length + i] != guard[i]) return 0;
    }
    return 1;
}

static int bytes_stand(const struct lent *lent)
{
    size i;
    for (i = 0; i < lent->length; i++) {
        if (lent->place[GUARDS + i] != lent->before[i]) return 0;
    }
    return 1;
}

static void take_slices(int slices)
{
    int i;
    for (i = 0; i < slices; i++) take(&lents[i]);
}

/* All guards must stand, and all slices but the last `written` ones must hold the bytes they had. */
static void inspect(int slices, int written)
{
    int i;
    for (i = 0; i < slices; i++) {
        if (!guards_stand(&lents[i])) fail(BAD_CALL, "drive: the call wrote beside a lent slice\n");
        if (i < slices - written && !bytes_stand(&lents[i]))
            fail(BAD_CALL, "drive: the call wrote to a slice it may only read\n");
    }
}

/* Gives the outcome and the last `written` slices back, once the lent slices are found in order. */
static void respond(outcome got, int slices, int written)
{
    byte number[8];
    int i;
    inspect(slices, written);
    for (i = 0; i < 8; i++) number[i] = (byte)(got >> (8 * i));
    put_bytes(number, 8);
    for (i = slices - written; i < slices; i++) put_bytes(lents[i].place + GUARDS, length_of(i));
}

static void serve_read(reading *call)
{
    take_slices(1);
    respond(call(bytes_of(0), length_of(0)), 1, 0);
}

static void serve_check(checking *call)
{
    take_slices(2);
    respond(call(bytes_of(0), length_of(0), bytes_of(1), length_of(1)), 2, 0);
}

/* Solves a job or moves its sheet. */
static void serve_solve(solving *call)
{
    take_slices(2);
    respond(call(bytes_of(0), length_of(0), bytes_of(1), length_of(1)), 2, 1);
}

static void serve_widen(widening *call)
{
    take_slices(4);
    respond(call(bytes_of(0), length_of(0), bytes_of(1), length_of(1), bytes_of(2), length_of(2), bytes_of(3),
                 length_of(3)),
            4, 1);
}

/* Makes a job sheet: the pins, the masks of what A and B see in one slice, the rules' masks, the lent sheet.
   A mask is low byte first, as this machine has it. */
static void serve_sheet(void)
{
    const byte *sees = lents[1].before;
    const mask *rules;
    take_slices(4);
    if (length_of(1) != 2 * sizeof(mask)) fail(BAD_REQUEST, "drive: a request without two masks\n");
    if (length_of(2) % sizeof(mask) != 0) fail(BAD_REQUEST, "drive: a request with part of a rule\n");
    rules = (const mask *)(const void *)bytes_of(2);
    respond(ormsvelg_write(bytes_of(0), length_of(0), (mask)number_of(sees), (mask)number_of(sees + sizeof(mask)), rules,
                           length_of(2) / sizeof(mask), bytes_of(3), length_of(3)),
            4, 1);
}

/* Serves one request; the upper-case ops are for form two. A call more is a declaration above and a case here. */
static void serve(byte op)
{
    switch (op) {
    case 'r': serve_read(ormsvelg_read); break;
    case 'R': serve_read(ormsvelg_read_two); break;
    case 'c': serve_check(ormsvelg_check); break;
    case 'C': serve_check(ormsvelg_check_two); break;
    case 's': serve_solve(ormsvelg_solve); break;
    case 'S': serve_solve(ormsvelg_solve_two); break;
    case 'w': serve_widen(ormsvelg_widen); break;
    case 'W': serve_widen(ormsvelg_widen_two); break;
    case 'j': serve_sheet(); break;
    case 'm': serve_solve(ormsvelg_to_two); break;
    case 'M': serve_solve(ormsvelg_to_one); break;
    default: fail(BAD_REQUEST, "drive: a request with an unknown op\n");
    }
}

int main(void)
{
    while (has_input()) serve(input[input_at++]);
    flush();
    return 0;
}
