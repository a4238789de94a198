/* Codes the numbers of messages in simple packing by libaec, and reads those of messages in CCSDS packing by it.
 *
 *     ccsds time MESSAGE [ROUNDS [BLOCK INTERVAL]]   the least processor time of coding and decoding, of the first field
 *     ccsds encode MESSAGE CODED                     the coded octets of the fields of a file in simple packing (5.0)
 *     ccsds decode MESSAGE NUMBERS                   the numbers of the fields of a file in CCSDS packing (5.42), as libaec
 *                                                    leaves them in memory
 *     ccsds compare SIMPLE CODED                     for each field of two files, the same one in 5.0 and in 5.42: a line
 *                                                    with the bits, the values, the octets of Section 7 in the second file
 *                                                    and those that libaec codes, and whether it reads the same numbers
 *
 * Numbers are coded with the bits that Section 5 of 5.0 states, flags 14, blocks of 32 values and intervals of 128 blocks
 * where nothing else is given; `compare` takes those of the second file. Built by
 * `gcc -O2 -Wall -Wextra -o ccsds bench/ccsds.c -laec` (Debian: libaec-dev). bench/ccsds.sh and bench/ccsds.py run it. */
#include <libaec.h>
#include <stdint.h>
#include <stdio.h>
#include <stdlib.h>
#include <string.h>
#include <time.h>

typedef struct {
    unsigned char *octets;
    size_t length;
} Octets;

/* Sections 5 and 7 of a field, each from its first octet on. */
typedef struct {
    const unsigned char *five, *seven;
} Field;

typedef struct {
    Field *fields;
    size_t count;
} Fields;

typedef struct {
    unsigned int bits, flags, block, interval;
} Coding;

static void fail(const char *what, const char *name) {
    fprintf(stderr, "ccsds: %s%s%s\n", what, *name ? ": " : "", name);
    exit(1);
}

static void *room(size_t octets) {
    void *got = malloc(octets ? octets : 1);
    if (got == NULL)
        fail("no memory", "");
    return got;
}

static Octets read_file(const char *name) {
    FILE *file = fopen(name, "rb");
    Octets read = {NULL, 0};
    if (file == NULL || fseek(file, 0, SEEK_END) != 0)
        fail("cannot be read", name);
    read.length = (size_t)ftell(file);
    read.octets = room(read.length);
    rewind(file);
    if (fread(read.octets, 1, read.length, file) != read.length)
        fail("cannot be read", name);
    fclose(file);
    return read;
}

static void write_octets(FILE *file, const unsigned char *octets, size_t length) {
    if (fwrite(octets, 1, length, file) != length)
        fail("the output cannot be written", "");
}

/* Octets first to last of a section, counted from 1. */
static uint64_t number(const unsigned char *section, int first, int last) {
    uint64_t value = 0;
    for (int octet = first; octet <= last; octet++)
        value = value << 8 | section[octet - 1];
    return value;
}

static void add_field(Fields *found, Field field) {
    if ((found->count & (found->count + 1)) == 0) {
        found->fields = realloc(found->fields, (2 * found->count + 1) * sizeof field);
        if (found->fields == NULL)
            fail("no memory", "");
    }
    found->fields[found->count++] = field;
}

/* The fields of a message of edition 2 of this length. */
static void fields_of_message(const unsigned char *message, size_t length, Fields *found) {
    Field field = {NULL, NULL};
    size_t at = 16;
    while (at + 9 <= length) {
        const unsigned char *section = message + at;
        uint64_t own = number(section, 1, 4);
        if (own < 5 || own > length - at)
            fail("a section of this length cannot be", "");
        if (section[4] == 5)
            field.five = section;
        field.seven = section;
        if (section[4] == 7 && field.five != NULL)
            add_field(found, field);
        at += own;
    }
}

static Fields fields_of(Octets file) {
    Fields found = {NULL, 0};
    size_t at = 0;
    while (at + 20 <= file.length) {
        const unsigned char *message = file.octets + at;
        uint64_t length = number(message, 9, 16);
        if (memcmp(message, "GRIB", 4) != 0 || message[7] != 2 || length < 20 || length > file.length - at) {
            at++;
            continue;
        }
        fields_of_message(message, length, &found);
        at += length;
    }
    if (found.count == 0)
        fail("no field of edition 2", "");
    return found;
}

static unsigned int template_of(Field field) { return (unsigned int)number(field.five, 10, 11); }

static uint64_t values_of(Field field) { return number(field.five, 6, 9); }

static Coding usual(Field field) {
    Coding coding = {field.five[19], AEC_DATA_3BYTE | AEC_DATA_MSB | AEC_DATA_PREPROCESS, 32, 128};
    return coding;
}

static Coding coding_of(Field field) {
    Coding coding = {field.five[19], field.five[21], field.five[22], (unsigned int)number(field.five, 24, 25)};
    return coding;
}

/* The octets in which libaec holds a number. */
static size_t width_of(Coding coding) {
    if (coding.bits <= 8)
        return 1;
    if (coding.bits <= 16)
        return 2;
    return coding.bits <= 24 && (coding.flags & AEC_DATA_3BYTE) ? 3 : 4;
}

static void put_number(unsigned char *at, uint32_t value, Coding coding) {
    size_t width = width_of(coding);
    for (size_t octet = 0; octet < width; octet++)
        at[coding.flags & AEC_DATA_MSB ? width - 1 - octet : octet] = (unsigned char)(value >> 8 * octet);
}

/* The numbers of a field in simple packing, as libaec holds them. */
static Octets numbers_of(Field field, Coding coding) {
    uint64_t values = values_of(field), pending = 0;
    unsigned int bits = field.five[19], there = 0;
    const unsigned char *next = field.seven + 5, *end = field.seven + number(field.seven, 1, 4);
    Octets numbers = {room(values * width_of(coding)), values * width_of(coding)};
    if (template_of(field) != 0 || bits > 32 || bits > coding.bits || 8 * (uint64_t)(end - next) < values * bits)
        fail("no field in simple packing of so many bits", "");
    for (uint64_t value = 0; value < values; value++) {
        while (there < bits) {
            pending = pending << 8 | *next++;
            there += 8;
        }
        there -= bits;
        put_number(numbers.octets + value * width_of(coding), (uint32_t)(pending >> there & ((1ull << bits) - 1)), coding);
    }
    return numbers;
}

static struct aec_stream stream_of(Coding coding, Octets from, Octets to) {
    struct aec_stream stream;
    memset(&stream, 0, sizeof stream);
    stream.bits_per_sample = coding.bits;
    stream.block_size = coding.block;
    stream.rsi = coding.interval;
    stream.flags = coding.flags;
    stream.next_in = from.octets;
    stream.avail_in = from.length;
    stream.next_out = to.octets;
    stream.avail_out = to.length;
    return stream;
}

/* Room for what the numbers are coded as. */
static Octets room_for(Octets numbers) {
    Octets coded = {NULL, 2 * numbers.length + 4096};
    coded.octets = room(coded.length);
    return coded;
}

/* How many octets the numbers are coded as. */
static size_t encode(Coding coding, Octets numbers, Octets coded) {
    struct aec_stream stream = stream_of(coding, numbers, coded);
    if (aec_buffer_encode(&stream) != AEC_OK)
        fail("libaec does not code these numbers", "");
    return stream.total_out;
}

static int decode(Coding coding, Octets coded, Octets numbers) {
    struct aec_stream stream = stream_of(coding, coded, numbers);
    return aec_buffer_decode(&stream) == AEC_OK && stream.total_out == numbers.length;
}

/* The coded octets of a field in CCSDS packing. */
static Octets coded_of(Field field) {
    Octets coded = {(unsigned char *)field.seven + 5, number(field.seven, 1, 4) - 5};
    return coded;
}

static double now(void) {
    struct timespec time;
    clock_gettime(CLOCK_PROCESS_CPUTIME_ID, &time);
    return (double)time.tv_sec + (double)time.tv_nsec / 1e9;
}

static double lesser(double one, double other) { return one < other ? one : other; }

static void time_field(Field field, Coding coding, int rounds) {
    Octets numbers = numbers_of(field, coding), coded = room_for(numbers), back = {room(numbers.length), numbers.length};
    double encoding = 1e9, decoding = 1e9, values = (double)values_of(field);
    size_t octets = coded.length;
    memset(coded.octets, 0, coded.length); /* so that its pages are there */
    memset(back.octets, 0, back.length);
    for (int round = 0; round < rounds; round++) {
        double begun = now(), between;
        coded.length = octets;
        coded.length = encode(coding, numbers, coded);
        between = now();
        if (!decode(coding, coded, back) || memcmp(back.octets, numbers.octets, numbers.length) != 0)
            fail("libaec does not read what it wrote", "");
        decoding = lesser(decoding, now() - between);
        encoding = lesser(encoding, between - begun);
    }
    printf("libaec: %u bits, %.0f values, %zu octets, encode %.2f ns a value, decode %.2f ns a value\n", coding.bits, values,
           coded.length, encoding * 1e9 / values, decoding * 1e9 / values);
}

static void encode_file(const char *name, const char *output) {
    Fields found = fields_of(read_file(name));
    FILE *file = fopen(output, "wb");
    if (file == NULL)
        fail("cannot be written", output);
    for (size_t field = 0; field < found.count; field++) {
        Coding coding = usual(found.fields[field]);
        if (coding.bits == 0)
            continue;
        Octets numbers = numbers_of(found.fields[field], coding), coded = room_for(numbers);
        write_octets(file, coded.octets, encode(coding, numbers, coded));
        free(numbers.octets);
        free(coded.octets);
    }
    if (fclose(file) != 0)
        fail("cannot be written", output);
}

static void decode_file(const char *name, const char *output) {
    Fields found = fields_of(read_file(name));
    FILE *file = fopen(output, "wb");
    if (file == NULL)
        fail("cannot be written", output);
    for (size_t field = 0; field < found.count; field++) {
        Coding coding = coding_of(found.fields[field]);
        if (template_of(found.fields[field]) != 42)
            fail("a field is not in CCSDS packing", name);
        if (coding.bits == 0)
            continue;
        size_t octets = values_of(found.fields[field]) * width_of(coding);
        Octets numbers = {room(octets), octets};
        if (!decode(coding, coded_of(found.fields[field]), numbers))
            fail("libaec does not read a field", name);
        write_octets(file, numbers.octets, numbers.length);
        free(numbers.octets);
    }
    if (fclose(file) != 0)
        fail("cannot be written", output);
}

static void compare_field(Field simple, Field ours) {
    Coding coding = coding_of(ours);
    if (template_of(ours) != 42 || values_of(ours) != values_of(simple))
        fail("the files do not have the same fields, the second one in CCSDS packing", "");
    if (coding.bits == 0 || values_of(ours) == 0) {
        printf("%u %llu 0 0 same\n", coding.bits, (unsigned long long)values_of(ours));
        return;
    }
    Octets numbers = numbers_of(simple, coding), coded = room_for(numbers), read = {room(numbers.length), numbers.length};
    int same = decode(coding, coded_of(ours), read) && memcmp(read.octets, numbers.octets, numbers.length) == 0;
    printf("%u %llu %zu %zu %s\n", coding.bits, (unsigned long long)values_of(ours), coded_of(ours).length,
           encode(coding, numbers, coded), same ? "same" : "other");
    free(numbers.octets);
    free(coded.octets);
    free(read.octets);
}

static void compare_files(const char *simple, const char *coded) {
    Fields one = fields_of(read_file(simple)), other = fields_of(read_file(coded));
    if (one.count != other.count)
        fail("the files do not have as many fields", "");
    for (size_t field = 0; field < one.count; field++)
        compare_field(one.fields[field], other.fields[field]);
}

int main(int count, char **words) {
    if (count >= 3 && count <= 6 && count != 5 && strcmp(words[1], "time") == 0) {
        Field field = fields_of(read_file(words[2])).fields[0];
        Coding coding = usual(field);
        int rounds = count > 3 ? atoi(words[3]) : 5;
        if (count == 6) {
            coding.block = (unsigned int)atoi(words[4]);
            coding.interval = (unsigned int)atoi(words[5]);
        }
        if (coding.bits == 0 || rounds < 1)
            fail("nothing to be timed", words[2]);
        time_field(field, coding, rounds);
    } else if (count == 4 && strcmp(words[1], "encode") == 0)
        encode_file(words[2], words[3]);
    else if (count == 4 && strcmp(words[1], "decode") == 0)
        decode_file(words[2], words[3]);
    else if (count == 4 && strcmp(words[1], "compare") == 0)
        compare_files(words[2], words[3]);
    else
        fail("its arguments are those at the head of bench/ccsds.c", "");
    return 0;
}
