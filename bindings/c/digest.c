/* Calls every exported function on generated inputs, good and bad and the same in each run, and writes a line for each function: its name without
 * loamchalice_, the number of calls, the number of refusals, and a digest of every answer and of all memory passed to it. If two builds of the library write
 * the same lines, they give the same answers; tools/test compares each build with bindings/c/digests.txt. In floats that a call returns, all NaNs count as
 * one value.
 *   cc -o target/digest bindings/c/digest.c dist/loamchalice_$(uname -m).s -Idist && target/digest cards
 * The status is 2 if a card can't be read. */
#include "loamchalice.h"
#include <inttypes.h>
#include <stdio.h>

#define ROUNDS 3000
#define ROOM 200 /* entries of a table, of which 192 are used */
#define LISTED 820
#define BYTES 1700
#define COUNT(list) (sizeof(list) / sizeof *(list))

/* The generator: xorshift64*. */
static uint64_t state = 88172645463325252u;

static uint64_t any(void) {
    state ^= state << 13;
    state ^= state >> 7;
    state ^= state << 17;
    return state * 2685821657736338717u;
}

static uint64_t below(uint64_t n) { return (any() >> 11) % n; }

/* Returns 1 once in n calls, on average. */
static int rarely(uint64_t n) { return below(n) == 0; }

/* What is counted for a function. */
typedef struct {
    const char *name;
    uint64_t digest, calls, refused;
} tally;

static tally tallies[64];
static size_t names;
static tally *now;

/* Counts a call of this function; what is digested next belongs to it. */
static void of(const char *name) {
    for (now = tallies; now < tallies + names; now++) {
        if (strcmp(now->name, name) == 0) {
            break;
        }
    }
    if (now == tallies + names) {
        names++;
        now->name = name;
        now->digest = 14695981039346656037u;
    }
    now->calls++;
}

/* Adds bytes to the digest, by FNV-1a. */
static void eat(const void *at, size_t length) {
    const uint8_t *bytes = (const uint8_t *)at;
    for (size_t i = 0; i < length; i++) {
        now->digest = (now->digest ^ bytes[i]) * 1099511628211u;
    }
}

#define EAT(x) eat(&(x), sizeof(x))

/* Adds floats to the digest, every NaN as the same one: processors differ in which NaN an operation gives. */
static void eat_floats(const float *floats, size_t count) {
    for (size_t i = 0; i < count; i++) {
        uint32_t bits = loamchalice_bits(floats[i]);
        if ((bits & 0x7FFFFFFFu) > 0x7F800000u) {
            bits = LOAMCHALICE_NOT_A_NUMBER;
        }
        EAT(bits);
    }
}

static void eat_told(uint64_t number, uint64_t place, uint64_t value) {
    EAT(number);
    EAT(place);
    EAT(value);
}

#define TOLD(answer) eat_told((answer).told.number, (answer).told.place, (answer).told.value)
/* The same, and counts the call as refused if it is. */
#define REFUSAL(answer) (now->refused += (answer).told.number != 0, TOLD(answer))

static void eat_record(const loamchalice_record *r) {
    const float floats[] = {r->k_v_ptat, r->k_t_ptat, r->v_ptat_25, r->alpha_ptat, r->gain, r->k_s_ta, r->emissivity, r->alpha_cp, r->k_v_cp, r->k_ta_cp, r->gradient};
    eat_floats(floats, COUNT(floats));
    eat_floats(r->k_s_to, 8);
    EAT(r->corner_temperatures);
    EAT(r->k_v_dd);
    EAT(r->v_dd_25);
    EAT(r->offset_reference_cp);
    EAT(r->resolution);
    EAT(r->has_gradient);
    eat_floats(r->range_coefficients, 8);
}

static void eat_loaded(const loamchalice_loaded *loaded) {
    TOLD(*loaded);
    EAT(loaded->mended);
    EAT(loaded->last_mended);
    eat_record(&loaded->calibration);
}

static void eat_reader(const loamchalice_reader *reader) {
    EAT(reader->count);
    EAT(reader->ended);
    eat_loaded(&reader->answer);
}

static void eat_filter(const loamchalice_filter *filter) {
    EAT(filter->readings);
    EAT(filter->sum);
    EAT(filter->turn);
}

/* The memory that is passed to the calls. */
static int32_t offsets0[ROOM], offsets1[ROOM];
static float alpha[ROOM], k_v[ROOM], k_ta[ROOM];
static uint8_t pixels[400], mask[ROOM], image[BYTES], other[BYTES];
static uint32_t destination[ROOM];
static uint16_t list0[LISTED], list1[LISTED];

static void clear_tables(void) {
    for (int i = 0; i < ROOM; i++) {
        offsets0[i] = -i;
        offsets1[i] = i;
        alpha[i] = k_v[i] = k_ta[i] = (float)i;
    }
}

static void eat_tables(void) {
    EAT(offsets0);
    EAT(offsets1);
    eat_floats(alpha, ROOM);
    eat_floats(k_v, ROOM);
    eat_floats(k_ta, ROOM);
}

/* Returns a length to pass: sometimes too short, or longer than needed. */
static size_t length(size_t wanted, size_t room) {
    switch (below(40)) {
    case 0:
        return below(wanted);
    case 1:
        return wanted + below(room - wanted + 1);
    default:
        return wanted;
    }
}

/* The lengths of several tables, drawn before a call, since C does not define the order in which arguments are evaluated. */
static size_t lent[5];

static void lend(void) {
    for (size_t i = 0; i < COUNT(lent); i++) {
        lent[i] = length(LOAMCHALICE_PIXELS, ROOM);
    }
}

#define OFFSETS offsets0, lent[0], offsets1, lent[1]
#define K k_v, lent[3], k_ta, lent[4]
#define TABLES OFFSETS, alpha, lent[2], K

static size_t any_range(uint64_t often) { return rarely(often) ? below(10) : LOAMCHALICE_BASIC_RANGE; }

/* Returns a number near `usual`; sometimes random bits, or an edge case. */
static float any_float(float usual, float spread) {
    static const uint32_t edges[] = {0, 0x80000000u, 0x7F800000u, 0xFF800000u, 0x7FC00000u, 1, 0x7F7FFFFFu, 0x00800000u, 0xFFC00001u, 0x7F800001u};
    volatile float apart; /* keeps the compiler from fusing the two steps */
    switch (below(24)) {
    case 0:
        return loamchalice_float((uint32_t)any());
    case 1:
        return loamchalice_float(edges[below(COUNT(edges))]);
    default:
        apart = spread * ((float)(int)below(2001) / 1000.0f - 1.0f);
        return usual + apart;
    }
}

/* The files of cards/. */
static const char *const files[] = {"sound", "mended", "older", "half", "worn", "wiped", "damaged", "short", "blank"};
static uint8_t cards[COUNT(files)][BYTES];
static size_t lengths[COUNT(files)];

static int read_cards(const char *folder) {
    for (size_t i = 0; i < COUNT(files); i++) {
        char path[600];
        snprintf(path, sizeof path, "%s/%s.bin", folder, files[i]);
        FILE *file = fopen(path, "rb");
        if (file == NULL) {
            perror(path);
            return 0;
        }
        lengths[i] = fread(cards[i], 1, BYTES, file);
        fclose(file);
    }
    return 1;
}

/* Replaces some words of a card by random ones, or all. */
static void draw_words(uint8_t *card, int all) {
    static uint16_t data[LOAMCHALICE_CHECKED_WORDS], others[LOAMCHALICE_UNCHECKED_WORDS];
    if (loamchalice_read_words(card, LOAMCHALICE_IMAGE_BYTES, data, COUNT(data), others, COUNT(others)).told.number != 0 || all) {
        for (size_t i = 0; i < COUNT(data); i++) {
            data[i] = (uint16_t)below(2048);
        }
    }
    for (uint64_t i = below(60); i > 0; i--) {
        uint64_t word = below(COUNT(data));
        data[word] = (uint16_t)below(2048);
    }
    for (size_t i = 0; i < COUNT(others); i++) {
        others[i] = (uint16_t)any();
    }
    loamchalice_write(data, COUNT(data), others, COUNT(others), card, LOAMCHALICE_IMAGE_BYTES);
}

/* Makes a card: one of the files, as it is or with random words; sometimes with flipped bits. Returns its length. */
static size_t draw_card(uint8_t *to) {
    size_t which = below(COUNT(files));
    uint64_t how = below(8);
    memcpy(to, cards[which], LOAMCHALICE_IMAGE_BYTES);
    if (how >= 1 && how < 4) {
        draw_words(to, how == 1);
    }
    if (rarely(3)) {
        for (uint64_t i = 1 + below(3); i > 0; i--) {
            uint64_t byte = below(LOAMCHALICE_IMAGE_BYTES);
            to[byte] ^= (uint8_t)(1u << below(8));
        }
    }
    return how == 0 ? lengths[which] : LOAMCHALICE_IMAGE_BYTES;
}

static void eat_word(const loamchalice_word *answer) {
    REFUSAL(*answer);
    EAT(answer->word);
    EAT(answer->mended);
    EAT(answer->bit);
}

static void eat_root(float x) {
    uint32_t root = loamchalice_root(x);
    of("root");
    EAT(root);
}

static void call_words(uint16_t word) {
    loamchalice_word answer = loamchalice_encode(word);
    of("encode");
    eat_word(&answer);
    answer = loamchalice_check(word);
    of("check");
    eat_word(&answer);
    eat_root(loamchalice_float((uint32_t)any()));
    eat_root(loamchalice_float(0x4F800000u + (uint32_t)below(0x02000000u)));
}

static void call_fields(uint16_t word) {
    loamchalice_mlx90640_six_ten split = loamchalice_mlx90640_word_6_10_split(word);
    of("mlx90640_word_6_10_split");
    EAT(split.six);
    EAT(split.ten);
    loamchalice_mlx90640_unsigned unsigned_nibbles = loamchalice_mlx90640_word_to_u4s(word);
    of("mlx90640_word_to_u4s");
    EAT(unsigned_nibbles.nibbles);
    loamchalice_mlx90640_signed signed_nibbles = loamchalice_mlx90640_word_to_i4s(word);
    of("mlx90640_word_to_i4s");
    EAT(signed_nibbles.nibbles);
    loamchalice_mlx90640_access access = loamchalice_mlx90640_access_pattern(word);
    of("mlx90640_access_pattern");
    EAT(access.chess_3);
    EAT(access.chess_2);
    EAT(access.chess_1);
    EAT(access.pattern);
}

static void call_patterns(size_t pixel) {
    loamchalice_mlx90640_entry entry = loamchalice_mlx90640_interleave_entry(pixel);
    of("mlx90640_interleave_entry");
    REFUSAL(entry);
    EAT(entry.entry);
    entry = loamchalice_mlx90640_chessboard_entry(pixel);
    of("mlx90640_chessboard_entry");
    REFUSAL(entry);
    EAT(entry.entry);
}

static void call_lists(void) {
    size_t bytes = length(draw_card(image), BYTES), first = length(814, LISTED), second = length(18, LISTED);
    for (int i = 0; i < LISTED; i++) {
        list0[i] = list1[i] = 7;
    }
    loamchalice_outcome outcome = loamchalice_read_words(image, bytes, list0, first, list1, second);
    of("read_words");
    REFUSAL(outcome);
    EAT(list0);
    EAT(list1);
    for (uint64_t i = below(3); i > 0; i--) {
        uint64_t word = below(814);
        list0[word] = (uint16_t)below(2100);
    }
    memset(other, 3, sizeof other);
    bytes = length(LOAMCHALICE_IMAGE_BYTES, BYTES);
    first = length(814, LISTED);
    second = length(18, LISTED);
    outcome = loamchalice_write(list0, first, list1, second, other, bytes);
    of("write");
    REFUSAL(outcome);
    EAT(other);
}

static void call_parts(void) {
    size_t bytes = length(LOAMCHALICE_IMAGE_BYTES, BYTES), row = below(8);
    loamchalice_part part = loamchalice_alpha_row(image, bytes, row);
    of("alpha_row");
    EAT(part.start);
    EAT(part.length);
    lend();
    part = loamchalice_subpage_offsets(OFFSETS, (uint8_t)below(4));
    of("subpage_offsets");
    EAT(part.start);
    EAT(part.length);
}

static void eat_step(const loamchalice_step *step) {
    REFUSAL(*step);
    EAT(step->word);
    EAT(step->bits);
    EAT(step->reached);
}

static void call_burns(void) {
    size_t present = draw_card(image), wanted = draw_card(other);
    if (rarely(2)) {
        memcpy(other, image, LOAMCHALICE_IMAGE_BYTES);
        for (int i = 0; i < 5; i++) {
            uint64_t byte = 42 + below(1600);
            other[byte] = (uint8_t)any();
        }
    }
    present = length(present, BYTES);
    wanted = length(wanted, BYTES);
    for (int i = 0; i < 12; i++) {
        loamchalice_step step = loamchalice_next_step(image, present, other, wanted);
        of("next_step");
        eat_step(&step);
        step = loamchalice_burn(image, present, other, wanted);
        of("burn");
        eat_step(&step);
        EAT(image);
    }
}

static void call_scrub(void) {
    size_t bytes = length(draw_card(image), BYTES), first = length(814, LISTED), second = length(814, LISTED);
    loamchalice_scrubbed scrubbed = loamchalice_scrub(image, bytes, list0, first, list1, second);
    of("scrub");
    REFUSAL(scrubbed);
    EAT(scrubbed.changed);
    EAT(scrubbed.damaged);
    EAT(image);
    EAT(list0);
    EAT(list1);
}

/* Reads a card in pieces. A piece that is refused for short tables is passed again. */
static void call_reader(void) {
    size_t bytes = draw_card(other), at = 0;
    clear_tables();
    memset(image, 0, sizeof image);
    loamchalice_reader reader = loamchalice_reader_new();
    of("reader_new");
    eat_reader(&reader);
    while (at < bytes && !reader.ended && !rarely(40)) {
        size_t piece = 1 + below(rarely(4) ? 1664 : 300), before = reader.count, range = any_range(40);
        if (piece > bytes - at) {
            piece = bytes - at;
        }
        lend();
        loamchalice_taken taken = loamchalice_reader_take(image, reader, other + at, piece, range, TABLES);
        of("reader_take");
        REFUSAL(taken.answer);
        eat_loaded(&taken.answer);
        eat_reader(&taken.reader);
        EAT(image);
        eat_tables();
        reader = taken.reader;
        at += reader.count == before ? 0 : piece;
    }
    reader = loamchalice_reader_finished(reader);
    of("reader_finished");
    REFUSAL(reader.answer);
    eat_reader(&reader);
}

/* Fills the tables from a card and returns its record; from the sound card if that is refused. Sometimes a bit of the record is flipped. */
static loamchalice_record call_load(void) {
    size_t bytes = length(draw_card(image), BYTES), range = any_range(12);
    clear_tables();
    lend();
    loamchalice_loaded loaded = loamchalice_load(image, bytes, range, TABLES);
    of("load");
    REFUSAL(loaded);
    eat_loaded(&loaded);
    eat_tables();
    if (loaded.told.number != 0) {
        loaded = loamchalice_load(cards[0], LOAMCHALICE_IMAGE_BYTES, LOAMCHALICE_BASIC_RANGE, offsets0, 192, offsets1, 192, alpha, 192, k_v, 192, k_ta, 192);
    }
    if (rarely(10)) {
        uint64_t byte = below(sizeof loaded.calibration);
        ((uint8_t *)&loaded.calibration)[byte] ^= (uint8_t)(1u << below(8));
    }
    return loaded.calibration;
}

/* Returns the average of a filter, after pushes onto a new one or one filled in by hand. */
static loamchalice_average call_filter(void) {
    loamchalice_filter filter = loamchalice_filter_new();
    loamchalice_average average = {0.0f, 0};
    of("filter_new");
    eat_filter(&filter);
    if (rarely(10)) {
        for (int i = 0; i < 16; i++) {
            filter.readings[i] = (int16_t)any();
        }
        filter.sum = (int32_t)any();
        filter.turn = (uint8_t)any();
    }
    for (uint64_t i = below(24); i > 0; i--) {
        int16_t reading = (int16_t)(-105 + (int)below(9));
        filter = loamchalice_filter_push(filter, rarely(6) ? (int16_t)any() : reading);
        of("filter_push");
        eat_filter(&filter);
        average = loamchalice_filter_average(filter);
        of("filter_average");
        eat_floats(&average.average, 1);
        EAT(average.ready);
    }
    if (rarely(20)) {
        average.average = any_float(-105.0f, 10.0f);
    }
    return average;
}

static loamchalice_ram draw_ram(void) {
    loamchalice_ram ram = {19442, 1711, -13115, 6391, -105};
    ram.t_a_v_be += (int16_t)below(2000);
    ram.t_a_ptat += (int16_t)below(200);
    ram.v_dd_pixel += (int16_t)below(300);
    ram.gain += (int16_t)below(300);
    ram.compensation_pixel += (int16_t)below(20);
    if (rarely(8)) {
        ram.v_dd_pixel = (int16_t)any();
        ram.t_a_v_be = (int16_t)any();
    }
    if (rarely(20)) {
        ram.gain = 0;
    }
    return ram;
}

static loamchalice_settings draw_settings(void) {
    loamchalice_settings settings;
    settings.basic_range = any_range(10);
    settings.emissivity = any_float(0.9f, 0.1f);
    settings.resolution_correction = rarely(3) ? any_float(1.0f, 1.0f) : 1.0f;
    settings.v_dd_0 = any_float(3.3f, 0.2f);
    settings.self_heating = any_float(5.0f, 1.0f);
    settings.reflected = any_float(20.0f, 15.0f);
    settings.reflected_given = (uint8_t)below(3);
    return settings;
}

/* Makes the pixels of a scene, some of them hot, or random ones; and a mask for all, for some, for one, or for nearly all. */
static void draw_pixels(void) {
    int scene = !rarely(4);
    uint64_t kind = below(4);
    for (int i = 0; i < 200; i++) {
        int near = (int)below(400), hot = rarely(6) ? (int)below(6000) : 0;
        uint16_t word = scene ? (uint16_t)(-700 + near + hot) : (uint16_t)any();
        pixels[2 * i] = (uint8_t)(word >> 8);
        pixels[2 * i + 1] = (uint8_t)word;
    }
    for (int i = 0; i < ROOM; i++) {
        uint8_t some = (uint8_t)below(3), nearly = (uint8_t)!rarely(30);
        const uint8_t kinds[] = {1, some, (uint8_t)(i == 77), nearly};
        mask[i] = kinds[kind];
    }
}

static void clear_destination(void) {
    for (int i = 0; i < ROOM; i++) {
        destination[i] = 0x11110000u + (uint32_t)i;
    }
}

static void eat_frame(const char *name, loamchalice_answer answer) {
    of(name);
    REFUSAL(answer);
    EAT(answer.lost);
    EAT(answer.t_a);
    EAT(destination);
}

#define FRAME pixels, bytes, mask, masked, destination, entries

static void call_frames(void) {
    loamchalice_record record = call_load();
    loamchalice_filtered filtered;
    memset(&filtered, 0, sizeof filtered);
    filtered.compensation = call_filter();
    filtered.input.settings = draw_settings();
    filtered.input.ram = draw_ram();
    filtered.input.subpage = (uint8_t)below(3);
    draw_pixels();
    lend();
    size_t bytes = length(384, 400), masked = length(192, ROOM), entries = length(192, ROOM);
    loamchalice_input input = filtered.input;
    float t_a = any_float(30.0f, 30.0f);
    clear_destination();
    eat_frame("raw_pixels_to_ir_data", loamchalice_raw_pixels_to_ir_data(record, input, OFFSETS, K, FRAME));
    eat_frame("raw_ir_to_temperatures", loamchalice_raw_ir_to_temperatures(record, input.settings, t_a, alpha, lent[2], mask, masked, destination, entries));
    clear_destination();
    eat_frame("raw_pixels_to_temperatures", loamchalice_raw_pixels_to_temperatures(record, input, TABLES, FRAME));
    clear_destination();
    eat_frame("raw_pixels_to_ranged_temperatures", loamchalice_raw_pixels_to_ranged_temperatures(record, input, TABLES, FRAME));
    clear_destination();
    eat_frame("filtered_pixels_to_ir_data", loamchalice_filtered_pixels_to_ir_data(record, filtered, OFFSETS, K, FRAME));
    clear_destination();
    eat_frame("filtered_pixels_to_temperatures", loamchalice_filtered_pixels_to_temperatures(record, filtered, TABLES, FRAME));
    clear_destination();
    eat_frame("filtered_pixels_to_ranged_temperatures", loamchalice_filtered_pixels_to_ranged_temperatures(record, filtered, TABLES, FRAME));
}

/* The MLX90640's card. */
#define BIG_ROOM 776 /* of which 768 are used */
static int32_t big_offsets[BIG_ROOM];
static float big_alpha[BIG_ROOM], big_k_ta[BIG_ROOM];

static void put(size_t word, uint64_t bits) {
    image[2 * word] = (uint8_t)(bits >> 8);
    image[2 * word + 1] = (uint8_t)bits;
}

/* Makes a card of zeros with some random words, or of random words; mostly with averages and scales that keep the numbers of pixels inside 16 bits. */
static void draw_big_card(void) {
    memset(image, 0, sizeof image);
    if (rarely(3)) {
        for (uint64_t i = below(40); i > 0; i--) {
            uint64_t word = rarely(2) ? 16 + below(48) : 64 + below(768);
            put(word, any());
        }
    } else {
        for (size_t word = 0; word < LOAMCHALICE_WORDS; word++) {
            put(word, any());
        }
    }
    if (!rarely(6)) {
        for (size_t first = 16; first <= 32; first += 16) {
            uint64_t top = below(16), rows = below(11), columns = below(11), rests = below(9);
            put(first, top << 12 | rows << 8 | columns << 4 | rests);
            put(first + 1, below(8000) - 4000);
        }
        image[2 * 56 + 1] = (uint8_t)((image[2 * 56 + 1] & 0xF0) | below(13));
    }
}

static void eat_big_record(const loamchalice_mlx90640_record *r) {
    const float floats[] = {r->k_v_ptat, r->k_t_ptat, r->v_ptat_25, r->alpha_ptat, r->gain, r->k_s_ta, r->k_v_cp, r->k_ta_cp, r->gradient, r->access_cp};
    eat_floats(floats, COUNT(floats));
    eat_floats(r->alpha_cp, 2);
    eat_floats(r->k_s_to, 4);
    eat_floats(r->range_coefficients, 4);
    eat_floats(r->k_v, 4);
    eat_floats(r->access_pattern, 6);
    EAT(r->corner_temperatures);
    EAT(r->offset_reference_cp);
    EAT(r->k_v_dd);
    EAT(r->v_dd_25);
    EAT(r->resolution);
    EAT(r->has_gradient);
    EAT(r->unused);
}

static void call_big_load(void) {
    draw_big_card();
    for (int i = 0; i < BIG_ROOM; i++) {
        big_offsets[i] = i;
        big_alpha[i] = big_k_ta[i] = (float)i;
    }
    size_t bytes = length(LOAMCHALICE_IMAGE_BYTES, BYTES), range = rarely(4) ? below(6) : LOAMCHALICE_MLX90640_BASIC_RANGE;
    size_t first = length(768, BIG_ROOM), second = length(768, BIG_ROOM), third = length(768, BIG_ROOM);
    loamchalice_mlx90640_loaded loaded = loamchalice_mlx90640_load(image, bytes, range, big_offsets, first, big_alpha, second, big_k_ta, third);
    of("mlx90640_load");
    REFUSAL(loaded);
    eat_big_record(&loaded.calibration);
    EAT(big_offsets);
    eat_floats(big_alpha, BIG_ROOM);
    eat_floats(big_k_ta, BIG_ROOM);
}

/* The MLX90640's frames, on a card near its paper's example, or on the last card made. */
static uint8_t big_pixels[2 * BIG_ROOM], big_mask[BIG_ROOM];
static uint32_t big_destination[BIG_ROOM];

static void put_big_example(void) {
    const uint16_t example[] = {0x18EF, 0x2FF1, 0x5952, 0x9D68, 0x5454, 0x0994, 0x6956, 0x5354,
                                0x2363, 0xE446, 0xFBB5, 0x044B, 0xF020, 0x9797, 0x9797, 0x2889};
    memset(image, 0, sizeof image);
    put(16, 0x4210);
    put(17, 0xFFBB);
    put(32, 0x79A6);
    put(33, 0x2F44);
    for (size_t k = 0; k < COUNT(example); k++) {
        put(48 + k, example[k] ^ (rarely(6) ? 1u << below(16) : 0));
    }
    for (size_t pixel = 0; pixel < 768; pixel++) {
        put(64 + pixel, (below(7) << 10) + (below(7) << 4) + (below(8) << 1));
    }
}

static void draw_big_pixels(void) {
    int scene = !rarely(4);
    uint64_t kind = below(3);
    for (int i = 0; i < BIG_ROOM; i++) {
        int near = (int)below(400), hot = rarely(6) ? (int)below(6000) : 0;
        uint16_t word = scene ? (uint16_t)(300 + near + hot) : (uint16_t)any();
        const uint8_t kinds[] = {1, (uint8_t)below(3), (uint8_t)(i == 700)};
        big_pixels[2 * i] = (uint8_t)(word >> 8);
        big_pixels[2 * i + 1] = (uint8_t)word;
        big_mask[i] = kinds[kind];
        big_destination[i] = 0x11110000u + (uint32_t)i;
    }
}

static void eat_big_frame(const char *name, loamchalice_answer answer) {
    of(name);
    REFUSAL(answer);
    EAT(answer.lost);
    EAT(answer.t_a);
    EAT(big_destination);
    for (int i = 0; i < BIG_ROOM; i++) {
        big_destination[i] = 0x11110000u + (uint32_t)i;
    }
}

#define BIG_FRAME big_pixels, bytes, big_mask, masked, big_destination, entries
#define BIG_TABLES big_offsets, first, big_alpha, second, big_k_ta, third

static void call_big_frames(void) {
    if (rarely(6)) {
        draw_big_card();
    } else {
        put_big_example();
    }
    loamchalice_mlx90640_record record =
        loamchalice_mlx90640_load(image, LOAMCHALICE_IMAGE_BYTES, any_range(3), big_offsets, BIG_ROOM, big_alpha, BIG_ROOM, big_k_ta, BIG_ROOM).calibration;
    loamchalice_mlx90640_filtered filtered;
    memset(&filtered, 0, sizeof filtered);
    filtered.compensation.average = any_float(-54.0f, 10.0f);
    filtered.compensation.ready = (uint8_t)below(3);
    filtered.input.settings = draw_settings();
    filtered.input.settings.basic_range = any_range(3);
    filtered.input.ram = draw_ram();
    filtered.input.subpage = (uint8_t)below(3);
    filtered.input.pattern = (uint8_t)below(3);
    draw_big_pixels();
    size_t first = length(768, BIG_ROOM), second = length(768, BIG_ROOM), third = length(768, BIG_ROOM);
    size_t bytes = length(1536, sizeof big_pixels), masked = length(768, BIG_ROOM), entries = length(768, BIG_ROOM);
    loamchalice_mlx90640_input input = filtered.input;
    float t_a = any_float(30.0f, 30.0f);
    if (rarely(4)) {
        loamchalice_outcome outcome = loamchalice_mlx90640_subpage_mask(input.subpage, input.pattern, big_mask, masked);
        of("mlx90640_subpage_mask");
        REFUSAL(outcome);
        EAT(big_mask);
    }
    eat_big_frame("mlx90640_raw_pixels_to_ir_data",
                  loamchalice_mlx90640_raw_pixels_to_ir_data(record, input, big_offsets, first, big_k_ta, third, BIG_FRAME));
    for (int i = 0; i < BIG_ROOM; i++) {
        big_destination[i] = loamchalice_bits(any_float(700.0f, 300.0f));
    }
    eat_big_frame("mlx90640_raw_ir_to_temperatures",
                  loamchalice_mlx90640_raw_ir_to_temperatures(record, input.settings, input.subpage, t_a, big_alpha, second, big_mask, masked, big_destination, entries));
    eat_big_frame("mlx90640_raw_pixels_to_temperatures", loamchalice_mlx90640_raw_pixels_to_temperatures(record, input, BIG_TABLES, BIG_FRAME));
    eat_big_frame("mlx90640_raw_pixels_to_ranged_temperatures", loamchalice_mlx90640_raw_pixels_to_ranged_temperatures(record, input, BIG_TABLES, BIG_FRAME));
    eat_big_frame("mlx90640_filtered_pixels_to_ir_data",
                  loamchalice_mlx90640_filtered_pixels_to_ir_data(record, filtered, big_offsets, first, big_k_ta, third, BIG_FRAME));
    eat_big_frame("mlx90640_filtered_pixels_to_temperatures", loamchalice_mlx90640_filtered_pixels_to_temperatures(record, filtered, BIG_TABLES, BIG_FRAME));
    eat_big_frame("mlx90640_filtered_pixels_to_ranged_temperatures",
                  loamchalice_mlx90640_filtered_pixels_to_ranged_temperatures(record, filtered, BIG_TABLES, BIG_FRAME));
}

int main(int argc, char **argv) {
    if (argc != 2 || !read_cards(argv[1])) {
        fprintf(stderr, "usage: digest FOLDER_OF_CARDS\n");
        return 2;
    }
    clear_tables();
    for (uint32_t word = 0; word < 65536; word++) {
        call_words((uint16_t)word);
        call_fields((uint16_t)word);
        call_patterns(word < 800 ? word : (size_t)any());
    }
    for (int i = 0; i < ROUNDS; i++) {
        call_lists();
        call_parts();
        call_burns();
        call_scrub();
        call_reader();
        call_frames();
    }
    for (int i = 0; i < ROUNDS; i++) {
        call_big_load();
    }
    for (int i = 0; i < ROUNDS; i++) {
        call_big_frames();
    }
    for (size_t i = 0; i < names; i++) {
        const tally *t = &tallies[i];
        printf("%s\t%" PRIu64 "\t%" PRIu64 "\t%016" PRIx64 "\n", t->name, t->calls, t->refused, t->digest);
    }
    return 0;
}
