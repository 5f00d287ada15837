/* Calls every function of the header, on a sound card and on arguments that no careful caller passes: short and empty slices, readers and filters filled in
 * by hand, another floating-point environment. The expected frames are computed here, step by step as in docs/SCOPE.md.
 *   cc -o target/test bindings/c/test.c target/libloamchalice.a && target/test cards/sound.bin
 * The status is 0 if every check holds, 1 if one does not, 2 if the card can't be read. */
#include "loamchalice.h"
#include <stdio.h>

#define LENT(table) (table), (sizeof(table) / sizeof *(table))
#define NOTHING NULL, 0

static uint8_t card[LOAMCHALICE_IMAGE_BYTES];
static loamchalice_camera camera;
static loamchalice_ram ram = {19442, 1711, -13115, 6391, -105};
static uint8_t pixels[LOAMCHALICE_PIXEL_BYTES], mask[LOAMCHALICE_PIXELS];
static int tried, failed;

static void expect(int holds, const char *what) {
    tried++;
    if (!holds) {
        failed++;
        printf("failed: %s\n", what);
    }
}

#define REFUSED(answer, n, p, v) ((answer).told.number == (n) && (answer).told.place == (p) && (answer).told.value == (v))

/* Tables for loading, each with a last entry that must not change. */
typedef struct {
    int32_t offsets0[193], offsets1[193];
    float alpha[193], k_v[193], k_ta[193];
} tables;

#define TABLES(t) LENT((t).offsets0), LENT((t).offsets1), LENT((t).alpha), LENT((t).k_v), LENT((t).k_ta)

static tables blank(void) {
    tables t;
    memset(&t, 0x55, sizeof t);
    return t;
}

static int same_tables(const tables *a, const tables *b) { return memcmp(a, b, sizeof *a) == 0; }

/* Returns the tables that a load must leave: the camera's, with those last entries unchanged. */
static tables loaded_tables(void) {
    tables t = blank();
    memcpy(t.offsets0, camera.offsets0, sizeof camera.offsets0);
    memcpy(t.offsets1, camera.offsets1, sizeof camera.offsets1);
    memcpy(t.alpha, camera.alpha, sizeof camera.alpha);
    memcpy(t.k_v, camera.k_v, sizeof camera.k_v);
    memcpy(t.k_ta, camera.k_ta, sizeof camera.k_ta);
    return t;
}

static void try_words(void) {
    loamchalice_word word = loamchalice_encode(3);
    expect(REFUSED(word, 0, 0, 0) && word.word == 0x3003, "encode 3");
    word = loamchalice_encode(2048);
    expect(REFUSED(word, 9, 2048, 0) && word.word == 0, "encode 2048");
    word = loamchalice_check(0x9801);
    expect(REFUSED(word, 0, 0, 0) && word.word == 1 && word.mended == 0 && word.bit == 0, "a clean word");
    word = loamchalice_check(0x9801 ^ 0x2000);
    expect(REFUSED(word, 0, 0, 0) && word.word == 1 && word.mended == 1 && word.bit == 13, "a mended word");
    word = loamchalice_check(3);
    expect(REFUSED(word, 3, 0, 3) && word.word == 0, "a damaged word");
    expect(loamchalice_root(81.0f) == loamchalice_bits(3.0f), "the fourth root of 81");
    expect(loamchalice_root(-1.0f) == LOAMCHALICE_NOT_A_NUMBER, "the fourth root of -1");
}

static void try_load(void) {
    tables t = blank(), before = t, want = loaded_tables();
    loamchalice_loaded loaded = loamchalice_load(NOTHING, 2, TABLES(t));
    expect(REFUSED(loaded, 1, 0, 0) && same_tables(&t, &before), "no image");
    loaded = loamchalice_load(card, 1663, 9, TABLES(t));
    expect(REFUSED(loaded, 1, 1663, 0), "a short image");
    loaded = loamchalice_load(LENT(card), 9, LENT(t.offsets0), LENT(t.offsets1), t.alpha, 191, LENT(t.k_v), LENT(t.k_ta));
    expect(REFUSED(loaded, 2, 0, 0) && same_tables(&t, &before), "a table of 191");
    loaded = loamchalice_load(LENT(card), 9, NOTHING, NOTHING, NOTHING, NOTHING, NOTHING);
    expect(REFUSED(loaded, 2, 0, 0), "no tables");
    loaded = loamchalice_load(LENT(card), 8, TABLES(t));
    expect(REFUSED(loaded, 6, 8, 0) && same_tables(&t, &before) && loaded.last_mended == LOAMCHALICE_WORDS, "basic range 8");
    loaded = loamchalice_load(LENT(card), 2, TABLES(t));
    expect(REFUSED(loaded, 0, 0, 0) && loaded.mended == 0 && loaded.last_mended == LOAMCHALICE_WORDS, "a sound card loads");
    expect(same_tables(&t, &want), "entries past 192 stay");
    expect(memcmp(&loaded.calibration, &camera.record, sizeof camera.record) == 0, "the camera's record");
    card[2 * 700 + 1] ^= 4;
    loaded = loamchalice_load(LENT(card), 2, TABLES(t));
    expect(REFUSED(loaded, 0, 0, 0) && loaded.mended == 1 && loaded.last_mended == 700, "a flipped bit is mended");
    card[2 * 700 + 1] ^= 4 ^ 3;
    loaded = loamchalice_load(LENT(card), 2, TABLES(t));
    expect(loaded.told.number == 3 && loaded.told.place == 700 && loaded.told.value == (uint64_t)(card[1400] << 8 | card[1401]), "two flipped bits are refused");
    card[2 * 700 + 1] ^= 3;
}

static void try_lists(void) {
    static uint16_t data[815], others[19];
    uint8_t image[1665];
    memset(image, 0x55, sizeof image);
    expect(REFUSED(loamchalice_read_words(NOTHING, LENT(data), LENT(others)), 1, 0, 0), "words of no image");
    expect(REFUSED(loamchalice_read_words(LENT(card), data, 813, LENT(others)), 2, 0, 0), "a short list of data");
    expect(REFUSED(loamchalice_read_words(LENT(card), NOTHING, NOTHING), 2, 0, 0), "no lists");
    expect(data[0] == 0, "a refused reading leaves the lists");
    data[814] = others[18] = 7;
    expect(REFUSED(loamchalice_read_words(LENT(card), LENT(data), LENT(others)), 0, 0, 0) && data[814] == 7 && others[18] == 7, "the card's words");
    expect(others[17] == (card[40] << 8 | card[41]), "the last unchecked word is word 20");
    expect(REFUSED(loamchalice_write(NOTHING, NOTHING, LENT(image)), 1, 0, 0), "no lists to write");
    expect(REFUSED(loamchalice_write(data, 814, LENT(others), LENT(image)), 1, 19, 0), "19 unchecked words to write");
    expect(REFUSED(loamchalice_write(data, 814, others, 18, image, 1663), 2, 0, 0), "a short image to write to");
    data[5] = 2048;
    expect(REFUSED(loamchalice_write(data, 814, others, 18, LENT(image)), 9, 5, 2048) && image[0] == 0x55, "an entry of 2048");
    data[5] = loamchalice_check((uint16_t)(card[2 * 23] << 8 | card[2 * 23 + 1])).word;
    expect(REFUSED(loamchalice_write(data, 814, others, 18, LENT(image)), 0, 0, 0), "the card is written");
    expect(memcmp(image, card, sizeof card) == 0 && image[1664] == 0x55, "as it was read");
}

static void try_parts(void) {
    int32_t zero[200] = {0}, one[191] = {0};
    loamchalice_part part = loamchalice_alpha_row(LENT(card), 1);
    expect(part.start == 576 && part.length == 64, "row 1 of alpha");
    part = loamchalice_alpha_row(LENT(card), 6);
    expect(part.start == 0 && part.length == 0, "row 6 of alpha");
    part = loamchalice_alpha_row(NOTHING, 0);
    expect(part.start == 0 && part.length == 0, "a row of no image");
    part = loamchalice_subpage_offsets(LENT(zero), LENT(one), 0);
    expect(part.start == 0 && part.length == 192, "offsets of subpage 0");
    part = loamchalice_subpage_offsets(LENT(zero), LENT(one), 255);
    expect(part.start == 0 && part.length == 0, "offsets of subpage 1");
    part = loamchalice_subpage_offsets(NOTHING, NOTHING, 0);
    expect(part.start == 0 && part.length == 0, "offsets of no table");
}

static void try_scrub(void) {
    uint8_t image[1665];
    static uint16_t changed[815], damaged[815];
    memcpy(image, card, sizeof card);
    image[1664] = 0x55;
    image[2 * 300] ^= 1;
    image[2 * 400] ^= 3;
    expect(REFUSED(loamchalice_scrub(NOTHING, LENT(changed), LENT(damaged)), 1, 0, 0), "a scrub of no image");
    expect(REFUSED(loamchalice_scrub(LENT(image), NOTHING, NOTHING), 2, 0, 0) && image[600] != card[600], "a scrub without lists");
    loamchalice_scrubbed scrubbed = loamchalice_scrub(LENT(image), LENT(changed), LENT(damaged));
    expect(REFUSED(scrubbed, 0, 0, 0) && scrubbed.changed == 1 && scrubbed.damaged == 1, "a word is mended and one stays");
    expect(changed[0] == 300 && damaged[0] == 400 && changed[1] == 0 && damaged[1] == 0, "which they are");
    image[2 * 400] ^= 3;
    expect(memcmp(image, card, sizeof card) == 0 && image[1664] == 0x55, "the scrubbed card");
}

static void try_burn(void) {
    static uint8_t present[LOAMCHALICE_IMAGE_BYTES], wanted[LOAMCHALICE_IMAGE_BYTES];
    memcpy(present, card, sizeof card);
    memcpy(wanted, card, sizeof card);
    uint16_t word = loamchalice_encode(77).word;
    wanted[72] = (uint8_t)(word >> 8);
    wanted[73] = (uint8_t)word;
    loamchalice_step step = loamchalice_next_step(LENT(present), LENT(wanted));
    expect(REFUSED(step, 0, 0, 0) && step.word == 36 && step.bits == 0 && step.reached == 0, "the first step");
    expect(loamchalice_burn(LENT(present), LENT(wanted)).reached == 0 && present[72] == 0 && present[73] == 0, "word 36 is zeroed");
    step = loamchalice_burn(LENT(present), LENT(wanted));
    expect(REFUSED(step, 0, 0, 0) && step.word == 36 && step.bits == word && step.reached == 1, "the second step");
    step = loamchalice_next_step(LENT(present), LENT(wanted));
    expect(step.word == LOAMCHALICE_WORDS && step.reached == 1 && memcmp(present, wanted, sizeof card) == 0, "no step is left");
    wanted[2 * 19] ^= 1;
    expect(REFUSED(loamchalice_burn(LENT(present), LENT(wanted)), 11, 19, 0), "another unchecked word");
    expect(REFUSED(loamchalice_next_step(NOTHING, wanted, 7), 1, 0, 0), "no present image");
    expect(REFUSED(loamchalice_burn(LENT(present), NOTHING), 1, 0, 0), "no wanted image");
}

/* Reads a whole card in pieces of 63 bytes, with empty pieces and short tables between them. */
static void try_reader(void) {
    static uint8_t image[LOAMCHALICE_IMAGE_BYTES];
    tables t = blank(), before = t, want = loaded_tables();
    loamchalice_taken taken;
    taken.reader = loamchalice_reader_new();
    expect(taken.reader.count == 0 && taken.reader.ended == 0 && taken.reader.answer.last_mended == LOAMCHALICE_WORDS, "a new reader");
    for (size_t at = 0; at < sizeof card; at += 63) {
        size_t length = sizeof card - at < 63 ? sizeof card - at : 63;
        taken = loamchalice_reader_take(image, taken.reader, NOTHING, 2, TABLES(t));
        expect(loamchalice_reader_wants_more(&taken) && taken.answer.told.number == 0 && taken.reader.count == at, "an empty piece changes nothing");
        taken = loamchalice_reader_take(image, taken.reader, card + at, length, 2, NOTHING, NOTHING, NOTHING, NOTHING, NOTHING);
        expect(loamchalice_reader_wants_more(&taken) && REFUSED(taken.answer, 2, 0, 0) && taken.reader.count == at, "short tables take no piece");
        expect(same_tables(&t, &before), "tables stay while more is wanted");
        taken = loamchalice_reader_take(image, taken.reader, card + at, length, 2, TABLES(t));
    }
    expect(!loamchalice_reader_wants_more(&taken) && REFUSED(taken.answer, 0, 0, 0) && taken.reader.count == sizeof card, "the card is done");
    expect(same_tables(&t, &want) && memcmp(&taken.answer.calibration, &camera.record, sizeof camera.record) == 0, "as a load");
    taken = loamchalice_reader_take(image, taken.reader, card, 5, 9, NOTHING, NOTHING, NOTHING, NOTHING, NOTHING);
    expect(!loamchalice_reader_wants_more(&taken) && taken.answer.told.number == 0 && taken.answer.calibration.gain == camera.record.gain, "again");
    expect(loamchalice_reader_finished(taken.reader).answer.told.number == 0, "finished after the end");
    taken.reader = loamchalice_reader_new();
    taken = loamchalice_reader_take(image, taken.reader, card, 100, 2, TABLES(t));
    loamchalice_reader ended = loamchalice_reader_finished(taken.reader);
    expect(ended.ended == 1 && REFUSED(ended.answer, 1, 100, 0), "finished early");
    uint8_t damaged[] = {0, 0, 0, 3};
    taken.reader = loamchalice_reader_new();
    taken.reader.count = 40;
    taken = loamchalice_reader_take(image, taken.reader, LENT(damaged), 2, TABLES(t));
    expect(!loamchalice_reader_wants_more(&taken) && REFUSED(taken.answer, 3, 21, 3) && image[43] == 3, "a damaged word, and the array keeps its bytes");
}

/* Readers in states that no calls produce. */
static void try_odd_readers(void) {
    static uint8_t image[LOAMCHALICE_IMAGE_BYTES];
    const size_t counts[] = {1664, 1665, SIZE_MAX};
    memcpy(image, card, sizeof card);
    for (size_t k = 0; k < 3; k++) {
        tables t = blank();
        loamchalice_reader reader = loamchalice_reader_new();
        reader.count = counts[k];
        loamchalice_reader back = loamchalice_reader_finished(reader);
        expect(back.count == counts[k] && back.ended == 0 && back.answer.told.number == 0, "a full reader that has not ended comes back");
        loamchalice_taken taken = loamchalice_reader_take(image, reader, NOTHING, 2, TABLES(t));
        expect(loamchalice_reader_wants_more(&taken) && taken.reader.count == counts[k], "an empty piece changes nothing of it");
        taken = loamchalice_reader_take(image, reader, card, 1, 2, TABLES(t));
        expect(!loamchalice_reader_wants_more(&taken) && REFUSED(taken.answer, 0, 0, 0) && memcmp(image, card, sizeof card) == 0, "a piece loads its array");
    }
    tables t = blank(), before = t;
    loamchalice_reader odd;
    memset(&odd, 0xFF, sizeof odd);
    loamchalice_taken taken = loamchalice_reader_take(image, odd, LENT(card), 2, TABLES(t));
    expect(!loamchalice_reader_wants_more(&taken) && memcmp(&taken.answer.told.number, &odd.answer.told.number, 8) == 0 && same_tables(&t, &before), "an odd end");
    expect(loamchalice_reader_finished(odd).answer.told.place == UINT64_MAX, "and again");
}

static void try_filter(void) {
    loamchalice_filter filter = loamchalice_filter_new();
    for (int16_t k = -116; k < -100; k++) {
        expect(loamchalice_filter_average(filter).ready == 0 && loamchalice_bits(loamchalice_filter_average(filter).average) == 0, "not yet");
        filter = loamchalice_filter_push(filter, k);
    }
    loamchalice_average average = loamchalice_filter_average(filter);
    expect(average.ready == 1 && average.average == -108.5f, "the average of 16");
    average = loamchalice_filter_average(loamchalice_filter_push(filter, -100));
    expect(average.ready == 1 && average.average == -107.5f, "the oldest goes");
    /* filled in by hand */
    memset(&filter, 0x7F, sizeof filter);
    filter.turn = 255;
    expect(loamchalice_filter_average(filter).average == 524287.0f / 16.0f, "a sum that is too large");
    filter = loamchalice_filter_push(filter, 0x7F7F);
    expect(filter.turn == 16 && filter.sum == 524287 && loamchalice_filter_average(filter).ready == 1, "a turn that is too large");
    filter.sum = INT32_MIN;
    expect(loamchalice_filter_average(filter).average == -32768.0f, "a sum that is too small");
}

/* Single float steps, so that no compiler fuses two. */
static float add(float a, float b) { volatile float r = a + b; return r; }
static float sub(float a, float b) { volatile float r = a - b; return r; }
static float mul(float a, float b) { volatile float r = a * b; return r; }
static float over(float a, float b) { volatile float r = a / b; return r; }
static float fourth(float x) { return mul(mul(x, x), mul(x, x)); }

/* Computes the expected frames for these settings, subpage and compensation reading. */
typedef struct {
    loamchalice_settings s;
    uint8_t subpage;
    float compensation;
} scene;

static float supply_delta(void) { return over((float)(ram.v_dd_pixel - camera.record.v_dd_25), (float)camera.record.k_v_dd); }

static float ambient(void) {
    const loamchalice_record *r = &camera.record;
    float art = mul(over(ram.t_a_ptat, add(mul(ram.t_a_ptat, r->alpha_ptat), ram.t_a_v_be)), 262144.0f);
    return add(over(sub(over(art, add(1.0f, mul(r->k_v_ptat, supply_delta()))), r->v_ptat_25), r->k_t_ptat), 25.0f);
}

static float plain(const scene *c, float reading, int32_t offset, float k_v, float k_ta) {
    float supply = add(mul(supply_delta(), c->s.resolution_correction), c->s.v_dd_0);
    float gained = add(mul(reading, over(camera.record.gain, ram.gain)), 0.0f);
    float warm = mul((float)offset, add(1.0f, mul(k_ta, sub(ambient(), 25.0f))));
    return over(sub(gained, mul(warm, add(1.0f, mul(k_v, sub(supply, 3.3f))))), c->s.emissivity);
}

static float infrared(const scene *c, int i) {
    const loamchalice_record *r = &camera.record;
    int16_t reading = (int16_t)(uint16_t)(pixels[2 * i] << 8 | pixels[2 * i + 1]);
    float v = plain(c, reading, (c->subpage == 0 ? camera.offsets0 : camera.offsets1)[i], camera.k_v[i], camera.k_ta[i]);
    return sub(v, mul(r->gradient, plain(c, c->compensation, r->offset_reference_cp, r->k_v_cp, r->k_ta_cp)));
}

static float t_ar(const scene *c) {
    float reflected = c->s.reflected_given != 0 ? c->s.reflected : sub(ambient(), c->s.self_heating);
    float r4 = fourth(add(reflected, 273.15f)), a4 = fourth(add(ambient(), 273.15f));
    return sub(r4, over(sub(r4, a4), c->s.emissivity));
}

static float sensitivity(int i) {
    const loamchalice_record *r = &camera.record;
    return mul(sub(camera.alpha[i], mul(r->alpha_cp, r->gradient)), add(1.0f, mul(r->k_s_ta, sub(ambient(), 25.0f))));
}

static float temperature(const scene *c, int i) {
    float v = infrared(c, i), a = sensitivity(i), k = camera.record.k_s_to[c->s.basic_range];
    float s = mul(k, loamchalice_float(loamchalice_root(add(mul(mul(mul(a, a), a), v), mul(fourth(a), t_ar(c))))));
    float x = add(over(v, add(mul(a, sub(1.0f, mul(k, 273.15f))), s)), t_ar(c));
    return sub(loamchalice_float(loamchalice_root(x)), 273.15f);
}

static float ranged(const scene *c, int i) {
    const loamchalice_record *r = &camera.record;
    float basic = temperature(c, i);
    int range = 7;
    while (range > 0 && basic < r->corner_temperatures[range]) {
        range--;
    }
    float growth = add(1.0f, mul(r->k_s_to[range], sub(basic, r->corner_temperatures[range])));
    float x = add(over(infrared(c, i), mul(mul(sensitivity(i), r->range_coefficients[range]), growth)), t_ar(c));
    return sub(loamchalice_float(loamchalice_root(x)), 273.15f);
}

/* The destination of the calls: all 7 before, with a last entry that must not change. */
static uint32_t picture[LOAMCHALICE_PIXELS + 1];

static void wipe(void) {
    for (int i = 0; i <= LOAMCHALICE_PIXELS; i++) {
        picture[i] = 7;
    }
}

/* Expects that a call was not refused and wrote the expected numbers, and wipes the picture. */
static void wrote(loamchalice_answer answer, const scene *c, float (*wanted)(const scene *, int), const char *what) {
    int agree = picture[LOAMCHALICE_PIXELS] == 7;
    for (int i = 0; i < LOAMCHALICE_PIXELS; i++) {
        agree = agree && picture[i] == (mask[i] == 0 ? 7 : loamchalice_bits(wanted(c, i)));
    }
    expect(REFUSED(answer, 0, 0, 0) && answer.lost == 0 && answer.t_a == loamchalice_bits(ambient()) && agree, what);
    wipe();
}

/* The call in place, from this scene's infrared values. */
static void try_onward(const scene *c) {
    uint32_t numbers[LOAMCHALICE_PIXELS + 1] = {0};
    for (int i = 0; i < LOAMCHALICE_PIXELS; i++) {
        numbers[i] = loamchalice_bits(infrared(c, i));
        picture[i] = mask[i] == 0 ? 7 : numbers[i];
    }
    wrote(loamchalice_camera_raw_ir_to_temperatures(&camera, &c->s, ambient(), mask, picture), c, temperature, "infrared to temperatures");
    for (int i = 0; i < LOAMCHALICE_PIXELS; i++) {
        picture[i] = mask[i] == 0 ? 7 : numbers[i];
    }
    wrote(loamchalice_raw_ir_to_temperatures(camera.record, c->s, ambient(), LENT(camera.alpha), LENT(mask), LENT(picture)), c, temperature, "plainly");
}

#define OFFSETS LENT(camera.offsets0), LENT(camera.offsets1)
#define K LENT(camera.k_v), LENT(camera.k_ta)
#define ALL OFFSETS, LENT(camera.alpha), K
#define FRAME LENT(pixels), LENT(mask), LENT(picture)
#define OF_CAMERA LENT(pixels), mask, picture

static void try_plain(const scene *c) {
    loamchalice_input input = loamchalice_input_of(&c->s, ram, c->subpage);
    wrote(loamchalice_raw_pixels_to_ir_data(camera.record, input, OFFSETS, K, FRAME), c, infrared, "infrared");
    wrote(loamchalice_raw_pixels_to_temperatures(camera.record, input, ALL, FRAME), c, temperature, "one pass");
    wrote(loamchalice_raw_pixels_to_ranged_temperatures(camera.record, input, ALL, FRAME), c, ranged, "the second pass");
    wrote(loamchalice_camera_raw_pixels_to_ir_data(&camera, &c->s, ram, c->subpage, OF_CAMERA), c, infrared, "infrared of a camera");
    wrote(loamchalice_camera_raw_pixels_to_temperatures(&camera, &c->s, ram, c->subpage, OF_CAMERA), c, temperature, "one pass of a camera");
    wrote(loamchalice_camera_raw_pixels_to_ranged_temperatures(&camera, &c->s, ram, c->subpage, OF_CAMERA), c, ranged, "the second pass of a camera");
}

static void try_filtered(const scene *c, loamchalice_average average) {
    loamchalice_filtered filtered = loamchalice_filtered_of(&c->s, ram, average, c->subpage);
    wrote(loamchalice_filtered_pixels_to_ir_data(camera.record, filtered, OFFSETS, K, FRAME), c, infrared, "filtered infrared");
    wrote(loamchalice_filtered_pixels_to_temperatures(camera.record, filtered, ALL, FRAME), c, temperature, "one pass, filtered");
    wrote(loamchalice_filtered_pixels_to_ranged_temperatures(camera.record, filtered, ALL, FRAME), c, ranged, "the second pass, filtered");
    wrote(loamchalice_camera_filtered_pixels_to_ir_data(&camera, &c->s, ram, average, c->subpage, OF_CAMERA), c, infrared, "filtered, of a camera");
    wrote(loamchalice_camera_filtered_pixels_to_temperatures(&camera, &c->s, ram, average, c->subpage, OF_CAMERA), c, temperature,
          "one pass, filtered, of a camera");
    wrote(loamchalice_camera_filtered_pixels_to_ranged_temperatures(&camera, &c->s, ram, average, c->subpage, OF_CAMERA), c, ranged,
          "the second pass, filtered, of a camera");
}

/* Settings that all differ, so that none can pass for another; those that are not read are NaN. */
static void try_frames(void) {
    float nan = loamchalice_float(LOAMCHALICE_NOT_A_NUMBER);
    for (uint8_t subpage = 0; subpage < 2; subpage++) {
        for (uint8_t given = 0; given < 2; given++) {
            loamchalice_settings s = {3, 0.9f, 2.0f, 3.2f, 7.0f, 21.0f, given};
            *(given != 0 ? &s.self_heating : &s.reflected) = nan;
            scene c = {s, subpage, (float)ram.compensation_pixel};
            loamchalice_average average = {nan, 0};
            wipe();
            try_plain(&c);
            try_onward(&c);
            try_filtered(&c, average);
            average.average = c.compensation = -90.5f;
            average.ready = (uint8_t)(1 + 254 * given);
            try_filtered(&c, average);
        }
    }
}

/* Each call from pixels to temperatures refuses this, and leaves the picture unchanged. */
static void refused(loamchalice_input input, size_t table, size_t bytes, size_t entries, size_t asked, uint64_t number, uint64_t place, const char *what) {
    loamchalice_filtered filtered = {input, {0.0f, 0}};
    loamchalice_answer answers[4];
    answers[0] = loamchalice_raw_pixels_to_temperatures(
        camera.record, input, OFFSETS, camera.alpha, table, K, pixels, bytes, mask, asked, picture, entries);
    answers[1] = loamchalice_raw_pixels_to_ranged_temperatures(
        camera.record, input, OFFSETS, camera.alpha, table, K, pixels, bytes, mask, asked, picture, entries);
    answers[2] = loamchalice_filtered_pixels_to_temperatures(
        camera.record, filtered, OFFSETS, camera.alpha, table, K, pixels, bytes, mask, asked, picture, entries);
    answers[3] = loamchalice_filtered_pixels_to_ranged_temperatures(
        camera.record, filtered, OFFSETS, camera.alpha, table, K, pixels, bytes, mask, asked, picture, entries);
    for (int k = 0; k < 4; k++) {
        expect(REFUSED(answers[k], number, place, 0) && answers[k].lost == 0 && answers[k].t_a == 0, what);
    }
    for (int i = 0; i <= LOAMCHALICE_PIXELS; i++) {
        expect(picture[i] == 7, "a refused frame leaves the picture");
    }
}

static void try_refused_frames(void) {
    loamchalice_settings settings = loamchalice_settings_of(&camera.record, 2);
    loamchalice_input good = loamchalice_input_of(&settings, ram, 0), odd = good;
    wipe();
    refused(good, 191, 383, 192, 192, 2, 0, "a table of 191");
    refused(good, 192, 383, 191, 192, 10, 383, "383 pixel bytes");
    refused(good, 192, 384, 191, 190, 10, 191, "a picture of 191");
    odd.settings.basic_range = 8;
    refused(odd, 192, 384, 192, 190, 10, 190, "a mask of 190");
    refused(odd, 192, 384, 192, 192, 6, 8, "basic range 8");
    odd = good;
    odd.ram.v_dd_pixel = 32767;
    odd.ram.gain = 0;
    refused(odd, 192, 384, 192, 192, 7, 0, "a supply that is too far");
    odd.ram.v_dd_pixel = ram.v_dd_pixel;
    refused(odd, 192, 384, 192, 192, 8, 0, "a gain of 0");
    odd = good;
    odd.settings.emissivity = loamchalice_float(0x7FA00001);
    refused(odd, 192, 384, 192, 192, 8, 0, "an emissivity of NaN");
    loamchalice_record record = camera.record;
    record.corner_temperatures[5] = record.corner_temperatures[4];
    expect(REFUSED(loamchalice_raw_pixels_to_ranged_temperatures(record, good, ALL, FRAME), 12, 5, 0), "corners that don't rise");
}

/* Slices without entries, at NULL. */
static void try_nothing(void) {
    loamchalice_settings settings = loamchalice_settings_of(&camera.record, 2);
    loamchalice_input input = loamchalice_input_of(&settings, ram, 0);
    loamchalice_filtered filtered = {input, {0.0f, 1}};
    loamchalice_record r = camera.record;
    expect(loamchalice_raw_pixels_to_ir_data(r, input, NOTHING, NOTHING, NOTHING, NOTHING, NOTHING, NOTHING, NOTHING).told.number == 2, "infrared of nothing");
    expect(loamchalice_raw_ir_to_temperatures(r, settings, 30.0f, NOTHING, NOTHING, NOTHING).told.number == 2, "temperatures of nothing");
    expect(loamchalice_raw_ir_to_temperatures(r, settings, 30.0f, LENT(camera.alpha), NOTHING, NOTHING).told.number == 10, "no picture");
    expect(loamchalice_raw_pixels_to_temperatures(r, input, ALL, NOTHING, NOTHING, NOTHING).told.number == 10, "no pixels");
    expect(loamchalice_raw_pixels_to_temperatures(r, input, ALL, LENT(pixels), NOTHING, LENT(picture)).told.number == 10, "no mask");
    expect(loamchalice_raw_pixels_to_ranged_temperatures(r, input, ALL, LENT(pixels), LENT(mask), NOTHING).told.number == 10, "no picture for the second pass");
    expect(loamchalice_filtered_pixels_to_ir_data(r, filtered, OFFSETS, NOTHING, NOTHING, FRAME).told.number == 2, "no K");
    expect(loamchalice_filtered_pixels_to_temperatures(r, filtered, NOTHING, NOTHING, LENT(camera.alpha), K, FRAME).told.number == 2, "no offsets");
    expect(loamchalice_filtered_pixels_to_ranged_temperatures(r, filtered, OFFSETS, NOTHING, K, FRAME).told.number == 2, "no alpha");
}

/* With an average that is NaN every pixel that the mask asks for is lost; without a gradient none is. */
static void try_lost(void) {
    loamchalice_settings settings = loamchalice_settings_of(&camera.record, 2);
    loamchalice_filtered filtered = {loamchalice_input_of(&settings, ram, 0), {loamchalice_float(0xFFFFFFFF), 1}};
    loamchalice_record record = camera.record;
    size_t asked = 0, lost = 0;
    wipe();
    loamchalice_answer answer = loamchalice_filtered_pixels_to_ranged_temperatures(record, filtered, ALL, FRAME);
    for (int i = 0; i < LOAMCHALICE_PIXELS; i++) {
        asked += mask[i] != 0;
        lost += picture[i] == LOAMCHALICE_NOT_A_NUMBER;
    }
    expect(answer.told.number == 0 && answer.lost == asked && lost == asked, "an average of NaN");
    record.has_gradient = 0;
    record.gradient = loamchalice_float(LOAMCHALICE_NOT_A_NUMBER);
    expect(loamchalice_filtered_pixels_to_ranged_temperatures(record, filtered, ALL, FRAME).lost == 0, "without a gradient");
}

static void try_mlx90640(void) {
    const uint8_t whole[] = {1, 8, 15, 0};
    const int8_t halves[] = {1, -8, -1, 0};
    const float pattern[] = {-0.125f, 0.875f, -1.125f, 0.125f, -0.875f, 1.125f};
    loamchalice_mlx90640_six_ten split = loamchalice_mlx90640_word_6_10_split(0xFC01);
    expect(split.six == -1 && split.ten == 1, "six bits and ten");
    expect(memcmp(loamchalice_mlx90640_word_to_u4s(0x18F0).nibbles, whole, 4) == 0, "unsigned nibbles");
    expect(memcmp(loamchalice_mlx90640_word_to_i4s(0x18F0).nibbles, halves, 4) == 0, "signed nibbles");
    loamchalice_mlx90640_access access = loamchalice_mlx90640_access_pattern(0x08BF);
    expect(access.chess_3 == 0.125f && access.chess_2 == 1.0f && access.chess_1 == -0.0625f, "access pattern corrections");
    expect(memcmp(access.pattern, pattern, sizeof pattern) == 0, "their pattern");
    expect(loamchalice_bits(loamchalice_mlx90640_access_pattern(0).pattern[0]) == 0x80000000, "a zero that is negated");
    expect(loamchalice_mlx90640_interleave_entry(3).entry == 2 && loamchalice_mlx90640_interleave_entry(767).entry == 5, "interleaved pixels");
    expect(loamchalice_mlx90640_chessboard_entry(32).entry == 1 && loamchalice_mlx90640_chessboard_entry(767).entry == 3, "pixels of a chessboard");
    expect(REFUSED(loamchalice_mlx90640_interleave_entry(768), 14, 768, 0), "pixel 768, interleaved");
    expect(REFUSED(loamchalice_mlx90640_chessboard_entry(SIZE_MAX), 14, UINT64_MAX, 0), "the last number there is");
}

/* Tables for loading the MLX90640's card, each with a last entry that must not change. */
typedef struct {
    int32_t offsets[769];
    float alpha[769], k_ta[769];
} big_tables;

#define BIG_TABLES(t) LENT((t).offsets), LENT((t).alpha), LENT((t).k_ta)

static big_tables big, big_before;
static uint8_t big_card[LOAMCHALICE_IMAGE_BYTES];

static void put(int word, uint16_t bits) {
    big_card[2 * word] = (uint8_t)(bits >> 8);
    big_card[2 * word + 1] = (uint8_t)bits;
}

/* Card K of the MLX90640's paper. */
static void put_card_k(void) {
    const uint16_t example[] = {0x18EF, 0x2FF1, 0x5952, 0x9D68, 0x5454, 0x0994, 0x6956, 0x5354,
                                0x2363, 0xE446, 0xFBB5, 0x044B, 0xF020, 0x9797, 0x9797, 0x2889};
    memset(big_card, 0, sizeof big_card);
    put(16, 0x4210);
    put(17, 0xFFBB);
    put(32, 0x79A6);
    put(33, 0x2F44);
    for (int k = 0; k < 16; k++) {
        put(48 + k, example[k]);
    }
}

/* Whether a load is refused, with a record of zeros and unchanged tables. */
static int refused_card(loamchalice_mlx90640_loaded loaded, uint64_t number, uint64_t place) {
    static loamchalice_mlx90640_record none; /* all zero */
    return REFUSED(loaded, number, place, 0) && memcmp(&loaded.calibration, &none, sizeof none) == 0 && memcmp(&big, &big_before, sizeof big) == 0;
}

static void try_refused_cards(void) {
    memset(&big, 0x55, sizeof big);
    big_before = big;
    put_card_k();
    expect(refused_card(loamchalice_mlx90640_load(NOTHING, 4, BIG_TABLES(big)), 1, 0), "no image of the MLX90640");
    expect(refused_card(loamchalice_mlx90640_load(big_card, 1663, 4, NOTHING, NOTHING, NOTHING), 1, 1663), "a short image, and no tables");
    expect(refused_card(loamchalice_mlx90640_load(LENT(big_card), 4, big.offsets, 767, LENT(big.alpha), LENT(big.k_ta)), 2, 0), "767 offsets");
    expect(refused_card(loamchalice_mlx90640_load(LENT(big_card), 1, LENT(big.offsets), big.alpha, 767, LENT(big.k_ta)), 2, 0), "767 of alpha");
    expect(refused_card(loamchalice_mlx90640_load(LENT(big_card), 1, LENT(big.offsets), LENT(big.alpha), big.k_ta, 767), 2, 0), "767 of K_Ta");
    expect(refused_card(loamchalice_mlx90640_load(LENT(big_card), 1, NOTHING, NOTHING, NOTHING), 2, 0), "no tables for the MLX90640");
    expect(refused_card(loamchalice_mlx90640_load(LENT(big_card), 4, BIG_TABLES(big)), 6, 4), "basic range 4");
    expect(refused_card(loamchalice_mlx90640_load(LENT(big_card), SIZE_MAX, BIG_TABLES(big)), 6, SIZE_MAX), "the last basic range there is");
    put(17, 0x7FFF);
    put(831, 0x0400);
    expect(refused_card(loamchalice_mlx90640_load(LENT(big_card), 4, BIG_TABLES(big)), 5, 767), "an offset of 32768 at the last pixel");
    memset(big_card, 0xFF, sizeof big_card);
    expect(refused_card(loamchalice_mlx90640_load(LENT(big_card), 1, BIG_TABLES(big)), 5, 0), "a blank card");
}

/* The paper's numbers for card K, word by word. */
static void try_record_k(loamchalice_mlx90640_record r) {
    const float access[] = {-0.125f, 2.875f, -3.125f, 0.125f, -2.875f, 3.125f}, k_v[] = {0.625f, 0.5f, 0.625f, 0.5f};
    const int16_t corners[] = {-40, 0, 160, 320};
    float k = loamchalice_float(0xBA520000), below = add(1.0f, mul(k, 40.0f)), above = add(1.0f, mul(k, 160.0f));
    expect(r.k_v_dd == -3168 && r.v_dd_25 == -13056 && r.resolution == 2, "card K: the supply");
    expect(r.k_v_ptat == 22.0f / 4096.0f && r.k_t_ptat == 42.25f && r.v_ptat_25 == 12273.0f && r.alpha_ptat == 9.0f, "card K: ambient temperature");
    expect(r.gain == 6383.0f && r.k_s_ta == -16.0f / 8192.0f && r.has_gradient == 1 && r.gradient == 1.0f, "card K: gain and gradient");
    expect(r.offset_reference_cp[0] == -75 && r.offset_reference_cp[1] == -77, "card K: offsets of the compensation pixels");
    expect(loamchalice_bits(r.alpha_cp[0]) == 0x318C0000 && loamchalice_bits(r.alpha_cp[1]) == 0x31845800, "card K: their alpha");
    expect(r.k_v_cp == 0.5f && r.k_ta_cp == 75.0f / 16384.0f && r.access_cp == 1.25f, "card K: the rest of them");
    expect(memcmp(r.k_v, k_v, sizeof k_v) == 0 && memcmp(r.access_pattern, access, sizeof access) == 0, "card K: patterns");
    expect(memcmp(r.corner_temperatures, corners, sizeof corners) == 0, "card K: corners");
    for (int i = 0; i < 4; i++) {
        expect(loamchalice_bits(r.k_s_to[i]) == 0xBA520000, "card K: K_sTo");
    }
    expect(r.range_coefficients[0] == over(1.0f, below) && r.range_coefficients[1] == 1.0f && r.range_coefficients[2] == above &&
               r.range_coefficients[3] == mul(above, above), "card K: range coefficients");
}

static void try_big_load(void) {
    const float k_ta[] = {105.0f, 83.0f, 86.0f, 84.0f};
    put_card_k();
    loamchalice_mlx90640_loaded loaded = loamchalice_mlx90640_load(LENT(big_card), LOAMCHALICE_MLX90640_BASIC_RANGE, BIG_TABLES(big));
    expect(REFUSED(loaded, 0, 0, 0), "card K loads");
    try_record_k(loaded.calibration);
    for (int i = 0; i < LOAMCHALICE_MLX90640_PIXELS; i++) {
        float wanted = k_ta[i / 32 % 2 * 2 + i % 2] / 16384.0f;
        expect(big.offsets[i] == -69 && loamchalice_bits(big.alpha[i]) == 0x33BD1000 && big.k_ta[i] == wanted, "card K: a pixel");
    }
    expect(memcmp(&big.offsets[768], &big_before, 4) == 0 && memcmp(&big.alpha[768], &big_before, 4) == 0 && memcmp(&big.k_ta[768], &big_before, 4) == 0,
           "entries past 768 stay");
    put(18, 0x4321);      /* row 1: 2 x 4 */
    put(24, 0x0021);      /* column 1: 2 x 2 */
    put(34, 0x0030);      /* alpha, row 1: 3 x 512 */
    put(64 + 33, 0x041E); /* rests 1, 1 x 64 and -1 x 8 */
    put(60, 0xF000);
    loaded = loamchalice_mlx90640_load(LENT(big_card), 3, BIG_TABLES(big));
    expect(REFUSED(loaded, 0, 0, 0) && loaded.calibration.has_gradient == 0 && loamchalice_bits(loaded.calibration.gradient) == 0, "no gradient");
    expect(loaded.calibration.range_coefficients[3] == 1.0f && loaded.calibration.range_coefficients[1] != 1.0f, "from range 3");
    expect(big.offsets[33] == -56 && big.offsets[32] == -59 && big.offsets[1] == -61, "rows, columns and rests of offsets");
    expect(big.alpha[33] == (12100.0f + 1536.0f + 64.0f) / 137438953472.0f && big.k_ta[33] == 76.0f / 16384.0f, "and of alpha and K_Ta");
    memset(big_card, 0, sizeof big_card);
    expect(REFUSED(loamchalice_mlx90640_load(LENT(big_card), 0, BIG_TABLES(big)), 0, 0, 0) && big.offsets[767] == 0, "a wiped card loads");
}

/* A frame of the MLX90640: lists with a last entry that must not change. */
static loamchalice_mlx90640_camera big_camera;
static const loamchalice_ram big_ram = {19442, 1711, -13115, 6273, -54};
static uint8_t big_pixels[1538], big_mask[769];
static uint32_t big_picture[769];

#define BIG_FRAME LENT(big_pixels), LENT(big_mask), LENT(big_picture)
#define BIG_OWN LENT(big_camera.offsets), LENT(big_camera.alpha), LENT(big_camera.k_ta)

static void fill_big(int reading) {
    for (int i = 0; i < 769; i++) {
        big_pixels[2 * i] = (uint8_t)((unsigned)reading >> 8);
        big_pixels[2 * i + 1] = (uint8_t)reading;
        big_mask[i] = 1;
        big_picture[i] = 77;
    }
}

/* The paper's table for card K: infrared and temperature bits of five pixels, by pattern (chess, interleave) and subpage. */
static void try_card_k_frames(void) {
    static const int places[] = {0, 1, 3, 32, 35};
    static const uint32_t infrared[4][5] = {
        {0x44278A4C, 0x44273535, 0x44273535, 0x442735C4, 0x44272E0D}, {0x442700B8, 0x4426ABA1, 0x4426ABA1, 0x4426AC30, 0x4426A479},
        {0x4427824C, 0x4427ED35, 0x44266D35, 0x44273DC4, 0x4427F60D}, {0x4426A8B8, 0x442713A1, 0x442593A1, 0x44266430, 0x44271C79}};
    static const uint32_t temperatures[4][5] = {
        {0x42BE11C0, 0x42BDE300, 0x42BDE300, 0x42BDE350, 0x42BDDF10}, {0x42BD87EC, 0x42BD593C, 0x42BD593C, 0x42BD598C, 0x42BD554C},
        {0x42BE0D58, 0x42BE4808, 0x42BD7504, 0x42BDE7B4, 0x42BE4CE0}, {0x42BD57A0, 0x42BD9250, 0x42BCBF58, 0x42BD3200, 0x42BD9728}};
    put_card_k();
    expect(REFUSED(loamchalice_mlx90640_camera_load(&big_camera, LENT(big_card)), 0, 0, 0), "card K in a camera");
    loamchalice_settings s = loamchalice_mlx90640_settings_of(&big_camera.record, 2);
    expect(s.basic_range == 1 && s.emissivity == 1.0f && s.resolution_correction == 1.0f && s.self_heating == 8.0f, "the MLX90640's settings");
    expect(loamchalice_mlx90640_warning(&s) == NULL && loamchalice_mlx90640_gain_warning(&big_camera.record, big_ram) == NULL, "no warning");
    s.basic_range = 4;
    expect(loamchalice_mlx90640_warning(&s) != NULL && loamchalice_warning(&s) == NULL, "a range that the other camera has");
    s.basic_range = 1;
    for (int way = 0; way < 4; way++) {
        uint8_t subpage = (uint8_t)(way % 2), pattern = way < 2 ? LOAMCHALICE_MLX90640_CHESS : LOAMCHALICE_MLX90640_INTERLEAVE;
        loamchalice_mlx90640_input input = loamchalice_mlx90640_input_of(&s, big_ram, subpage, pattern);
        loamchalice_mlx90640_filtered filtered;
        memset(&filtered, 0, sizeof filtered);
        filtered.input = input;
        fill_big(609);
        loamchalice_answer answer = loamchalice_mlx90640_camera_raw_pixels_to_ir_data(&big_camera, &s, big_ram, subpage, pattern, big_pixels, 1536, big_mask, big_picture);
        expect(REFUSED(answer, 0, 0, 0) && answer.lost == 0 && answer.t_a == 0x421CBCDA, "card K: infrared");
        for (int k = 0; k < 5; k++) {
            expect(big_picture[places[k]] == infrared[way][k], "card K: an infrared number");
        }
        answer = loamchalice_mlx90640_camera_raw_ir_to_temperatures(&big_camera, &s, subpage, loamchalice_float(answer.t_a), big_mask, big_picture);
        for (int k = 0; k < 5; k++) {
            expect(big_picture[places[k]] == temperatures[way][k], "card K: a temperature of two calls");
        }
        uint32_t two[768];
        memcpy(two, big_picture, sizeof two);
        fill_big(609);
        answer = loamchalice_mlx90640_raw_pixels_to_temperatures(big_camera.record, input, BIG_OWN, BIG_FRAME);
        expect(REFUSED(answer, 0, 0, 0) && memcmp(two, big_picture, sizeof two) == 0 && big_picture[768] == 77, "card K: one pass is two calls");
        fill_big(609);
        answer = loamchalice_mlx90640_filtered_pixels_to_temperatures(big_camera.record, filtered, BIG_OWN, BIG_FRAME);
        expect(REFUSED(answer, 0, 0, 0) && memcmp(two, big_picture, sizeof two) == 0, "card K: no average yet");
        filtered.compensation.ready = 1;
        filtered.compensation.average = -54.0f;
        fill_big(609);
        answer = loamchalice_mlx90640_camera_filtered_pixels_to_temperatures(&big_camera, &s, big_ram, filtered.compensation, subpage, pattern, big_pixels, 1536, big_mask, big_picture);
        expect(REFUSED(answer, 0, 0, 0) && memcmp(two, big_picture, sizeof two) == 0, "card K: an average of the reading itself");
        filtered.compensation.average = loamchalice_float(LOAMCHALICE_NOT_A_NUMBER);
        answer = loamchalice_mlx90640_filtered_pixels_to_ir_data(
            big_camera.record, filtered, LENT(big_camera.offsets), LENT(big_camera.k_ta), BIG_FRAME);
        expect(REFUSED(answer, 0, 0, 0) && answer.lost == 768 && big_picture[767] == LOAMCHALICE_NOT_A_NUMBER, "card K: an average of NaN");
        answer = loamchalice_mlx90640_camera_raw_pixels_to_ranged_temperatures(&big_camera, &s, big_ram, subpage, pattern, big_pixels, 1536, big_mask, big_picture);
        expect(REFUSED(answer, 0, 0, 0) && answer.lost == 0, "card K: the second pass");
        answer = loamchalice_mlx90640_filtered_pixels_to_ranged_temperatures(big_camera.record, filtered, BIG_OWN, BIG_FRAME);
        expect(answer.lost == 768, "card K: the second pass with an average of NaN");
    }
}

/* A card of zeros except for three words: the sign of zero depends on the pattern. */
static void try_signs_of_zero(void) {
    static const int minus[] = {0, 3, 33}, plus[] = {1, 32, 35};
    const loamchalice_ram ram = {1, 0, -16384, 1, 0};
    memset(big_card, 0, sizeof big_card);
    put(48, 0xFFFF);
    put(50, 1);
    put(51, 0x0100);
    expect(REFUSED(loamchalice_mlx90640_camera_load(&big_camera, LENT(big_card)), 0, 0, 0), "a card of zeros but three words");
    loamchalice_settings s = loamchalice_mlx90640_settings_of(&big_camera.record, 0);
    fill_big(0);
    loamchalice_answer answer =
        loamchalice_mlx90640_camera_raw_pixels_to_ir_data(&big_camera, &s, ram, 0, LOAMCHALICE_MLX90640_CHESS, big_pixels, 1536, big_mask, big_picture);
    expect(REFUSED(answer, 0, 0, 0), "infrared of zeros");
    for (int i = 0; i < 768; i++) {
        expect(big_picture[i] == 0, "+0 in chess");
    }
    loamchalice_mlx90640_camera_raw_pixels_to_ir_data(&big_camera, &s, ram, 0, LOAMCHALICE_MLX90640_INTERLEAVE, big_pixels, 1536, big_mask, big_picture);
    for (int k = 0; k < 3; k++) {
        expect(big_picture[minus[k]] == 0x80000000 && big_picture[plus[k]] == 0, "signs of zero in interleave");
    }
}

static void try_masks(void) {
    for (int way = 0; way < 4; way++) {
        int chess = way / 2, subpage = way % 2, right = 1;
        memset(big_mask, 7, sizeof big_mask);
        expect(REFUSED(loamchalice_mlx90640_subpage_mask((uint8_t)(subpage * 255), (uint8_t)(chess * 9), LENT(big_mask)), 0, 0, 0), "a mask");
        for (int i = 0; i < 768; i++) {
            right &= big_mask[i] == ((i / 32 + (chess ? i % 32 : 0)) % 2 == subpage);
        }
        expect(right && big_mask[768] == 7, "the pixels of a subpage");
    }
    memset(big_mask, 7, sizeof big_mask);
    expect(REFUSED(loamchalice_mlx90640_subpage_mask(0, 0, big_mask, 767), 2, 0, 0) && big_mask[0] == 7, "a mask of 767");
    expect(REFUSED(loamchalice_mlx90640_subpage_mask(0, 0, NOTHING), 2, 0, 0), "no mask");
}

static int big_refused(loamchalice_answer answer, uint64_t number, uint64_t place) {
    int same = 1;
    for (int i = 0; i < 769; i++) {
        same &= big_picture[i] == 77;
    }
    return REFUSED(answer, number, place, 0) && answer.lost == 0 && answer.t_a == 0 && same;
}

static void try_refused_big_frames(void) {
    put_card_k();
    loamchalice_mlx90640_camera_load(&big_camera, LENT(big_card));
    loamchalice_mlx90640_record r = big_camera.record;
    loamchalice_settings s = loamchalice_mlx90640_settings_of(&r, 2);
    loamchalice_mlx90640_input input = loamchalice_mlx90640_input_of(&s, big_ram, 1, 0);
    loamchalice_average none = {0.0f, 0};
    loamchalice_mlx90640_filtered filtered = loamchalice_mlx90640_filtered_of(&s, big_ram, none, 1, 0);
    fill_big(609);
#define OFFSETS_767 big_camera.offsets, 767
    expect(big_refused(loamchalice_mlx90640_raw_pixels_to_ir_data(r, input, OFFSETS_767, LENT(big_camera.k_ta), NOTHING, NOTHING, NOTHING), 2, 0), "767 offsets");
    expect(big_refused(loamchalice_mlx90640_raw_pixels_to_ir_data(r, input, LENT(big_camera.offsets), NOTHING, BIG_FRAME), 2, 0), "no K_Ta");
    expect(big_refused(loamchalice_mlx90640_raw_ir_to_temperatures(r, s, 0, 30.0f, big_camera.alpha, 767, LENT(big_mask), LENT(big_picture)), 2, 0), "767 of alpha");
    expect(big_refused(loamchalice_mlx90640_raw_pixels_to_temperatures(r, input, BIG_OWN, big_pixels, 1535, LENT(big_mask), LENT(big_picture)), 10, 1535), "1535 bytes");
    expect(big_refused(loamchalice_mlx90640_raw_pixels_to_temperatures(r, input, BIG_OWN, LENT(big_pixels), big_mask, 767, LENT(big_picture)), 10, 767), "a mask of 767");
    expect(big_refused(loamchalice_mlx90640_raw_pixels_to_ranged_temperatures(r, input, BIG_OWN, LENT(big_pixels), LENT(big_mask), big_picture, 767), 10, 767), "a picture of 767");
    expect(big_refused(loamchalice_mlx90640_filtered_pixels_to_ir_data(r, filtered, NOTHING, NOTHING, BIG_FRAME), 2, 0), "no tables");
    expect(big_refused(loamchalice_mlx90640_filtered_pixels_to_temperatures(r, filtered, BIG_OWN, NOTHING, NOTHING, NOTHING), 10, 0), "no frame");
    expect(big_refused(loamchalice_mlx90640_filtered_pixels_to_ranged_temperatures(r, filtered, BIG_OWN, LENT(big_pixels), NOTHING, LENT(big_picture)), 10, 0), "no mask");
    input.settings.basic_range = 4;
    input.ram.v_dd_pixel = 32767;
    expect(big_refused(loamchalice_mlx90640_raw_pixels_to_temperatures(r, input, BIG_OWN, BIG_FRAME), 6, 4), "6 before 7");
    input.settings.basic_range = 3;
    expect(big_refused(loamchalice_mlx90640_raw_pixels_to_temperatures(r, input, BIG_OWN, BIG_FRAME), 7, 0), "a supply that is too far");
    input.ram = big_ram;
    input.settings.emissivity = 0.0f;
    expect(big_refused(loamchalice_mlx90640_raw_pixels_to_ir_data(r, input, LENT(big_camera.offsets), LENT(big_camera.k_ta), BIG_FRAME), 8, 0), "emissivity 0");
    input.settings.emissivity = 1.0f;
    r.corner_temperatures[2] = 0;
    expect(big_refused(loamchalice_mlx90640_raw_pixels_to_ranged_temperatures(r, input, BIG_OWN, BIG_FRAME), 12, 2), "a corner that is not above the last");
    filtered.input = input;
    expect(big_refused(loamchalice_mlx90640_filtered_pixels_to_ranged_temperatures(r, filtered, BIG_OWN, BIG_FRAME), 12, 2), "the same with a filter");
}

/* Records that no load produces, of random bits. */
static void try_odd_big_records(void) {
    for (unsigned k = 0; k < 256; k++) {
        loamchalice_mlx90640_record r;
        memset(&r, (int)k, sizeof r);
        loamchalice_settings s = loamchalice_mlx90640_settings_of(&r, (uint8_t)k);
        fill_big(32767);
        loamchalice_answer answer = loamchalice_mlx90640_raw_pixels_to_ranged_temperatures(r, loamchalice_mlx90640_input_of(&s, big_ram, (uint8_t)k, (uint8_t)k), BIG_OWN, BIG_FRAME);
        expect(answer.told.number == 8 || answer.told.number == 7 || answer.told.number == 12 || answer.told.number == 0, "an odd record");
        expect(big_picture[768] == 77, "no more than 768 pixels");
    }
}

static void try_texts(void) {
    for (uint64_t number = 0; number < 16; number++) {
        for (uint64_t other = 0; other < number; other++) {
            expect(strcmp(loamchalice_refusal_text(number), loamchalice_refusal_text(other)) != 0, "each refusal has words of its own");
        }
    }
    expect(strcmp(loamchalice_refusal_text(UINT64_MAX), "no such refusal") == 0, "the last number there is");
    expect(strcmp(loamchalice_version(), LOAMCHALICE_VERSION) == 0, "the version");
}

static int told(loamchalice_settings settings) { return loamchalice_warning(&settings) != NULL; }

static void try_settings(void) {
    loamchalice_settings s = loamchalice_settings_of(&camera.record, 2), bad = s;
    expect(s.emissivity == camera.record.emissivity && s.resolution_correction == 1.0f && s.v_dd_0 == 3.3f, "the card's settings");
    expect(s.basic_range == 2 && s.self_heating == 5.0f && s.reflected_given == 0, "the camera's settings");
    expect(loamchalice_resolution_correction(0, 3) == 0.125f && loamchalice_resolution_correction(3, 0) == 8.0f, "resolutions three apart");
    expect(!told(s), "the card's settings have no warning");
    const float odd[] = {-3.0f, 0.0f, loamchalice_float(0x7F800000), loamchalice_float(LOAMCHALICE_NOT_A_NUMBER)};
    for (size_t k = 0; k < 4; k++) {
        bad = s;
        bad.emissivity = odd[k];
        expect(told(bad), "an odd emissivity");
        bad = s;
        bad.resolution_correction = odd[k];
        expect(told(bad), "an odd correction");
        bad = s;
        bad.v_dd_0 = odd[k];
        expect(told(bad), "an odd supply");
    }
    bad = s;
    bad.emissivity = 95.0f;
    expect(told(bad), "an emissivity of 95");
    bad = s;
    bad.basic_range = 8;
    expect(told(bad), "basic range 8");
    bad = s;
    bad.reflected = odd[3];
    expect(!told(bad), "a reflected temperature that is not given");
    bad.reflected_given = 1;
    expect(told(bad), "a reflected temperature that is no number");
    bad.reflected = -273.2f;
    expect(told(bad), "a reflected temperature below -273.15");
    bad.reflected = -273.15f;
    expect(!told(bad), "a reflected temperature of -273.15");
    bad.self_heating = odd[3];
    expect(!told(bad), "a self-heating that is not looked at");
    bad.reflected_given = 0;
    expect(told(bad), "a self-heating that is no number");
}

static void try_gain(void) {
    const int16_t near[] = {6383, 4788, 7978}, far[] = {4787, 7979, 0, -6383, 32767};
    loamchalice_ram other = ram;
    loamchalice_record record = camera.record;
    for (size_t k = 0; k < 3; k++) {
        other.gain = near[k];
        expect(loamchalice_gain_warning(&record, other) == NULL, "a gain like the card's");
    }
    for (size_t k = 0; k < 5; k++) {
        other.gain = far[k];
        expect(loamchalice_gain_warning(&record, other) != NULL, "a gain far from the card's");
    }
    const float odd[] = {0.0f, 16.0f, -6391.0f, loamchalice_float(LOAMCHALICE_NOT_A_NUMBER), loamchalice_float(0x7F800000)};
    for (size_t k = 0; k < 5; k++) {
        record.gain = odd[k];
        expect(loamchalice_gain_warning(&record, ram) != NULL, "a card with an odd gain");
    }
}

/* The floating-point control word of the processor. */
#if defined(__x86_64__)
#define ROUNDING_BIT 13
static const uint64_t flushes[] = {0x8000, 0x0040}; /* results, operands */
static uint64_t control(void) {
    uint32_t word;
    __asm__ volatile("stmxcsr %0" : "=m"(word));
    return word;
}
static void set_control(uint64_t bits) {
    uint32_t word = (uint32_t)bits;
    __asm__ volatile("ldmxcsr %0" : : "m"(word));
}
#elif defined(__aarch64__)
#define ROUNDING_BIT 22
static const uint64_t flushes[] = {1u << 24};
static uint64_t control(void) {
    uint64_t word;
    __asm__ volatile("mrs %0, fpcr" : "=r"(word));
    return word;
}
static void set_control(uint64_t bits) { __asm__ volatile("msr fpcr, %0" : : "r"(bits)); }
#endif

#ifdef ROUNDING_BIT
/* Whether numbers other than those of the check come out differently. */
static int felt(void) {
    volatile float one = 1.0f, three = 3.0f, tiny = loamchalice_float(0x0D800000), least = loamchalice_float(1); /* the last two are 2^-100 and 2^-149 */
    return loamchalice_bits(over(one, three)) != 0x3EAAAAAB || loamchalice_bits(over(-one, three)) != 0xBEAAAAAB ||
           loamchalice_bits(over(tiny, loamchalice_float(0x53800000))) == 0 || loamchalice_bits(over(least, tiny)) == 0;
}

/* With these bits set, loamchalice_environment_is_default returns 0. (Valgrind ignores them.) */
static void try_control(uint64_t bits, const char *what) {
    uint64_t usual = control();
    set_control(usual | bits);
    volatile int is_default = loamchalice_environment_is_default();
    volatile int is_felt = felt();
    set_control(usual);
    if (is_felt != 0) {
        expect(is_default == 0, what);
    } else {
        printf("not tried, since it changes nothing here: %s\n", what);
    }
}
#endif

static void try_environment(void) {
    expect(loamchalice_environment_is_default() == 1, "the environment at start");
#ifdef ROUNDING_BIT
    for (uint64_t mode = 1; mode < 4; mode++) {
        try_control(mode << ROUNDING_BIT, "another rounding");
    }
    for (size_t k = 0; k < sizeof flushes / sizeof *flushes; k++) {
        try_control(flushes[k], "flush to zero");
    }
    expect(loamchalice_environment_is_default() == 1, "the environment again");
#endif
}

/* Readings over the ranges of the card, which use both bytes of a pixel; the mask leaves out every seventh pixel. */
static void fill_frame(void) {
    for (int i = 0; i < LOAMCHALICE_PIXELS; i++) {
        int reading = -900 + 37 * i;
        pixels[2 * i] = (uint8_t)((unsigned)reading >> 8);
        pixels[2 * i + 1] = (uint8_t)reading;
        mask[i] = (uint8_t)(i % 7);
    }
}

int main(int argc, char **argv) {
    FILE *file = argc == 2 ? fopen(argv[1], "rb") : NULL;
    if (file == NULL || fread(card, 1, sizeof card, file) != sizeof card) {
        fprintf(stderr, "usage: test CARD\n");
        return 2;
    }
    fclose(file);
    expect(loamchalice_camera_load(&camera, LENT(card)).told.number == 0, "the card loads");
    expect(loamchalice_camera_load(&camera, card, 1663).told.number == 1 && camera.record.gain != 0.0f, "a refused card leaves the camera");
    fill_frame();
    try_words();
    try_load();
    try_lists();
    try_parts();
    try_scrub();
    try_burn();
    try_reader();
    try_odd_readers();
    try_filter();
    try_frames();
    try_refused_frames();
    try_nothing();
    try_lost();
    try_mlx90640();
    try_refused_cards();
    try_big_load();
    try_card_k_frames();
    try_signs_of_zero();
    try_masks();
    try_refused_big_frames();
    try_odd_big_records();
    try_texts();
    try_settings();
    try_gain();
    try_environment();
    printf("%d tried, %d failed\n", tried, failed);
    return failed == 0 ? 0 : 1;
}
