/* Loamchalice for C: turns the calibration card of an MLX90641 or MLX90640 camera into a record and tables, and the camera's frames into infrared values
 * and temperatures.
 *
 * Names with `mlx90640` are for that camera. Names with neither camera are for the MLX90641 or for both (settings, RAM words, answers and filters).
 *
 * A slice is a pointer and a count of entries; if the count is 0, any pointer will do, NULL too. The library keeps nothing between calls and does not use
 * the heap. Behaviour is undefined only for a wrong pointer or count, or if two slices overlap and one of them is written.
 *
 * The calls assume the default floating-point environment: round to nearest, ties to even, no flush to zero. In any other environment results change
 * silently, so check loamchalice_environment_is_default at start. (A program linked with -ffast-math may start with flush to zero.)
 *
 * Each answer begins with `told`: a number, a place and a value. They are all 0, or they are the refusal that stopped the call before it wrote anything;
 * only the reader's array keeps the bytes of a refused piece. loamchalice_refusal_text describes a number in words.
 *   1  the image is below 1,664 bytes                        place: its length
 *      a list to write has another length than 814, or 18    place: its length
 *   2  a table that the call takes has fewer than 192
 *      entries (MLX90640: 768), or a buffer for a card or
 *      its words is too short
 *   3  a chip word is damaged                                place: the word's number, value: its bits
 *   4  the offset scale is 21 or more                        place: the scale
 *   5  MLX90640 only: a pixel's offset, alpha or K_Ta is     place: the first such pixel
 *      outside 16 bits (see loamchalice_mlx90640_load)
 *   6  the basic range is above 7 (MLX90640: 3)              place: the range
 *   7  v_dd_pixel - V_DD25 is outside 16 bits
 *   8  a divisor is zero, or the emissivity is zero or NaN
 *   9  data to encode is above 2047                          place: the data
 *      an entry of a list to write is above 2047             place: its index, value: the data
 *  10  pixel bytes below 384, destination below 192 or mask  place: its length
 *      below 192 (MLX90640: 1,536, 768 and 768); tested
 *      after 2 and before 6
 *  11  the wanted image differs in an unchecked word         place: the word's number
 *  12  a corner temperature is not above the one before      place: the corner, 1 to 7 (MLX90640: 1 to 3)
 *      it; second pass only, tested after 8
 *  13  a range coefficient would be divided by zero; never   place: its range, the nearest below the basic one
 *      with a basic range of 4 or less, and never for the
 *      MLX90640
 *  14  the MLX90640 has no such pixel: 768 or more           place: the pixel
 *
 * Pixels are numbered row by row, 16 in a row and 12 rows (MLX90640: 32 and 24): pixel 16 x row + column, in the pixel bytes, the mask, the tables and the
 * destination. A destination holds the bits of floats as uint32_t, since the bits of a NaN can change when it is copied as a float; loamchalice_float
 * converts them. Every NaN that a call writes is 0x7FC00000.
 *
 * Units: temperatures are in degrees Celsius, supplies in volts; RAM words and infrared values are in counts.
 *
 * An emissivity of 0 or NaN is refusal 8. Any other is used as it is: 95 instead of 0.95, -1 or infinity give plausible results that are too cold.
 * loamchalice_warning reports such settings.
 *
 * The last part of this file has the same calls with the tables in a struct, loamchalice_camera or loamchalice_mlx90640_camera: begin there. */
#ifndef LOAMCHALICE_H
#define LOAMCHALICE_H

#if !defined(__LP64__) && !defined(_LP64)
#error "Loamchalice is for 64-bit x86-64 and Arm processors, with 64-bit pointers and longs"
#endif

#include <stddef.h>
#include <stdint.h>
#include <string.h>

#ifdef __cplusplus
extern "C" {
#endif

/* The version of this header and of the library that it belongs to. */
#define LOAMCHALICE_VERSION_MAJOR 0
#define LOAMCHALICE_VERSION_MINOR 3
#define LOAMCHALICE_VERSION_PATCH 0
#define LOAMCHALICE_VERSION "0.3.0"

#define LOAMCHALICE_IMAGE_BYTES 1664
#define LOAMCHALICE_WORDS 832
#define LOAMCHALICE_CHECKED_WORDS 814
#define LOAMCHALICE_UNCHECKED_WORDS 18
#define LOAMCHALICE_WIDTH 16
#define LOAMCHALICE_HEIGHT 12
#define LOAMCHALICE_PIXELS 192
#define LOAMCHALICE_PIXEL_BYTES 384
#define LOAMCHALICE_RANGES 8
#define LOAMCHALICE_BASIC_RANGE 2
#define LOAMCHALICE_SELF_HEATING 5.0f /* degrees */
#define LOAMCHALICE_NOT_A_NUMBER 0x7FC00000u

/* The first field of each answer: all 0, or the refusal's number, place and value. */
typedef struct {
    uint64_t number, place, value;
} loamchalice_told;

/* What loamchalice_encode and loamchalice_check return. */
typedef struct {
    loamchalice_told told;
    uint16_t word;       /* the chip word, or its data; 0 after a refusal */
    uint8_t mended, bit; /* 1 and the bit, 0 to 15, if the checked word had that bit flipped; else 0 and 0 */
} loamchalice_word;

/* A part of a slice: the index of its first entry and its number of entries. */
typedef struct {
    size_t start, length;
} loamchalice_part;

/* The calibration record, all zero after a refusal. If has_gradient is 0 there is no gradient, and `gradient` is not read. */
typedef struct {
    float k_v_ptat;   /* per volt */
    float k_t_ptat;   /* counts per degree */
    float v_ptat_25;  /* counts */
    float alpha_ptat; /* a ratio */
    float gain;       /* counts */
    float k_s_ta;     /* per degree */
    float emissivity; /* the card's; frame calls use the settings' */
    float alpha_cp;   /* counts per kelvin to the fourth */
    float k_v_cp;     /* per volt */
    float k_ta_cp;    /* per degree */
    float gradient;   /* a ratio */
    float k_s_to[8];  /* per degree */
    int16_t corner_temperatures[8]; /* degrees Celsius */
    int16_t k_v_dd;              /* counts per volt */
    int16_t v_dd_25;             /* counts */
    int16_t offset_reference_cp; /* counts */
    uint8_t resolution;          /* that the card was written at, 0 to 3 */
    uint8_t has_gradient;
    float range_coefficients[8]; /* 1 at the basic range that the card was loaded with */
} loamchalice_record;

/* A loaded card. `mended` counts the checked words that had a flipped bit; above 0 it is a sign that the card is going bad. */
typedef struct {
    loamchalice_told told;
    size_t mended;      /* the number of mended words, of 814; 0 after a refusal */
    size_t last_mended; /* the number of the last mended word; LOAMCHALICE_WORDS if there is none, and after a refusal */
    loamchalice_record calibration;
} loamchalice_loaded;

/* The state of reading a card in pieces. The caller keeps the card's bytes beside it, in an array of LOAMCHALICE_IMAGE_BYTES. */
typedef struct {
    size_t count;  /* the number of bytes kept so far */
    uint8_t ended; /* 0 while more bytes are wanted */
    loamchalice_loaded answer; /* the result, once the reading has ended */
} loamchalice_reader;

/* What loamchalice_reader_take returns. While loamchalice_reader_wants_more is 1, number 0 in the answer means that more bytes are wanted, and 2 that a
 * table is short and the piece was not taken. After that the answer is the load's, and number 0 means that the card is loaded. */
typedef struct {
    loamchalice_reader reader;
    loamchalice_loaded answer;
} loamchalice_taken;

/* 1 while the reading goes on, 0 once it has ended. */
static inline int loamchalice_reader_wants_more(const loamchalice_taken *taken) { return taken->reader.ended == 0; }

/* The words of the camera's RAM that a frame needs besides its pixels, in counts. */
typedef struct {
    int16_t t_a_v_be, t_a_ptat, v_dd_pixel, gain;
    int16_t compensation_pixel; /* that of the frame's subpage */
} loamchalice_ram;

/* The numbers that the caller chooses. loamchalice_settings_of makes them from a card. */
typedef struct {
    size_t basic_range;          /* 0 to 7 (MLX90640: 0 to 3): the one that the card was loaded with */
    float emissivity;            /* of the object in view, above 0 and at most 1 */
    float resolution_correction; /* a ratio: see loamchalice_resolution_correction */
    float v_dd_0;                /* nominal supply, volts */
    float self_heating;          /* degrees: if no reflected temperature is given, it is the ambient temperature minus this */
    float reflected;             /* reflected temperature, degrees Celsius; read only if it is given */
    uint8_t reflected_given;     /* 0: no reflected temperature is given */
} loamchalice_settings;

/* The inputs of a frame apart from the card's record and tables. */
typedef struct {
    loamchalice_settings settings;
    loamchalice_ram ram;
    uint8_t subpage; /* 0 is the first, any other number the second */
} loamchalice_input;

/* What a frame call returns. */
typedef struct {
    loamchalice_told told;
    size_t lost;  /* the number of pixels that this call wrote as NaN; 0 after a refusal */
    uint32_t t_a; /* the bits of the ambient temperature, degrees Celsius; 0 after a refusal */
} loamchalice_answer;

/* What a call returns that has no other result. */
typedef struct {
    loamchalice_told told;
} loamchalice_outcome;

/* A step of a burn. `reached` says whether the burn is complete; whether the card loads does not, since zero is a valid chip word and a half-burnt card may
 * load. */
typedef struct {
    loamchalice_told told;
    size_t word;     /* the number of the step's word; LOAMCHALICE_WORDS if there is no step */
    uint16_t bits;   /* the word's new value */
    uint8_t reached; /* 1 if the present image is now the wanted one: there was no step to do, or loamchalice_burn did the last; else 0 */
} loamchalice_step;

/* What a scrub returns: the number of entries that it wrote at the start of each of its two lists, which are word numbers, ascending. */
typedef struct {
    loamchalice_told told;
    size_t changed, damaged; /* words that were mended, and damaged words, which are unchanged; 0 after a refusal */
} loamchalice_scrubbed;

/* Returns the chip word of 11 bits of data. Refusal 9. */
loamchalice_word loamchalice_encode(uint16_t data);

/* Returns the data of a chip word that is clean, or mended if one bit is flipped. Refusal 3, with place 0. */
loamchalice_word loamchalice_check(uint16_t word);

/* Returns the bits of the fourth root of x: two square roots, each rounded to the nearest float. */
uint32_t loamchalice_root(float x);

/* Loads a card into five tables of 192 entries or more; entries past 192 are unchanged. The camera's basic range is LOAMCHALICE_BASIC_RANGE. Refusals 1 to
 * 4, 6, 13. */
loamchalice_loaded loamchalice_load(
    const uint8_t *image, size_t image_length, size_t basic_range,
    int32_t *offsets0, size_t offsets0_length, int32_t *offsets1, size_t offsets1_length,
    float *alpha, size_t alpha_length, float *k_v, size_t k_v_length, float *k_ta, size_t k_ta_length);

/* Returns a reader before its first byte. */
loamchalice_reader loamchalice_reader_new(void);

/* Takes a piece of any length; its bytes go into the array of 1,664. A damaged word is reported with the piece that completes it, any other refusal but 2
 * with the last byte; if there is none, the tables passed with that piece are filled then. An empty piece changes nothing. Once the reading has ended, every
 * call returns the same answer. Refusals 2, 3, 4, 6, 13. */
loamchalice_taken loamchalice_reader_take(
    uint8_t *image, loamchalice_reader reader, const uint8_t *piece, size_t piece_length, size_t basic_range,
    int32_t *offsets0, size_t offsets0_length, int32_t *offsets1, size_t offsets1_length,
    float *alpha, size_t alpha_length, float *k_v, size_t k_v_length, float *k_ta, size_t k_ta_length);

/* Ends the reading early: refusal 1 with the number of bytes so far. Once the reading has ended, returns the reader unchanged. A reader with 1,664 bytes or
 * more that has not ended, a state that no calls produce, is returned unchanged too: check `ended`. */
loamchalice_reader loamchalice_reader_finished(loamchalice_reader reader);

/* Writes a card to the first 1,664 bytes of an image; later bytes are unchanged. In reading order, `data` has the data of the 814 checked words and `others`
 * the 18 words that are not checked: 0 to 15, 19 and 20. Refusals 1, 2, 9. */
loamchalice_outcome loamchalice_write(
    const uint16_t *data, size_t data_length, const uint16_t *others, size_t others_length, uint8_t *image, size_t image_length);

/* Reads a card's words into two such lists, of 814 and 18 entries or more; later entries are unchanged. Refusals 1, 2, 3. */
loamchalice_outcome loamchalice_read_words(
    const uint8_t *image, size_t image_length, uint16_t *data, size_t data_length, uint16_t *others, size_t others_length);

/* Returns the position of the 64 bytes of a row of alpha, 0 to 5, in the image; 0 and 0 for a higher row or a short image. Refuses nothing. */
loamchalice_part loamchalice_alpha_row(const uint8_t *image, size_t image_length, size_t row);

/* Returns the position of a subpage's offsets in its own table: the first 192 entries, or none if it is shorter. Subpage 0 has the first table, any other
 * number the second. Refuses nothing. */
loamchalice_part loamchalice_subpage_offsets(const int32_t *zero, size_t zero_length, const int32_t *one, size_t one_length, uint8_t subpage);

/* Returns the next step from a present image to a wanted one: the first word that differs is set to zero or, if it is zero already, to the wanted value.
 * Refusals 1 (the present image is tested first) and 11. */
loamchalice_step loamchalice_next_step(const uint8_t *present, size_t present_length, const uint8_t *wanted, size_t wanted_length);

/* Does that step on the present image, both bytes of the word. At most 1,628 calls reach the wanted image; an interrupted burn continues from the image that
 * is found. Bytes past 1,664 are unchanged. Refusals 1 and 11. */
loamchalice_step loamchalice_burn(uint8_t *present, size_t present_length, const uint8_t *wanted, size_t wanted_length);

/* Mends a card in place: each checked word that is one flipped bit from a codeword becomes that codeword; other words and bytes past 1,664 are unchanged.
 * The numbers of the words that it changed and of the damaged words are written to the start of two lists of 814 entries or more; later entries are
 * unchanged. A card that loads gives the same calibration afterwards, with no word mended. Refusals 1, 2. */
loamchalice_scrubbed loamchalice_scrub(
    uint8_t *image, size_t image_length, uint16_t *changed, size_t changed_length, uint16_t *damaged, size_t damaged_length);

/* Pixels, two bytes each with the upper first, to infrared values in the destination. Mask byte i belongs to pixel i: 0 leaves the pixel unchanged, any
 * other value writes it. 384 pixel bytes, 192 mask bytes and 192 destination entries are used; what follows them is neither read nor changed. Refusals 2,
 * 10, 7, 8. */
loamchalice_answer loamchalice_raw_pixels_to_ir_data(
    loamchalice_record calibration, loamchalice_input input,
    const int32_t *offsets0, size_t offsets0_length, const int32_t *offsets1, size_t offsets1_length,
    const float *k_v, size_t k_v_length, const float *k_ta, size_t k_ta_length,
    const uint8_t *pixels, size_t pixels_length, const uint8_t *mask, size_t mask_length, uint32_t *destination, size_t destination_length);

/* Infrared values to temperatures, in place, for the ambient temperature t_a. Refusals 2, 10, 6, 8 (for the emissivity only). */
loamchalice_answer loamchalice_raw_ir_to_temperatures(
    loamchalice_record calibration, loamchalice_settings settings, float t_a,
    const float *alpha, size_t alpha_length, const uint8_t *mask, size_t mask_length, uint32_t *destination, size_t destination_length);

/* Pixels to temperatures in one pass; the mask selects pixels as above. Refusals 2, 10, 6, 7, 8. */
loamchalice_answer loamchalice_raw_pixels_to_temperatures(
    loamchalice_record calibration, loamchalice_input input,
    const int32_t *offsets0, size_t offsets0_length, const int32_t *offsets1, size_t offsets1_length,
    const float *alpha, size_t alpha_length, const float *k_v, size_t k_v_length, const float *k_ta, size_t k_ta_length,
    const uint8_t *pixels, size_t pixels_length, const uint8_t *mask, size_t mask_length, uint32_t *destination, size_t destination_length);

/* The second pass, for scenes beyond the basic range: computes each pixel's basic temperature as one pass does, and from it the pixel's temperature with
 * the numbers of the range that holds the basic one. It takes the arguments of one pass, and does not read the destination. The record's range coefficients
 * are those of the basic range that the card was loaded with. Refusals 2, 10, 6, 7, 8, 12. */
loamchalice_answer loamchalice_raw_pixels_to_ranged_temperatures(
    loamchalice_record calibration, loamchalice_input input,
    const int32_t *offsets0, size_t offsets0_length, const int32_t *offsets1, size_t offsets1_length,
    const float *alpha, size_t alpha_length, const float *k_v, size_t k_v_length, const float *k_ta, size_t k_ta_length,
    const uint8_t *pixels, size_t pixels_length, const uint8_t *mask, size_t mask_length, uint32_t *destination, size_t destination_length);

/* A moving average of the compensation pixel: the last 16 raw readings, in counts, and their sum, as a value. Keep one for each subpage that is read: a filter
 * knows nothing of subpages. A new one is all zero. One filled in by hand is accepted too: a sum outside 20 bits signed is clamped to that range. */
typedef struct {
    int16_t readings[16];
    int32_t sum;
    uint8_t turn; /* the number of readings, 0 to 15; once there are 16, 16 plus the index of the oldest */
} loamchalice_filter;

/* What a filter returns. */
typedef struct {
    float average; /* of the last 16 readings, counts, exact; +0 if ready is 0 */
    uint8_t ready; /* 0: there are fewer than 16 readings, and the average is not read */
} loamchalice_average;

/* The inputs of a filtered frame: those of the plain one, and what loamchalice_filter_average returned. */
typedef struct {
    loamchalice_input input;
    loamchalice_average compensation;
} loamchalice_filtered;

/* Returns a filter without readings. To reset a filter, replace it by this one. */
loamchalice_filter loamchalice_filter_new(void);

/* Returns the filter with one more reading: push ram.compensation_pixel of each frame of its subpage. */
loamchalice_filter loamchalice_filter_push(loamchalice_filter filter, int16_t reading);

/* Returns the average of the last 16 readings. */
loamchalice_average loamchalice_filter_average(loamchalice_filter filter);

/* The calls above with a filter's average in place of ram.compensation_pixel; while the average is not ready, they equal the calls above. They do not push
 * a reading. An average that is NaN is not refused: if the record has a gradient, every pixel that the mask asks for is then lost. Same refusals. */
loamchalice_answer loamchalice_filtered_pixels_to_ir_data(
    loamchalice_record calibration, loamchalice_filtered filtered,
    const int32_t *offsets0, size_t offsets0_length, const int32_t *offsets1, size_t offsets1_length,
    const float *k_v, size_t k_v_length, const float *k_ta, size_t k_ta_length,
    const uint8_t *pixels, size_t pixels_length, const uint8_t *mask, size_t mask_length, uint32_t *destination, size_t destination_length);

loamchalice_answer loamchalice_filtered_pixels_to_temperatures(
    loamchalice_record calibration, loamchalice_filtered filtered,
    const int32_t *offsets0, size_t offsets0_length, const int32_t *offsets1, size_t offsets1_length,
    const float *alpha, size_t alpha_length, const float *k_v, size_t k_v_length, const float *k_ta, size_t k_ta_length,
    const uint8_t *pixels, size_t pixels_length, const uint8_t *mask, size_t mask_length, uint32_t *destination, size_t destination_length);

loamchalice_answer loamchalice_filtered_pixels_to_ranged_temperatures(
    loamchalice_record calibration, loamchalice_filtered filtered,
    const int32_t *offsets0, size_t offsets0_length, const int32_t *offsets1, size_t offsets1_length,
    const float *alpha, size_t alpha_length, const float *k_v, size_t k_v_length, const float *k_ta, size_t k_ta_length,
    const uint8_t *pixels, size_t pixels_length, const uint8_t *mask, size_t mask_length, uint32_t *destination, size_t destination_length);

/* The MLX90640: 32 by 24 pixels, row by row. Its card has LOAMCHALICE_IMAGE_BYTES too, and no check bits: every word is accepted as it is, and a card of the
 * other camera may load.
 *
 * Each of its subpages has half of the pixels: one colour of a chessboard, or every other row (interleave). So a picture is two calls, each with its
 * subpage's RAM words and mask, and its own filter. Fill the destination with infinity before each picture, not before each subpage: a pixel that no call
 * wrote then reads as too hot. */
#define LOAMCHALICE_MLX90640_WIDTH 32
#define LOAMCHALICE_MLX90640_HEIGHT 24
#define LOAMCHALICE_MLX90640_PIXELS 768
#define LOAMCHALICE_MLX90640_PIXEL_BYTES 1536
#define LOAMCHALICE_MLX90640_RANGES 4
#define LOAMCHALICE_MLX90640_BASIC_RANGE 1
#define LOAMCHALICE_MLX90640_SELF_HEATING 8.0f /* degrees */

/* The access pattern: bit 12 of the camera's control register. Chess is the default after power-on. */
#define LOAMCHALICE_MLX90640_INTERLEAVE 0
#define LOAMCHALICE_MLX90640_CHESS 1

/* The MLX90640's calibration record, all zero after a refusal. If has_gradient is 0 there is no gradient, and `gradient` is not read. Lists of two have an
 * entry for each subpage. The struct has no padding, so records can be compared by memcmp. */
typedef struct {
    float k_v_ptat;              /* per volt */
    float k_t_ptat;              /* counts per degree */
    float v_ptat_25;             /* counts */
    float alpha_ptat;            /* a ratio */
    float gain;                  /* counts */
    float k_s_ta;                /* per degree */
    float k_v_cp;                /* per volt */
    float k_ta_cp;               /* per degree */
    float gradient;              /* a ratio */
    float access_cp;             /* counts; access term of the compensation pixel in subpage 1 and interleave mode */
    float alpha_cp[2];           /* counts per kelvin to the fourth */
    float k_s_to[4];             /* per degree */
    float range_coefficients[4]; /* 1 at the basic range that the card was loaded with */
    float k_v[4];                /* per volt, by loamchalice_mlx90640_chessboard_entry */
    float access_pattern[6];     /* counts; access terms of pixels in interleave mode, by loamchalice_mlx90640_interleave_entry */
    int16_t corner_temperatures[4]; /* degrees Celsius */
    int16_t offset_reference_cp[2]; /* counts */
    int16_t k_v_dd;              /* counts per volt */
    int16_t v_dd_25;             /* counts */
    uint8_t resolution;          /* that the card was written at, 0 to 3 */
    uint8_t has_gradient;
    uint8_t unused[2];           /* 0; not read */
} loamchalice_mlx90640_record;

/* What loamchalice_mlx90640_load returns. */
typedef struct {
    loamchalice_told told;
    loamchalice_mlx90640_record calibration;
} loamchalice_mlx90640_loaded;

/* Loads a card into three tables of 768 entries or more: offsets in counts, alpha in counts per kelvin to the fourth, K_Ta per degree. Entries past 768 are
 * unchanged. The camera's basic range is LOAMCHALICE_MLX90640_BASIC_RANGE. Refusals 1, 2, 5, 6. Refusal 5: one of four whole numbers of a pixel is outside
 * 16 bits signed: its offset; average plus row plus column of its alpha; the pixel's own part of its alpha; the sum of its K_Ta. A blank card, all 0xFF, is
 * refused by 5. */
loamchalice_mlx90640_loaded loamchalice_mlx90640_load(
    const uint8_t *image, size_t image_length, size_t basic_range,
    int32_t *offsets, size_t offsets_length, float *alpha, size_t alpha_length, float *k_ta, size_t k_ta_length);

/* The inputs of an MLX90640 frame apart from the card's record and tables. */
typedef struct {
    loamchalice_settings settings; /* the basic range is 0 to 3 */
    loamchalice_ram ram;           /* those of the subpage */
    uint8_t subpage; /* 0 is the first, any other number the second */
    uint8_t pattern; /* LOAMCHALICE_MLX90640_INTERLEAVE is 0; any other number is chess */
} loamchalice_mlx90640_input;

/* The same, and what the filter of the subpage's compensation pixel returned. */
typedef struct {
    loamchalice_mlx90640_input input;
    loamchalice_average compensation;
} loamchalice_mlx90640_filtered;

/* Writes the mask of a subpage into the first 768 entries: 1 for each of its pixels, 0 for the others. Later entries are unchanged. Refusal 2. */
loamchalice_outcome loamchalice_mlx90640_subpage_mask(uint8_t subpage, uint8_t pattern, uint8_t *mask, size_t mask_length);

/* The frame calls, like the MLX90641's. The mask alone selects the pixels that are written; subpage and pattern select the compensation pixel's values and
 * the access terms, and a mask that does not match them is not refused. Refusals of pixels to infrared: 2, 10, 7, 8; of infrared to temperatures: 2, 10, 6, 8
 * (for the emissivity only); of one pass: 2, 10, 6, 7, 8; of the second pass: 2, 10, 6, 7, 8, 12. */
loamchalice_answer loamchalice_mlx90640_raw_pixels_to_ir_data(
    loamchalice_mlx90640_record calibration, loamchalice_mlx90640_input input,
    const int32_t *offsets, size_t offsets_length, const float *k_ta, size_t k_ta_length,
    const uint8_t *pixels, size_t pixels_length, const uint8_t *mask, size_t mask_length, uint32_t *destination, size_t destination_length);

loamchalice_answer loamchalice_mlx90640_raw_ir_to_temperatures(
    loamchalice_mlx90640_record calibration, loamchalice_settings settings, uint8_t subpage, float t_a,
    const float *alpha, size_t alpha_length, const uint8_t *mask, size_t mask_length, uint32_t *destination, size_t destination_length);

loamchalice_answer loamchalice_mlx90640_raw_pixels_to_temperatures(
    loamchalice_mlx90640_record calibration, loamchalice_mlx90640_input input,
    const int32_t *offsets, size_t offsets_length, const float *alpha, size_t alpha_length, const float *k_ta, size_t k_ta_length,
    const uint8_t *pixels, size_t pixels_length, const uint8_t *mask, size_t mask_length, uint32_t *destination, size_t destination_length);

loamchalice_answer loamchalice_mlx90640_raw_pixels_to_ranged_temperatures(
    loamchalice_mlx90640_record calibration, loamchalice_mlx90640_input input,
    const int32_t *offsets, size_t offsets_length, const float *alpha, size_t alpha_length, const float *k_ta, size_t k_ta_length,
    const uint8_t *pixels, size_t pixels_length, const uint8_t *mask, size_t mask_length, uint32_t *destination, size_t destination_length);

/* The same with a filter's average. */
loamchalice_answer loamchalice_mlx90640_filtered_pixels_to_ir_data(
    loamchalice_mlx90640_record calibration, loamchalice_mlx90640_filtered filtered,
    const int32_t *offsets, size_t offsets_length, const float *k_ta, size_t k_ta_length,
    const uint8_t *pixels, size_t pixels_length, const uint8_t *mask, size_t mask_length, uint32_t *destination, size_t destination_length);

loamchalice_answer loamchalice_mlx90640_filtered_pixels_to_temperatures(
    loamchalice_mlx90640_record calibration, loamchalice_mlx90640_filtered filtered,
    const int32_t *offsets, size_t offsets_length, const float *alpha, size_t alpha_length, const float *k_ta, size_t k_ta_length,
    const uint8_t *pixels, size_t pixels_length, const uint8_t *mask, size_t mask_length, uint32_t *destination, size_t destination_length);

loamchalice_answer loamchalice_mlx90640_filtered_pixels_to_ranged_temperatures(
    loamchalice_mlx90640_record calibration, loamchalice_mlx90640_filtered filtered,
    const int32_t *offsets, size_t offsets_length, const float *alpha, size_t alpha_length, const float *k_ta, size_t k_ta_length,
    const uint8_t *pixels, size_t pixels_length, const uint8_t *mask, size_t mask_length, uint32_t *destination, size_t destination_length);

/* A word as 6 and 10 bits. */
typedef struct {
    int8_t six;   /* the upper six bits, signed */
    uint16_t ten; /* the lower ten bits, unsigned */
} loamchalice_mlx90640_six_ten;

typedef struct {
    uint8_t nibbles[4];
} loamchalice_mlx90640_unsigned;

typedef struct {
    int8_t nibbles[4];
} loamchalice_mlx90640_signed;

/* The access pattern corrections, numbered as in the datasheet: from the top 5 bits over 8, 5 over 2 and 6 over 16, all signed and exact. With A = chess_3,
 * B = chess_2 - A and C = chess_2 + A the pattern is -A, B, -C, A, -B, C; a negated zero is -0. */
typedef struct {
    float chess_3, chess_2, chess_1;
    float pattern[6];
} loamchalice_mlx90640_access;

/* The index of a pixel's entry in a pattern. */
typedef struct {
    loamchalice_told told;
    size_t entry; /* 0 after a refusal */
} loamchalice_mlx90640_entry;

/* Returns a word as 6 and 10 bits. */
loamchalice_mlx90640_six_ten loamchalice_mlx90640_word_6_10_split(uint16_t word);

/* Return the four nibbles of a word, the uppermost first. */
loamchalice_mlx90640_unsigned loamchalice_mlx90640_word_to_u4s(uint16_t word);
loamchalice_mlx90640_signed loamchalice_mlx90640_word_to_i4s(uint16_t word);

/* Returns the access pattern corrections of a word (word 53 of a card), and their pattern. */
loamchalice_mlx90640_access loamchalice_mlx90640_access_pattern(uint16_t word);

/* Return the index of a pixel's entry in the six of the interleave pattern, and in the four of the chessboard. On the chessboard 0 is an even row and an even
 * column, 1 an odd row and an even column, 2 an even row and an odd column, 3 both odd. Refusal 14. */
loamchalice_mlx90640_entry loamchalice_mlx90640_interleave_entry(size_t pixel);
loamchalice_mlx90640_entry loamchalice_mlx90640_chessboard_entry(size_t pixel);

/* Describes a refusal's number in words. Place and value have the details. */
static inline const char *loamchalice_refusal_text(uint64_t number) {
    switch (number) {
    case 0: return "no refusal";
    case 1: return "the image is too short, or a list of words is not of its length";
    case 2: return "a table is too short";
    case 3: return "a chip word is damaged";
    case 4: return "the offset scale is above 20";
    case 5: return "a number of a pixel is outside 16 bits";
    case 6: return "there is no such basic range";
    case 7: return "the supply reading is too far from its reference";
    case 8: return "a divisor is zero, or the emissivity is zero or NaN";
    case 9: return "data is above 2047";
    case 10: return "pixel bytes, destination or mask are too short";
    case 11: return "an unchecked word is another in the wanted image";
    case 12: return "a corner temperature is not above the one before it";
    case 13: return "a range coefficient would be divided by zero";
    case 14: return "there is no such pixel";
    default: return "no such refusal";
    }
}

/* Returns LOAMCHALICE_VERSION, for programs that can't read a macro. */
static inline const char *loamchalice_version(void) { return LOAMCHALICE_VERSION; }

/* Return the float that has these bits, and the bits of a float. */
static inline float loamchalice_float(uint32_t bits) {
    float x;
    memcpy(&x, &bits, sizeof x);
    return x;
}

static inline uint32_t loamchalice_bits(float x) {
    uint32_t bits;
    memcpy(&bits, &x, sizeof bits);
    return bits;
}

/* Returns 1 if the floating-point environment of this thread is the default one, which the calls assume: round to nearest, ties to even, and no flush to
 * zero of results or operands; else 0. A lamp controller calls it at start, and keeps the lamp down if it returns 0. */
static inline int loamchalice_environment_is_default(void) {
    volatile float one = 1.0f, half = 0.5f, two = 2.0f;
    volatile float next = loamchalice_float(0x3F800001);      /* the float after 1 */
    volatile float half_step = loamchalice_float(0x33800000); /* half the distance between them */
    volatile float least = loamchalice_float(0x00800000);     /* the smallest positive normal number */
    volatile float subnormal = loamchalice_float(0x00400000); /* half of it */
    float down = one + half_step, up = next + half_step, result = least * half, operand = subnormal * two;
    return loamchalice_bits(down) == 0x3F800000 && loamchalice_bits(up) == 0x3F800002 && loamchalice_bits(result) == 0x00400000 &&
           loamchalice_bits(operand) == 0x00800000;
}

/* A card's record and tables, for the calls below. */
typedef struct {
    loamchalice_record record;
    int32_t offsets0[LOAMCHALICE_PIXELS], offsets1[LOAMCHALICE_PIXELS];
    float alpha[LOAMCHALICE_PIXELS], k_v[LOAMCHALICE_PIXELS], k_ta[LOAMCHALICE_PIXELS];
} loamchalice_camera;

/* The groups of arguments that the calls below pass on; undefined again after them. */
#define LOAMCHALICE_LENT(table) (table), LOAMCHALICE_PIXELS
#define LOAMCHALICE_OFFSETS LOAMCHALICE_LENT(camera->offsets0), LOAMCHALICE_LENT(camera->offsets1)
#define LOAMCHALICE_K LOAMCHALICE_LENT(camera->k_v), LOAMCHALICE_LENT(camera->k_ta)
#define LOAMCHALICE_TABLES LOAMCHALICE_OFFSETS, LOAMCHALICE_LENT(camera->alpha), LOAMCHALICE_K
#define LOAMCHALICE_FRAME pixels, pixels_length, LOAMCHALICE_LENT(mask), LOAMCHALICE_LENT(destination)

/* Calls loamchalice_load with the camera's basic range. A refused card leaves the camera unchanged. Refusals 1, 3, 4. */
static inline loamchalice_loaded loamchalice_camera_load(loamchalice_camera *camera, const uint8_t *image, size_t image_length) {
    loamchalice_loaded loaded = loamchalice_load(image, image_length, LOAMCHALICE_BASIC_RANGE, LOAMCHALICE_TABLES);
    if (loaded.told.number == 0) {
        camera->record = loaded.calibration;
    }
    return loaded;
}

/* Returns 2 to the power of the card's resolution minus the camera's current one, each 0 to 3: 1 if they are equal. */
static inline float loamchalice_resolution_correction(uint8_t calibrated, uint8_t current) {
    float correction = 1.0f;
    for (; calibrated < current; current--) {
        correction *= 0.5f;
    }
    for (; current < calibrated; current++) {
        correction *= 2.0f;
    }
    return correction;
}

/* Returns settings with a nominal supply of 3.3 volts and no reflected temperature given. */
static inline loamchalice_settings loamchalice_settings_with(size_t basic_range, float emissivity, float resolution_correction, float self_heating) {
    loamchalice_settings settings;
    settings.basic_range = basic_range;
    settings.emissivity = emissivity;
    settings.resolution_correction = resolution_correction;
    settings.v_dd_0 = 3.3f;
    settings.self_heating = self_heating;
    settings.reflected = 0.0f;
    settings.reflected_given = 0;
    return settings;
}

/* Returns settings for a card: its own emissivity, and the correction for the camera's current resolution, 0 to 3, which is in bits 10 and 11 of its control
 * register (2 after power-on). The rest are the camera's numbers, and no reflected temperature is given. The basic range is that of
 * loamchalice_camera_load; if you load with another one, set it here too. */
static inline loamchalice_settings loamchalice_settings_of(const loamchalice_record *record, uint8_t current_resolution) {
    float correction = loamchalice_resolution_correction(record->resolution, current_resolution);
    return loamchalice_settings_with(LOAMCHALICE_BASIC_RANGE, record->emissivity, correction, LOAMCHALICE_SELF_HEATING);
}

/* Whether x is neither an infinity nor NaN. */
static inline int loamchalice_finite(float x) { return (loamchalice_bits(x) & 0x7F800000u) != 0x7F800000u; }

/* Like loamchalice_warning, for a camera with this number of ranges. */
static inline const char *loamchalice_warning_of(const loamchalice_settings *settings, size_t ranges) {
    if (settings->basic_range >= ranges) {
        return "the camera has no such basic range";
    }
    if (!loamchalice_finite(settings->emissivity) || settings->emissivity <= 0.0f || settings->emissivity > 1.0f) {
        return "the emissivity is not above 0 and at most 1";
    }
    if (!loamchalice_finite(settings->resolution_correction) || settings->resolution_correction <= 0.0f) {
        return "the resolution correction is no positive number";
    }
    if (!loamchalice_finite(settings->v_dd_0) || settings->v_dd_0 <= 0.0f) {
        return "the nominal supply is no positive number";
    }
    if (settings->reflected_given == 0) {
        return loamchalice_finite(settings->self_heating) ? NULL : "the self-heating is no number";
    }
    if (!loamchalice_finite(settings->reflected) || settings->reflected < -273.15f) {
        return "the reflected temperature is no number, or below -273.15";
    }
    return NULL;
}

/* Returns what looks wrong in these settings, or NULL. The calls refuse only some of it. A lamp controller should not run with a warning. */
static inline const char *loamchalice_warning(const loamchalice_settings *settings) { return loamchalice_warning_of(settings, LOAMCHALICE_RANGES); }

/* Whether the gain in RAM differs from the card's by a quarter of it or less. */
static inline int loamchalice_gain_is_near(float card, loamchalice_ram ram) {
    float read = (float)ram.gain;
    return loamchalice_finite(card) && card > 0.0f && read >= 0.75f * card && read <= 1.25f * card;
}

/* Returns a warning if the gain in a frame's RAM differs from the card's by more than a quarter, as with a half-burnt card or another camera's card; else
 * NULL. No call refuses this, so check it with each frame. */
static inline const char *loamchalice_gain_warning(const loamchalice_record *record, loamchalice_ram ram) {
    return loamchalice_gain_is_near(record->gain, ram) ? NULL : "the gain in RAM is far from the card's";
}

/* Return the frame calls' arguments, made from their parts. */
static inline loamchalice_input loamchalice_input_of(const loamchalice_settings *settings, loamchalice_ram ram, uint8_t subpage) {
    loamchalice_input input;
    input.settings = *settings;
    input.ram = ram;
    input.subpage = subpage;
    return input;
}

static inline loamchalice_filtered loamchalice_filtered_of(
    const loamchalice_settings *settings, loamchalice_ram ram, loamchalice_average average, uint8_t subpage) {
    loamchalice_filtered filtered;
    filtered.input = loamchalice_input_of(settings, ram, subpage);
    filtered.compensation = average;
    return filtered;
}

/* The frame calls with a camera and settings. Mask and destination have 192 entries. Pass the number of pixel bytes that were received: fewer than 384 are
 * refusal 10. */
static inline loamchalice_answer loamchalice_camera_raw_pixels_to_ir_data(
    const loamchalice_camera *camera, const loamchalice_settings *settings, loamchalice_ram ram, uint8_t subpage,
    const uint8_t *pixels, size_t pixels_length, const uint8_t mask[LOAMCHALICE_PIXELS], uint32_t destination[LOAMCHALICE_PIXELS]) {
    return loamchalice_raw_pixels_to_ir_data(
        camera->record, loamchalice_input_of(settings, ram, subpage), LOAMCHALICE_OFFSETS, LOAMCHALICE_K, LOAMCHALICE_FRAME);
}

static inline loamchalice_answer loamchalice_camera_raw_ir_to_temperatures(
    const loamchalice_camera *camera, const loamchalice_settings *settings, float t_a,
    const uint8_t mask[LOAMCHALICE_PIXELS], uint32_t destination[LOAMCHALICE_PIXELS]) {
    return loamchalice_raw_ir_to_temperatures(
        camera->record, *settings, t_a, LOAMCHALICE_LENT(camera->alpha), LOAMCHALICE_LENT(mask), LOAMCHALICE_LENT(destination));
}

static inline loamchalice_answer loamchalice_camera_raw_pixels_to_temperatures(
    const loamchalice_camera *camera, const loamchalice_settings *settings, loamchalice_ram ram, uint8_t subpage,
    const uint8_t *pixels, size_t pixels_length, const uint8_t mask[LOAMCHALICE_PIXELS], uint32_t destination[LOAMCHALICE_PIXELS]) {
    return loamchalice_raw_pixels_to_temperatures(
        camera->record, loamchalice_input_of(settings, ram, subpage), LOAMCHALICE_TABLES, LOAMCHALICE_FRAME);
}

static inline loamchalice_answer loamchalice_camera_raw_pixels_to_ranged_temperatures(
    const loamchalice_camera *camera, const loamchalice_settings *settings, loamchalice_ram ram, uint8_t subpage,
    const uint8_t *pixels, size_t pixels_length, const uint8_t mask[LOAMCHALICE_PIXELS], uint32_t destination[LOAMCHALICE_PIXELS]) {
    return loamchalice_raw_pixels_to_ranged_temperatures(
        camera->record, loamchalice_input_of(settings, ram, subpage), LOAMCHALICE_TABLES, LOAMCHALICE_FRAME);
}

/* The same with what loamchalice_filter_average returned. */
static inline loamchalice_answer loamchalice_camera_filtered_pixels_to_ir_data(
    const loamchalice_camera *camera, const loamchalice_settings *settings, loamchalice_ram ram, loamchalice_average average, uint8_t subpage,
    const uint8_t *pixels, size_t pixels_length, const uint8_t mask[LOAMCHALICE_PIXELS], uint32_t destination[LOAMCHALICE_PIXELS]) {
    return loamchalice_filtered_pixels_to_ir_data(
        camera->record, loamchalice_filtered_of(settings, ram, average, subpage), LOAMCHALICE_OFFSETS, LOAMCHALICE_K, LOAMCHALICE_FRAME);
}

static inline loamchalice_answer loamchalice_camera_filtered_pixels_to_temperatures(
    const loamchalice_camera *camera, const loamchalice_settings *settings, loamchalice_ram ram, loamchalice_average average, uint8_t subpage,
    const uint8_t *pixels, size_t pixels_length, const uint8_t mask[LOAMCHALICE_PIXELS], uint32_t destination[LOAMCHALICE_PIXELS]) {
    return loamchalice_filtered_pixels_to_temperatures(
        camera->record, loamchalice_filtered_of(settings, ram, average, subpage), LOAMCHALICE_TABLES, LOAMCHALICE_FRAME);
}

static inline loamchalice_answer loamchalice_camera_filtered_pixels_to_ranged_temperatures(
    const loamchalice_camera *camera, const loamchalice_settings *settings, loamchalice_ram ram, loamchalice_average average, uint8_t subpage,
    const uint8_t *pixels, size_t pixels_length, const uint8_t mask[LOAMCHALICE_PIXELS], uint32_t destination[LOAMCHALICE_PIXELS]) {
    return loamchalice_filtered_pixels_to_ranged_temperatures(
        camera->record, loamchalice_filtered_of(settings, ram, average, subpage), LOAMCHALICE_TABLES, LOAMCHALICE_FRAME);
}

#undef LOAMCHALICE_LENT
#undef LOAMCHALICE_OFFSETS
#undef LOAMCHALICE_K
#undef LOAMCHALICE_TABLES
#undef LOAMCHALICE_FRAME

/* An MLX90640 card's record and tables, for the calls below. Their subpage and pattern are as in loamchalice_mlx90640_input. */
typedef struct {
    loamchalice_mlx90640_record record;
    int32_t offsets[LOAMCHALICE_MLX90640_PIXELS];
    float alpha[LOAMCHALICE_MLX90640_PIXELS], k_ta[LOAMCHALICE_MLX90640_PIXELS];
} loamchalice_mlx90640_camera;

#define LOAMCHALICE_LENT(table) (table), LOAMCHALICE_MLX90640_PIXELS
#define LOAMCHALICE_TABLES LOAMCHALICE_LENT(camera->offsets), LOAMCHALICE_LENT(camera->alpha), LOAMCHALICE_LENT(camera->k_ta)
#define LOAMCHALICE_FRAME pixels, pixels_length, LOAMCHALICE_LENT(mask), LOAMCHALICE_LENT(destination)

/* Calls loamchalice_mlx90640_load with the camera's basic range. A refused card leaves the camera unchanged. Refusals 1, 5. */
static inline loamchalice_mlx90640_loaded loamchalice_mlx90640_camera_load(loamchalice_mlx90640_camera *camera, const uint8_t *image, size_t image_length) {
    loamchalice_mlx90640_loaded loaded = loamchalice_mlx90640_load(image, image_length, LOAMCHALICE_MLX90640_BASIC_RANGE, LOAMCHALICE_TABLES);
    if (loaded.told.number == 0) {
        camera->record = loaded.calibration;
    }
    return loaded;
}

/* Returns settings for a card, like loamchalice_settings_of. This card has no emissivity: it is 1 here, for you to change. */
static inline loamchalice_settings loamchalice_mlx90640_settings_of(const loamchalice_mlx90640_record *record, uint8_t current_resolution) {
    float correction = loamchalice_resolution_correction(record->resolution, current_resolution);
    return loamchalice_settings_with(LOAMCHALICE_MLX90640_BASIC_RANGE, 1.0f, correction, LOAMCHALICE_MLX90640_SELF_HEATING);
}

/* Like loamchalice_warning and loamchalice_gain_warning. */
static inline const char *loamchalice_mlx90640_warning(const loamchalice_settings *settings) {
    return loamchalice_warning_of(settings, LOAMCHALICE_MLX90640_RANGES);
}

static inline const char *loamchalice_mlx90640_gain_warning(const loamchalice_mlx90640_record *record, loamchalice_ram ram) {
    return loamchalice_gain_is_near(record->gain, ram) ? NULL : "the gain in RAM is far from the card's";
}

/* Return the frame calls' arguments, made from their parts. */
static inline loamchalice_mlx90640_input loamchalice_mlx90640_input_of(
    const loamchalice_settings *settings, loamchalice_ram ram, uint8_t subpage, uint8_t pattern) {
    loamchalice_mlx90640_input input;
    input.settings = *settings;
    input.ram = ram;
    input.subpage = subpage;
    input.pattern = pattern;
    return input;
}

static inline loamchalice_mlx90640_filtered loamchalice_mlx90640_filtered_of(
    const loamchalice_settings *settings, loamchalice_ram ram, loamchalice_average average, uint8_t subpage, uint8_t pattern) {
    loamchalice_mlx90640_filtered filtered;
    filtered.input = loamchalice_mlx90640_input_of(settings, ram, subpage, pattern);
    filtered.compensation = average;
    return filtered;
}

/* The frame calls with a camera and settings. Mask and destination have 768 entries. Pass the number of pixel bytes that were received: fewer than 1,536 are
 * refusal 10. */
static inline loamchalice_answer loamchalice_mlx90640_camera_raw_pixels_to_ir_data(
    const loamchalice_mlx90640_camera *camera, const loamchalice_settings *settings, loamchalice_ram ram, uint8_t subpage, uint8_t pattern,
    const uint8_t *pixels, size_t pixels_length, const uint8_t mask[LOAMCHALICE_MLX90640_PIXELS], uint32_t destination[LOAMCHALICE_MLX90640_PIXELS]) {
    return loamchalice_mlx90640_raw_pixels_to_ir_data(
        camera->record, loamchalice_mlx90640_input_of(settings, ram, subpage, pattern), LOAMCHALICE_LENT(camera->offsets), LOAMCHALICE_LENT(camera->k_ta), LOAMCHALICE_FRAME);
}

static inline loamchalice_answer loamchalice_mlx90640_camera_raw_ir_to_temperatures(
    const loamchalice_mlx90640_camera *camera, const loamchalice_settings *settings, uint8_t subpage, float t_a,
    const uint8_t mask[LOAMCHALICE_MLX90640_PIXELS], uint32_t destination[LOAMCHALICE_MLX90640_PIXELS]) {
    return loamchalice_mlx90640_raw_ir_to_temperatures(
        camera->record, *settings, subpage, t_a, LOAMCHALICE_LENT(camera->alpha), LOAMCHALICE_LENT(mask), LOAMCHALICE_LENT(destination));
}

static inline loamchalice_answer loamchalice_mlx90640_camera_raw_pixels_to_temperatures(
    const loamchalice_mlx90640_camera *camera, const loamchalice_settings *settings, loamchalice_ram ram, uint8_t subpage, uint8_t pattern,
    const uint8_t *pixels, size_t pixels_length, const uint8_t mask[LOAMCHALICE_MLX90640_PIXELS], uint32_t destination[LOAMCHALICE_MLX90640_PIXELS]) {
    return loamchalice_mlx90640_raw_pixels_to_temperatures(
        camera->record, loamchalice_mlx90640_input_of(settings, ram, subpage, pattern), LOAMCHALICE_TABLES, LOAMCHALICE_FRAME);
}

static inline loamchalice_answer loamchalice_mlx90640_camera_raw_pixels_to_ranged_temperatures(
    const loamchalice_mlx90640_camera *camera, const loamchalice_settings *settings, loamchalice_ram ram, uint8_t subpage, uint8_t pattern,
    const uint8_t *pixels, size_t pixels_length, const uint8_t mask[LOAMCHALICE_MLX90640_PIXELS], uint32_t destination[LOAMCHALICE_MLX90640_PIXELS]) {
    return loamchalice_mlx90640_raw_pixels_to_ranged_temperatures(
        camera->record, loamchalice_mlx90640_input_of(settings, ram, subpage, pattern), LOAMCHALICE_TABLES, LOAMCHALICE_FRAME);
}

/* The same with what loamchalice_filter_average returned for the filter of this subpage. */
static inline loamchalice_answer loamchalice_mlx90640_camera_filtered_pixels_to_ir_data(
    const loamchalice_mlx90640_camera *camera, const loamchalice_settings *settings, loamchalice_ram ram, loamchalice_average average, uint8_t subpage,
    uint8_t pattern, const uint8_t *pixels, size_t pixels_length, const uint8_t mask[LOAMCHALICE_MLX90640_PIXELS],
    uint32_t destination[LOAMCHALICE_MLX90640_PIXELS]) {
    return loamchalice_mlx90640_filtered_pixels_to_ir_data(
        camera->record, loamchalice_mlx90640_filtered_of(settings, ram, average, subpage, pattern), LOAMCHALICE_LENT(camera->offsets), LOAMCHALICE_LENT(camera->k_ta), LOAMCHALICE_FRAME);
}

static inline loamchalice_answer loamchalice_mlx90640_camera_filtered_pixels_to_temperatures(
    const loamchalice_mlx90640_camera *camera, const loamchalice_settings *settings, loamchalice_ram ram, loamchalice_average average, uint8_t subpage,
    uint8_t pattern, const uint8_t *pixels, size_t pixels_length, const uint8_t mask[LOAMCHALICE_MLX90640_PIXELS],
    uint32_t destination[LOAMCHALICE_MLX90640_PIXELS]) {
    return loamchalice_mlx90640_filtered_pixels_to_temperatures(
        camera->record, loamchalice_mlx90640_filtered_of(settings, ram, average, subpage, pattern), LOAMCHALICE_TABLES, LOAMCHALICE_FRAME);
}

static inline loamchalice_answer loamchalice_mlx90640_camera_filtered_pixels_to_ranged_temperatures(
    const loamchalice_mlx90640_camera *camera, const loamchalice_settings *settings, loamchalice_ram ram, loamchalice_average average, uint8_t subpage,
    uint8_t pattern, const uint8_t *pixels, size_t pixels_length, const uint8_t mask[LOAMCHALICE_MLX90640_PIXELS],
    uint32_t destination[LOAMCHALICE_MLX90640_PIXELS]) {
    return loamchalice_mlx90640_filtered_pixels_to_ranged_temperatures(
        camera->record, loamchalice_mlx90640_filtered_of(settings, ram, average, subpage, pattern), LOAMCHALICE_TABLES, LOAMCHALICE_FRAME);
}

#undef LOAMCHALICE_LENT
#undef LOAMCHALICE_TABLES
#undef LOAMCHALICE_FRAME

/* The layout of the structs that the library takes and returns on a 64-bit processor: sizes and offsets in bytes. */
#if defined(__cplusplus)
#define LOAMCHALICE_ASSERT(test) static_assert(test, "Loamchalice's layout")
#elif defined(__STDC_VERSION__) && __STDC_VERSION__ >= 201112L
#define LOAMCHALICE_ASSERT(test) _Static_assert(test, "Loamchalice's layout")
#else
#define LOAMCHALICE_JOIN(a, b) a##b
#define LOAMCHALICE_NAME(line) LOAMCHALICE_JOIN(loamchalice_layout_, line)
#define LOAMCHALICE_ASSERT(test) typedef char LOAMCHALICE_NAME(__LINE__)[(test) ? 1 : -1]
#endif
#define LOAMCHALICE_SIZE(type, bytes) LOAMCHALICE_ASSERT(sizeof(loamchalice_##type) == (bytes))
#define LOAMCHALICE_AT(type, field, bytes) (offsetof(loamchalice_##type, field) == (bytes))
LOAMCHALICE_ASSERT(sizeof(void *) == 8 && sizeof(size_t) == 8 && sizeof(float) == 4);
LOAMCHALICE_SIZE(told, 24);
LOAMCHALICE_ASSERT(LOAMCHALICE_AT(told, number, 0) && LOAMCHALICE_AT(told, place, 8) && LOAMCHALICE_AT(told, value, 16));
LOAMCHALICE_SIZE(word, 32);
LOAMCHALICE_ASSERT(LOAMCHALICE_AT(word, told, 0) &&
                   LOAMCHALICE_AT(word, word, 24) && LOAMCHALICE_AT(word, mended, 26) && LOAMCHALICE_AT(word, bit, 27));
LOAMCHALICE_SIZE(part, 16);
LOAMCHALICE_ASSERT(LOAMCHALICE_AT(part, start, 0) && LOAMCHALICE_AT(part, length, 8));
LOAMCHALICE_SIZE(record, 132);
LOAMCHALICE_ASSERT(LOAMCHALICE_AT(record, k_v_ptat, 0) && LOAMCHALICE_AT(record, k_t_ptat, 4) && LOAMCHALICE_AT(record, v_ptat_25, 8) &&
                   LOAMCHALICE_AT(record, alpha_ptat, 12) && LOAMCHALICE_AT(record, gain, 16) && LOAMCHALICE_AT(record, k_s_ta, 20) &&
                   LOAMCHALICE_AT(record, emissivity, 24) && LOAMCHALICE_AT(record, alpha_cp, 28) && LOAMCHALICE_AT(record, k_v_cp, 32) &&
                   LOAMCHALICE_AT(record, k_ta_cp, 36) && LOAMCHALICE_AT(record, gradient, 40) && LOAMCHALICE_AT(record, k_s_to, 44) &&
                   LOAMCHALICE_AT(record, corner_temperatures, 76) && LOAMCHALICE_AT(record, k_v_dd, 92) && LOAMCHALICE_AT(record, v_dd_25, 94) &&
                   LOAMCHALICE_AT(record, offset_reference_cp, 96) && LOAMCHALICE_AT(record, resolution, 98) &&
                   LOAMCHALICE_AT(record, has_gradient, 99) && LOAMCHALICE_AT(record, range_coefficients, 100));
LOAMCHALICE_SIZE(loaded, 176);
LOAMCHALICE_ASSERT(LOAMCHALICE_AT(loaded, told, 0) &&
                   LOAMCHALICE_AT(loaded, mended, 24) && LOAMCHALICE_AT(loaded, last_mended, 32) && LOAMCHALICE_AT(loaded, calibration, 40));
LOAMCHALICE_SIZE(reader, 192);
LOAMCHALICE_ASSERT(LOAMCHALICE_AT(reader, count, 0) && LOAMCHALICE_AT(reader, ended, 8) && LOAMCHALICE_AT(reader, answer, 16));
LOAMCHALICE_SIZE(taken, 368);
LOAMCHALICE_ASSERT(LOAMCHALICE_AT(taken, reader, 0) && LOAMCHALICE_AT(taken, answer, 192));
LOAMCHALICE_SIZE(ram, 10);
LOAMCHALICE_ASSERT(LOAMCHALICE_AT(ram, t_a_v_be, 0) && LOAMCHALICE_AT(ram, t_a_ptat, 2) && LOAMCHALICE_AT(ram, v_dd_pixel, 4) &&
                   LOAMCHALICE_AT(ram, gain, 6) && LOAMCHALICE_AT(ram, compensation_pixel, 8));
LOAMCHALICE_SIZE(settings, 32);
LOAMCHALICE_ASSERT(LOAMCHALICE_AT(settings, basic_range, 0) && LOAMCHALICE_AT(settings, emissivity, 8) &&
                   LOAMCHALICE_AT(settings, resolution_correction, 12) && LOAMCHALICE_AT(settings, v_dd_0, 16) &&
                   LOAMCHALICE_AT(settings, self_heating, 20) && LOAMCHALICE_AT(settings, reflected, 24) &&
                   LOAMCHALICE_AT(settings, reflected_given, 28));
LOAMCHALICE_SIZE(input, 48);
LOAMCHALICE_ASSERT(LOAMCHALICE_AT(input, settings, 0) && LOAMCHALICE_AT(input, ram, 32) && LOAMCHALICE_AT(input, subpage, 42));
LOAMCHALICE_SIZE(answer, 40);
LOAMCHALICE_ASSERT(LOAMCHALICE_AT(answer, told, 0) &&
                   LOAMCHALICE_AT(answer, lost, 24) && LOAMCHALICE_AT(answer, t_a, 32));
LOAMCHALICE_SIZE(outcome, 24);
LOAMCHALICE_ASSERT(LOAMCHALICE_AT(outcome, told, 0));
LOAMCHALICE_SIZE(step, 40);
LOAMCHALICE_ASSERT(LOAMCHALICE_AT(step, told, 0) &&
                   LOAMCHALICE_AT(step, word, 24) && LOAMCHALICE_AT(step, bits, 32) && LOAMCHALICE_AT(step, reached, 34));
LOAMCHALICE_SIZE(scrubbed, 40);
LOAMCHALICE_ASSERT(LOAMCHALICE_AT(scrubbed, told, 0) &&
                   LOAMCHALICE_AT(scrubbed, changed, 24) && LOAMCHALICE_AT(scrubbed, damaged, 32));
LOAMCHALICE_SIZE(filter, 40);
LOAMCHALICE_ASSERT(LOAMCHALICE_AT(filter, readings, 0) && LOAMCHALICE_AT(filter, sum, 32) && LOAMCHALICE_AT(filter, turn, 36));
LOAMCHALICE_SIZE(average, 8);
LOAMCHALICE_ASSERT(LOAMCHALICE_AT(average, average, 0) && LOAMCHALICE_AT(average, ready, 4));
LOAMCHALICE_SIZE(filtered, 56);
LOAMCHALICE_ASSERT(LOAMCHALICE_AT(filtered, input, 0) && LOAMCHALICE_AT(filtered, compensation, 48));
LOAMCHALICE_SIZE(mlx90640_record, 140);
LOAMCHALICE_ASSERT(LOAMCHALICE_AT(mlx90640_record, k_v_ptat, 0) && LOAMCHALICE_AT(mlx90640_record, k_t_ptat, 4) &&
                   LOAMCHALICE_AT(mlx90640_record, v_ptat_25, 8) && LOAMCHALICE_AT(mlx90640_record, alpha_ptat, 12) &&
                   LOAMCHALICE_AT(mlx90640_record, gain, 16) && LOAMCHALICE_AT(mlx90640_record, k_s_ta, 20) &&
                   LOAMCHALICE_AT(mlx90640_record, k_v_cp, 24) && LOAMCHALICE_AT(mlx90640_record, k_ta_cp, 28) &&
                   LOAMCHALICE_AT(mlx90640_record, gradient, 32) && LOAMCHALICE_AT(mlx90640_record, access_cp, 36) &&
                   LOAMCHALICE_AT(mlx90640_record, alpha_cp, 40) && LOAMCHALICE_AT(mlx90640_record, k_s_to, 48) &&
                   LOAMCHALICE_AT(mlx90640_record, range_coefficients, 64) && LOAMCHALICE_AT(mlx90640_record, k_v, 80) &&
                   LOAMCHALICE_AT(mlx90640_record, access_pattern, 96) && LOAMCHALICE_AT(mlx90640_record, corner_temperatures, 120) &&
                   LOAMCHALICE_AT(mlx90640_record, offset_reference_cp, 128) && LOAMCHALICE_AT(mlx90640_record, k_v_dd, 132) &&
                   LOAMCHALICE_AT(mlx90640_record, v_dd_25, 134) && LOAMCHALICE_AT(mlx90640_record, resolution, 136) &&
                   LOAMCHALICE_AT(mlx90640_record, has_gradient, 137) && LOAMCHALICE_AT(mlx90640_record, unused, 138));
LOAMCHALICE_SIZE(mlx90640_loaded, 168);
LOAMCHALICE_ASSERT(LOAMCHALICE_AT(mlx90640_loaded, told, 0) && LOAMCHALICE_AT(mlx90640_loaded, calibration, 24));
LOAMCHALICE_SIZE(mlx90640_input, 48);
LOAMCHALICE_ASSERT(LOAMCHALICE_AT(mlx90640_input, settings, 0) && LOAMCHALICE_AT(mlx90640_input, ram, 32) &&
                   LOAMCHALICE_AT(mlx90640_input, subpage, 42) && LOAMCHALICE_AT(mlx90640_input, pattern, 43));
LOAMCHALICE_SIZE(mlx90640_filtered, 56);
LOAMCHALICE_ASSERT(LOAMCHALICE_AT(mlx90640_filtered, input, 0) && LOAMCHALICE_AT(mlx90640_filtered, compensation, 48));
LOAMCHALICE_SIZE(mlx90640_six_ten, 4);
LOAMCHALICE_ASSERT(LOAMCHALICE_AT(mlx90640_six_ten, six, 0) && LOAMCHALICE_AT(mlx90640_six_ten, ten, 2));
LOAMCHALICE_SIZE(mlx90640_unsigned, 4);
LOAMCHALICE_ASSERT(LOAMCHALICE_AT(mlx90640_unsigned, nibbles, 0));
LOAMCHALICE_SIZE(mlx90640_signed, 4);
LOAMCHALICE_ASSERT(LOAMCHALICE_AT(mlx90640_signed, nibbles, 0));
LOAMCHALICE_SIZE(mlx90640_access, 36);
LOAMCHALICE_ASSERT(LOAMCHALICE_AT(mlx90640_access, chess_3, 0) && LOAMCHALICE_AT(mlx90640_access, chess_2, 4) &&
                   LOAMCHALICE_AT(mlx90640_access, chess_1, 8) && LOAMCHALICE_AT(mlx90640_access, pattern, 12));
LOAMCHALICE_SIZE(mlx90640_entry, 32);
LOAMCHALICE_ASSERT(LOAMCHALICE_AT(mlx90640_entry, told, 0) && LOAMCHALICE_AT(mlx90640_entry, entry, 24));
#undef LOAMCHALICE_JOIN
#undef LOAMCHALICE_NAME
#undef LOAMCHALICE_ASSERT
#undef LOAMCHALICE_SIZE
#undef LOAMCHALICE_AT

#ifdef __cplusplus
}
#endif

#endif
