/* shipped CARD: writes the nanoseconds of each call, a line each, the least of 40 rounds. compare/shipped links it with the archive and with the shipped
 * assembly. */
#include "loamchalice.h"
#include <stdio.h>
#include <time.h>

#define ROUNDS 40

static uint8_t image[LOAMCHALICE_IMAGE_BYTES], kept[LOAMCHALICE_IMAGE_BYTES], pixels[LOAMCHALICE_PIXEL_BYTES], mask[LOAMCHALICE_PIXELS];
static uint16_t data[LOAMCHALICE_CHECKED_WORDS], others[LOAMCHALICE_UNCHECKED_WORDS], changed[LOAMCHALICE_CHECKED_WORDS], damaged[LOAMCHALICE_CHECKED_WORDS];
static uint32_t picture[LOAMCHALICE_PIXELS];
static loamchalice_camera camera;
static loamchalice_settings settings;
static const loamchalice_ram ram = {19442, 1711, -13115, 6391, -105};
static volatile uint64_t sink; /* keeps the results from being optimised away */

static double now(void) {
    struct timespec t;
    clock_gettime(CLOCK_MONOTONIC, &t);
    return 1e9 * (double)t.tv_sec + (double)t.tv_nsec;
}

static void frame(void) { sink += loamchalice_camera_raw_pixels_to_temperatures(&camera, &settings, ram, 0, pixels, sizeof pixels, mask, picture).lost; }
static void infrared(void) { sink += loamchalice_camera_raw_pixels_to_ir_data(&camera, &settings, ram, 0, pixels, sizeof pixels, mask, picture).lost; }
static void ranged(void) { sink += loamchalice_camera_raw_pixels_to_ranged_temperatures(&camera, &settings, ram, 0, pixels, sizeof pixels, mask, picture).lost; }
static void filtered(void) {
    const loamchalice_average average = {-105.0f, 1};
    sink += loamchalice_camera_filtered_pixels_to_temperatures(&camera, &settings, ram, average, 0, pixels, sizeof pixels, mask, picture).lost;
}
static void load(void) { sink += loamchalice_camera_load(&camera, image, sizeof image).mended; }
static void check(void) { sink += loamchalice_check((uint16_t)sink).word; }
static void read_words(void) { sink += loamchalice_read_words(image, sizeof image, data, 814, others, 18).told.number; }
static void write_card(void) { sink += loamchalice_write(data, 814, others, 18, image, sizeof image).told.number; }
static void scrub(void) { sink += loamchalice_scrub(image, sizeof image, changed, 814, damaged, 814).changed; }
static void pieces(void) {
    loamchalice_reader reader = loamchalice_reader_new();
    for (size_t at = 0; at < sizeof image; at += 64) {
        reader = loamchalice_reader_take(kept, reader, image + at, 64, LOAMCHALICE_BASIC_RANGE, camera.offsets0, 192, camera.offsets1, 192, camera.alpha, 192,
                                         camera.k_v, 192, camera.k_ta, 192).reader;
    }
    sink += reader.answer.told.number;
}

static void measure(const char *name, int times, void (*call)(void)) {
    double least = 1e18;
    for (int round = 0; round < ROUNDS; round++) {
        double from = now();
        for (int i = 0; i < times; i++) {
            call();
        }
        double took = (now() - from) / times;
        least = took < least ? took : least;
    }
    printf("%s\t%.1f\n", name, least);
}

int main(int argc, char **argv) {
    FILE *file = argc == 2 ? fopen(argv[1], "rb") : NULL;
    if (file == NULL || fread(image, 1, sizeof image, file) != sizeof image || loamchalice_camera_load(&camera, image, sizeof image).told.number != 0) {
        fprintf(stderr, "usage: shipped CARD\n");
        return 2;
    }
    fclose(file);
    settings = loamchalice_settings_of(&camera.record, 2);
    memset(mask, 1, sizeof mask);
    for (int i = 0; i < LOAMCHALICE_PIXELS; i++) {
        uint16_t word = (uint16_t)(-620 + i % 16 * 8);
        pixels[2 * i] = (uint8_t)(word >> 8);
        pixels[2 * i + 1] = (uint8_t)word;
    }
    measure("one pass", 300, frame);
    measure("pixels to infrared", 1000, infrared);
    measure("second pass", 200, ranged);
    measure("one pass, filtered", 300, filtered);
    measure("load", 500, load);
    measure("card in pieces of 64", 100, pieces);
    measure("check", 100000, check);
    measure("read_words", 300, read_words);
    measure("write", 300, write_card);
    measure("scrub", 300, scrub);
    return 0;
}
