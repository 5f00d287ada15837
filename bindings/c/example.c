/* Loads a card and prints a frame's temperatures, twelve rows of sixteen.
 *   tools/archive target/libloamchalice.a
 *   cc -o target/example bindings/c/example.c target/libloamchalice.a
 *   target/example cards/sound.bin
 * The status is 0, 1 for a refusal or a warning, 2 if the card's file can't be read. If the card's gain does not fit the frame's, the picture is still shown
 * after the warning; a lamp controller would drop the lamp. */
#include "loamchalice.h"
#include <errno.h>
#include <stdio.h>
#include <string.h>

/* Reads a card from a file. */
static int open_card(const char *path, loamchalice_camera *camera) {
    static uint8_t image[LOAMCHALICE_IMAGE_BYTES];
    FILE *card = fopen(path, "rb");
    size_t length = card == NULL ? 0 : fread(image, 1, sizeof image, card);
    if (card == NULL || ferror(card)) {
        fprintf(stderr, "%s: %s\n", path, strerror(errno));
        return 2;
    }
    fclose(card);
    loamchalice_loaded loaded = loamchalice_camera_load(camera, image, length);
    if (loaded.told.number != 0) {
        fprintf(stderr, "card refused: %d at %lu, value %lu\n", (int)loaded.told.number, (unsigned long)loaded.told.place, (unsigned long)loaded.told.value);
        return 1;
    }
    if (loaded.mended != 0) {
        fprintf(stderr, "the card goes bad: %zu words mended, the last is %zu\n", loaded.mended, loaded.last_mended);
    }
    return 0;
}

/* Makes what a camera in a room would send, in place of reads over its bus. */
static loamchalice_ram read_frame(uint8_t pixels[LOAMCHALICE_PIXEL_BYTES]) {
    loamchalice_ram ram;
    ram.t_a_v_be = 19442;
    ram.t_a_ptat = 1711;
    ram.v_dd_pixel = -13115;
    ram.gain = 6391;
    ram.compensation_pixel = -105;
    for (int i = 0; i < LOAMCHALICE_PIXELS; i++) {
        uint16_t reading = (uint16_t)(int16_t)(-620 + (i % 16) * 8);
        pixels[2 * i] = (uint8_t)(reading >> 8);
        pixels[2 * i + 1] = (uint8_t)reading;
    }
    return ram;
}

static void show(loamchalice_answer frame, const uint32_t picture[LOAMCHALICE_PIXELS]) {
    printf("inside %.2f, pixels lost %zu\n", (double)loamchalice_float(frame.t_a), frame.lost);
    for (int i = 0; i < LOAMCHALICE_PIXELS; i++) {
        printf(i % 16 == 15 ? "%6.2f\n" : "%6.2f ", (double)loamchalice_float(picture[i]));
    }
}

int main(int argc, char **argv) {
    static loamchalice_camera camera;
    static uint8_t pixels[LOAMCHALICE_PIXEL_BYTES], mask[LOAMCHALICE_PIXELS];
    static uint32_t picture[LOAMCHALICE_PIXELS];

    if (argc != 2) {
        fprintf(stderr, "usage: example CARD\n");
        return 2;
    }
    if (!loamchalice_environment_is_default()) {
        fprintf(stderr, "the floating-point environment is not the default one\n");
        return 1;
    }
    int status = open_card(argv[1], &camera);
    if (status != 0) {
        return status;
    }
    loamchalice_settings settings = loamchalice_settings_of(&camera.record, 2); /* bits 10 and 11 of the control register */
    settings.emissivity = 0.95f; /* of the object in view, if the card's does not fit */
    const char *warning = loamchalice_warning(&settings);
    if (warning != NULL) {
        fprintf(stderr, "%s\n", warning);
        return 1;
    }
    memset(mask, 1, sizeof mask); /* every pixel */
    loamchalice_ram ram = read_frame(pixels);
    warning = loamchalice_gain_warning(&camera.record, ram);
    if (warning != NULL) {
        fprintf(stderr, "%s\n", warning);
    }
    loamchalice_answer frame = loamchalice_camera_raw_pixels_to_temperatures(&camera, &settings, ram, 0, pixels, sizeof pixels, mask, picture);
    if (frame.told.number != 0) {
        fprintf(stderr, "frame refused: %d at %lu\n", (int)frame.told.number, (unsigned long)frame.told.place);
        return 1;
    }
    show(frame, picture);
    return warning == NULL ? 0 : 1;
}
