/* Heads and images: there and back, the bytes themselves, and what is refused. */
#include "tests.h"

#include "unit.h"

#include <string.h>

static const struct trnadulek_cpu sample = {
    .a = 0x11,
    .f = 0xB0,
    .b = 0x22,
    .c = 0x33,
    .d = 0x44,
    .e = 0x55,
    .h = 0x66,
    .l = 0x77,
    .sp = 0x8899,
    .pc = 0xAABB,
    .ime = TRNADULEK_IME_ARMING,
    .mode = TRNADULEK_MODE_HALTED,
};

static const uint8_t sample_head[TRNADULEK_HEAD_SIZE] = {1,    0,    0,    0,    14,   0x11, 0xB0, 0x22,
                                                         0x33, 0x44, 0x55, 0x66, 0x77, 0x88, 0x99, 0xAA,
                                                         0xBB, 1,    2,    0,    1,    0,    0};

static void head_there_and_back(void)
{
    struct guarded head = guarded_bytes(TRNADULEK_HEAD_SIZE, 0xA5);
    struct guarded state = guarded_bytes(TRNADULEK_STATE_SIZE, 0xA5);
    struct trnadulek_cpu got;
    check_number("saved", TRNADULEK_DONE, trnadulek_save_cpu(&sample, head.bytes, head.count));
    check_bytes("saved", sample_head, head.bytes, head.count);
    check_number("loaded", TRNADULEK_DONE, trnadulek_load_head(head.bytes, head.count, state.bytes));
    check_bytes("loaded", sample_head + 5, state.bytes, state.count);
    trnadulek_cpu_of_state(state.bytes, &got);
    check_cpu("loaded", &sample, &got);
    memset(head.bytes, 0xA5, head.count);
    check_number("saved again", TRNADULEK_DONE, trnadulek_save_head(state.bytes, head.bytes, head.count));
    check_bytes("saved again", sample_head, head.bytes, head.count);
    guarded_release("beside a head", &head);
    guarded_release("beside a state", &state);
}

static void image_there_and_back(void)
{
    struct guarded image = guarded_bytes(TRNADULEK_IMAGE_SIZE, 0xA5);
    struct guarded memory = guarded_bytes(TRNADULEK_MEMORY_SIZE, 0);
    struct guarded state = guarded_bytes(TRNADULEK_STATE_SIZE, 0xA5);
    struct trnadulek_cpu got;
    size_t i;
    for (i = 0; i < memory.count; i++) {
        memory.bytes[i] = (uint8_t)(i * 7 + i / 256);
    }
    trnadulek_state_of_cpu(&sample, state.bytes);
    check_number("image saved", TRNADULEK_DONE,
                 trnadulek_save_image(state.bytes, memory.bytes, memory.count, image.bytes, image.count));
    check_bytes("image saved", sample_head, image.bytes, TRNADULEK_HEAD_SIZE);
    check_bytes("image saved", memory.bytes, image.bytes + TRNADULEK_HEAD_SIZE, memory.count);
    memset(state.bytes, 0xA5, state.count);
    check_number("image opened", TRNADULEK_DONE, trnadulek_open_image(image.bytes, image.count, state.bytes));
    check_bytes("image opened", sample_head + 5, state.bytes, state.count);
    check_number("image opened", TRNADULEK_DONE, trnadulek_open_cpu(image.bytes, image.count, &got));
    check_cpu("image opened", &sample, &got);
    guarded_release("beside an image", &image);
    guarded_release("beside a memory", &memory);
    guarded_release("beside a state", &state);
}

/* A load, of a head or of an image, that is refused: the number, and a block of zeros. */
typedef uint8_t loader(const uint8_t *bytes, size_t length, uint8_t state[TRNADULEK_STATE_SIZE]);

static void load_refused(const char *what, loader *load, uint8_t code, const struct guarded *bytes, size_t length)
{
    static const uint8_t zeros[TRNADULEK_STATE_SIZE];
    struct guarded state = guarded_bytes(TRNADULEK_STATE_SIZE, 0xA5);
    check_number(what, code, load(bytes->bytes, length, state.bytes));
    check_bytes(what, zeros, state.bytes, state.count);
    guarded_release(what, &state);
}

static void loads_in_order(loader *load, size_t length)
{
    struct guarded bytes = guarded_bytes(length + 1, 0xFF);
    uint8_t *head = bytes.bytes;
    load_refused("nothing", load, TRNADULEK_LENGTH, &bytes, 0);
    load_refused("a byte too short", load, TRNADULEK_LENGTH, &bytes, length - 1);
    load_refused("a byte too long", load, TRNADULEK_LENGTH, &bytes, length + 1);
    load_refused("version 255", load, TRNADULEK_SAVED_VERSION, &bytes, length);
    head[0] = 2;
    load_refused("version 2", load, TRNADULEK_SAVED_VERSION, &bytes, length);
    head[0] = 1;
    load_refused("both lengths wrong", load, TRNADULEK_BLOCK_LENGTH, &bytes, length);
    memcpy(head + 1, "\0\0\0\17", 4);
    memcpy(head + 19, "\0\1\0\0", 4);
    load_refused("a block of 15", load, TRNADULEK_BLOCK_LENGTH, &bytes, length);
    memcpy(head + 1, "\0\0\0\16", 4);
    memcpy(head + 19, "\0\1\0\1", 4);
    load_refused("a memory of 65,537", load, TRNADULEK_BLOCK_LENGTH, &bytes, length);
    memcpy(head + 19, "\0\1\0\0", 4);
    load_refused("both codes wrong", load, TRNADULEK_STATE_CODE, &bytes, length);
    head[17] = TRNADULEK_IME_ON + 1;
    head[18] = TRNADULEK_MODE_STOPPED;
    load_refused("IME 3", load, TRNADULEK_STATE_CODE, &bytes, length);
    head[17] = TRNADULEK_IME_ON;
    head[18] = TRNADULEK_MODE_STOPPED + 1;
    load_refused("mode 4", load, TRNADULEK_STATE_CODE, &bytes, length);
    head[18] = TRNADULEK_MODE_STOPPED;
    load_refused("F is $FF", load, TRNADULEK_FLAG_BITS, &bytes, length);
    head[6] = 0xF1;
    load_refused("F is $F1", load, TRNADULEK_FLAG_BITS, &bytes, length);
    guarded_release("beside what was loaded", &bytes);
}

/* A save that is refused: the number, and nothing written. */
static void save_head_refused(const char *what, uint8_t code, const uint8_t *state, size_t head_len)
{
    struct guarded head = guarded_bytes(head_len, 0xA5);
    struct guarded before = guarded_bytes(head_len, 0xA5);
    check_number(what, code, trnadulek_save_head(state, head.bytes, head.count));
    check_bytes(what, before.bytes, head.bytes, head.count);
    guarded_release(what, &head);
    guarded_release(what, &before);
}

static void save_head_in_order(void)
{
    const size_t size = TRNADULEK_HEAD_SIZE;
    uint8_t state[TRNADULEK_STATE_SIZE];
    memset(state, 0xFF, sizeof state);
    save_head_refused("both codes wrong", TRNADULEK_STATE_CODE, state, size - 1);
    state[12] = TRNADULEK_IME_ON;
    save_head_refused("the mode's code wrong", TRNADULEK_STATE_CODE, state, size - 1);
    state[12] = TRNADULEK_IME_ON + 1;
    state[13] = TRNADULEK_MODE_STOPPED;
    save_head_refused("IME's code wrong", TRNADULEK_STATE_CODE, state, size - 1);
    state[12] = TRNADULEK_IME_ON;
    save_head_refused("no head", TRNADULEK_LENGTH, state, 0);
    save_head_refused("a head of 22 bytes", TRNADULEK_LENGTH, state, size - 1);
    save_head_refused("a head of 24 bytes", TRNADULEK_LENGTH, state, size + 1);
    save_head_refused("F is $FF", TRNADULEK_FLAG_BITS, state, size);
    state[1] = 0x08;
    save_head_refused("F is $08", TRNADULEK_FLAG_BITS, state, size);
}

static void save_image_refused(const char *what, uint8_t code, const uint8_t *state, size_t memory_len, size_t image_len)
{
    struct guarded memory = guarded_bytes(memory_len, 0x11);
    struct guarded image = guarded_bytes(image_len, 0xA5);
    struct guarded before = guarded_bytes(image_len, 0xA5);
    check_number(what, code, trnadulek_save_image(state, memory.bytes, memory.count, image.bytes, image.count));
    check_bytes(what, before.bytes, image.bytes, image.count);
    guarded_release(what, &memory);
    guarded_release(what, &image);
    guarded_release(what, &before);
}

static void save_image_in_order(void)
{
    const size_t image = TRNADULEK_IMAGE_SIZE;
    const size_t memory = TRNADULEK_MEMORY_SIZE;
    uint8_t state[TRNADULEK_STATE_SIZE];
    memset(state, 0xFF, sizeof state);
    save_image_refused("both codes wrong", TRNADULEK_STATE_CODE, state, memory - 1, image - 1);
    state[12] = TRNADULEK_IME_OFF;
    save_image_refused("the mode's code wrong", TRNADULEK_STATE_CODE, state, memory - 1, image - 1);
    state[13] = TRNADULEK_MODE_REPEAT;
    save_image_refused("no image", TRNADULEK_LENGTH, state, memory - 1, 0);
    save_image_refused("an image of 65,558 bytes", TRNADULEK_LENGTH, state, memory - 1, image - 1);
    save_image_refused("an image of 65,560 bytes", TRNADULEK_LENGTH, state, memory - 1, image + 1);
    save_image_refused("a memory of 65,535 bytes", TRNADULEK_MEMORY_LENGTH, state, memory - 1, image);
    save_image_refused("a memory of 65,537 bytes", TRNADULEK_MEMORY_LENGTH, state, memory + 1, image);
    save_image_refused("F is $FF", TRNADULEK_FLAG_BITS, state, memory, image);
}

void test_saved(void)
{
    head_there_and_back();
    image_there_and_back();
    loads_in_order(trnadulek_load_head, TRNADULEK_HEAD_SIZE);
    loads_in_order(trnadulek_open_image, TRNADULEK_IMAGE_SIZE);
    save_head_in_order();
    save_image_in_order();
}
