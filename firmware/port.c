/* What the proved program needs of the machine that it runs on: six functions, with 64-bit lengths on every processor. The keypad is its
 * standard input, the display its standard output, the card in the slot its file. */
#include "port.h"

enum { KEYPAD = 0, DISPLAY = 1, CARD = 3 };
enum { NO_SUCH_FILE = -1 };

int main(void); /* the proved program */
int32_t open(const uint8_t *path, int32_t how, ...);
int32_t rattle_errno(void);
void rattle_set_errno(int32_t number);
int32_t close(int32_t file);
int64_t read(int32_t file, uint8_t *to, uint64_t length);
int64_t write(int32_t file, const uint8_t *from, uint64_t length);

/* In the slot: the card's length, four bytes, the least first, and its bytes. An empty slot has the length 0, or one that no slot holds. */
enum { LENGTH_BYTES = 4 };
static uint32_t card_length; /* as it was when the card was opened */
static uint32_t card_read;   /* bytes that were read since */

static uint32_t length_in_slot(void) {
    uint32_t room = (uint32_t)(slot_end - slot_start) - LENGTH_BYTES, length = 0;
    for (int i = 0; i < LENGTH_BYTES; i++) length |= (uint32_t)slot_start[i] << 8 * i;
    return length <= room ? length : 0;
}

/* The program opens its card and nothing else. */
int32_t open(const uint8_t *path, int32_t how, ...) {
    (void)path, (void)how;
    card_length = length_in_slot();
    card_read = 0;
    return card_length > 0 ? CARD : NO_SUCH_FILE;
}

/* Why something failed makes no difference to the program. */
int32_t rattle_errno(void) { return 0; }
void rattle_set_errno(int32_t number) { (void)number; }

int32_t close(int32_t file) { return file == CARD ? 0 : NO_SUCH_FILE; }

/* Copies from the slot to the program's memory, where the card is looked at: every byte in the slot is read once. So a card that is
 * pulled out or changes meanwhile is some card, as every list of bytes is, and later it does not matter. */
static uint32_t read_card(uint8_t *to, uint32_t length) {
    uint32_t left = card_length - card_read, count = length < left ? length : left;
    const volatile uint8_t *from = slot_start + LENGTH_BYTES + card_read;
    for (uint32_t i = 0; i < count; i++) to[i] = from[i];
    card_read += count;
    return count;
}

/* Takes what is typed, up to the end of a line, so that each line is answered at once. */
static uint32_t read_keys(uint8_t *to, uint32_t length) {
    static int over;
    uint32_t count = 0;
    while (!over && count < length) {
        uint8_t key = board_key();
        if (key == END_KEY) {
            over = 1;
        } else {
            to[count++] = key;
            if (key == '\n') break;
        }
    }
    return count;
}

int64_t read(int32_t file, uint8_t *to, uint64_t length) {
    uint32_t most = length < INT32_MAX ? (uint32_t)length : INT32_MAX;
    if (file == KEYPAD) return read_keys(to, most);
    if (file == CARD) return read_card(to, most);
    return NO_SUCH_FILE;
}

static void show(const uint8_t *bytes, uint32_t count) {
    for (uint32_t i = 0; i < count; i++) board_show(bytes[i]);
}

int64_t write(int32_t file, const uint8_t *from, uint64_t length) {
    uint32_t count = length < INT32_MAX ? (uint32_t)length : INT32_MAX;
    if (file != DISPLAY) return NO_SUCH_FILE;
    show(from, count);
    return count;
}

void port_run(void) {
    for (uint8_t *byte = data_start; byte < data_end; byte++) *byte = 0;
    board_stop(main());
}

void port_fault(uint32_t address) {
    static const uint8_t text[] = "\nfault at ", digits[] = "0123456789abcdef";
    show(text, sizeof text - 1);
    for (int shift = 28; shift >= 0; shift -= 4) board_show(digits[address >> shift & 15]);
    board_show('\n');
    board_stop(1);
}
