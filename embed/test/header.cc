/* The header in C++: it compiles without a warning, and each inline function can be called. */
#include "../mdeh.h"

int main() {
    MdehShape shape = {3, {7, 5, 9, 0}, 16, MDEH_SIGNED(2)};
    MdehRoom room = mdeh_room(shape, 100);
    const uint32_t state[MDEH_STATE_WORDS] = {3, 7, 5, 9};
    const uint8_t record[MDEH_RECORD_BYTES] = {30, 0, 2, 0, 156, 255};
    bool made = room.holds == 1 && room.words == 32 && room.bytes == 21 * MDEH_PAGE_BYTES(16);
    bool spread = mdeh_spread(82, 100, 7) == 104 && mdeh_rank(104, 100, 7) == 82 && mdeh_reversed(6, 4) == 6;
    bool read = mdeh_shape(state).widths[2] == 9 && mdeh_record(shape, record, 0).values[2] == -100;
    bool told = mdeh_reason(MDEH_ACCEPTED)[0] == 'a' && mdeh_reason_of(MDEH_REFUSED_WIDTH, 1) != mdeh_reason(0);
    return made && spread && read && told ? 0 : 1;
}
