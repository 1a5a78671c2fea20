/*
 * A host in C++: makes each call once, and ends with 0 where each answers what it must. It is only linked where the
 * header file gives C++ the names that the calls have in C.
 */
#include "stuiverhaag.h"

static const uint8_t station[STUIVERHAAG_STATION_LENGTH] = {'B', 'E', 'N', 'C', 'H', '/', '0', '1'};

static bool headers()
{
    static const uint8_t event[] = {'C', 'E', 'M'};
    static const uint8_t locations[] = {'0', '2', '4', '0', '3', '1'};
    uint8_t header[STUIVERHAAG_HEADER_LENGTH];
    uint64_t written = stuiverhaag_write_header(STUIVERHAAG_ORG_WXR, event, sizeof event, locations, sizeof locations,
                                                45, 95, 18, 0, station, sizeof station, header, sizeof header);
    uint64_t read = stuiverhaag_read_header(header, stuiverhaag_header_length(written));

    return stuiverhaag_number(written) == STUIVERHAAG_DONE && stuiverhaag_number(read) == STUIVERHAAG_DONE &&
           stuiverhaag_originator(read) == STUIVERHAAG_ORG_WXR && stuiverhaag_period(read) == 45;
}

static bool messages()
{
    static const uint8_t message[] = {'<', 'a', '>'};
    static uint8_t board[STUIVERHAAG_RECORD_LENGTH];
    uint8_t header[STUIVERHAAG_HEADER_LENGTH], text[STUIVERHAAG_TEXT_LENGTH], uri[STUIVERHAAG_URI_LENGTH];
    uint64_t of_header = stuiverhaag_header(message, sizeof message, station, sizeof station, header, sizeof header);
    uint64_t of_text = stuiverhaag_text(message, sizeof message, station, sizeof station, text, sizeof text,
                                        uri, sizeof uri);
    uint64_t canadian = stuiverhaag_canadian(message, sizeof message, text, sizeof text, uri, sizeof uri);
    uint64_t offered = stuiverhaag_offer(board, sizeof board, message, sizeof message);
    uint64_t handed = stuiverhaag_hand_out(board, sizeof board);

    return stuiverhaag_number(of_header) == STUIVERHAAG_XML_BAD && stuiverhaag_number(of_text) == STUIVERHAAG_XML_BAD &&
           stuiverhaag_number(canadian) == STUIVERHAAG_XML_BAD && stuiverhaag_number(offered) == STUIVERHAAG_XML_BAD &&
           stuiverhaag_number(handed) == STUIVERHAAG_NOTHING_DUE;
}

/* tools/build-host builds it freestanding, where main has no name in C by itself. */
extern "C" int main()
{
    return headers() && messages() ? 0 : 1;
}
