/*
 * An example host: converts the CAP message on standard input for station BENCH/01 and prints the
 * number, and after 0 the header, the audio's uri, whether it must be carried, and the text. With
 * the word `canadian` it prints the number, the uri and the text of the Canadian mode. In bash,
 * from the root of the repository:
 *
 *     tools/build-host target/convert examples/convert.c
 *     . tools/run-program && run_host target/convert <examples/alert.xml
 *     run_host target/convert canadian <examples/alert.xml
 */
#include "stuiverhaag.h"

#include <stdio.h>
#include <stdlib.h>
#include <string.h>

/* Where the calls write. The text is UTF-8: its characters are at most a quarter of these bytes. */
static uint8_t header[STUIVERHAAG_HEADER_LENGTH];
static uint8_t text[STUIVERHAAG_TEXT_LENGTH];
static uint8_t uri[STUIVERHAAG_URI_LENGTH];

static void print(const char *name, const uint8_t *bytes, size_t length)
{
    /* What was written is no string: it has a length in bytes, and no zero behind it. */
    printf("%s %.*s\n", name, (int)length, (const char *)bytes);
}

/* Prints the number, and the field that belongs to it. Whether the outputs hold something. */
static int print_number(uint64_t answer)
{
    printf("number %u\n", stuiverhaag_number(answer));
    if (stuiverhaag_number(answer) == STUIVERHAAG_ELEMENT_BAD)
        printf("field %u\n", stuiverhaag_field(answer));
    return stuiverhaag_number(answer) == STUIVERHAAG_DONE;
}

static void print_uri(uint64_t answer)
{
    if (stuiverhaag_audio(answer) != STUIVERHAAG_AUDIO_NONE)
        print("uri", uri, stuiverhaag_uri_length(answer));
}

static int convert(const uint8_t *message, size_t length)
{
    static const uint8_t station[STUIVERHAAG_STATION_LENGTH] = {
        'B', 'E', 'N', 'C', 'H', '/', '0', '1',
    };
    uint64_t of_header = stuiverhaag_header(message, length, station, sizeof station,
                                            header, sizeof header);
    uint64_t of_text;

    if (!print_number(of_header))
        return EXIT_FAILURE;
    if (stuiverhaag_header_length(of_header) == 0)
        return EXIT_SUCCESS; /* A Cancel that activates nothing. */
    /* The outputs are long enough, so that this call answers 0 as the other did. */
    of_text = stuiverhaag_text(message, length, station, sizeof station,
                               text, sizeof text, uri, sizeof uri);
    print("header", header, stuiverhaag_header_length(of_header));
    print_uri(of_text);
    printf("carry %s\n", stuiverhaag_carry(of_header) != 0 ? "yes" : "no");
    print("text", text, stuiverhaag_text_length(of_text));
    return EXIT_SUCCESS;
}

static int convert_for_canada(const uint8_t *message, size_t length)
{
    uint64_t answer = stuiverhaag_canadian(message, length, text, sizeof text, uri, sizeof uri);

    if (!print_number(answer))
        return EXIT_FAILURE;
    print_uri(answer);
    print("text", text, stuiverhaag_text_length(answer));
    return EXIT_SUCCESS;
}

int main(int count, char **words)
{
    /* With room for one byte more, a message that is too long is refused and not cut short. */
    static uint8_t message[STUIVERHAAG_MESSAGE_LONGEST + 1];
    size_t length;

    if (count > 2 || (count == 2 && strcmp(words[1], "canadian") != 0)) {
        fprintf(stderr, "Give no word, or the word canadian.\n");
        return EXIT_FAILURE;
    }
    length = fread(message, 1, sizeof message, stdin);
    return count == 2 ? convert_for_canada(message, length) : convert(message, length);
}
