/* Deflates a text by zlib, at each level from 1 to 9, and prints how long it comes out; then prints the bytes
 * of the last one, inflates them, and prints the text that is back. The work stands in local memory; the
 * console alone is outside.
 */
#include "s2.h"
#include "zlib/zlib.h"

enum { ROOM = 2048, MEMORY_LEVEL = 4, WINDOW_BITS = 11 };

/* Lewis Carroll, The Hunting of the Snark, 1876. */
static const char text[] =
    "\"Just the place for a Snark!\" the Bellman cried,\n"
    "   As he landed his crew with care;\n"
    "Supporting each man on the top of the tide\n"
    "   By a finger entwined in his hair.\n"
    "\n"
    "\"Just the place for a Snark! I have said it twice:\n"
    "   That alone should encourage the crew.\n"
    "Just the place for a Snark! I have said it thrice:\n"
    "   What I tell you three times is true.\"\n"
    "\n"
    "The crew was complete: it included a Boots--\n"
    "   A maker of Bonnets and Hoods--\n"
    "A Barrister, brought to arrange their disputes--\n"
    "   And a Broker, to value their goods.\n"
    "\n"
    "A Billiard-marker, whose skill was immense,\n"
    "   Might perhaps have won more than his share--\n"
    "But a Banker, engaged at enormous expense,\n"
    "   Had the whole of their cash in his care.\n"
    "\n"
    "There was also a Beaver, that paced on the deck,\n"
    "   Or would sit making lace in the bow:\n"
    "And had often (the Bellman said) saved them from wreck,\n"
    "   Though none of the sailors knew how.\n";

static unsigned char squeezed[ROOM];
static unsigned char back[ROOM];

static voidpf take(voidpf owner, uInt items, uInt size)
{
    (void)owner;
    return memory_take((size_t)items * size);
}

static void give(voidpf owner, voidpf memory)
{
    (void)owner;
    (void)memory;
}

/* Ends the program where zlib did not answer as it must; the halt value is its answer. */
static void must(int found, int wanted)
{
    if (found != wanted)
        halt((uint32_t)found);
}

/* Deflates the text, and gives the number of bytes that came of it. */
static uInt squeeze(int level)
{
    z_stream stream = { .zalloc = take, .zfree = give };

    must(deflateInit2(&stream, level, Z_DEFLATED, WINDOW_BITS, MEMORY_LEVEL, Z_DEFAULT_STRATEGY), Z_OK);
    stream.next_in = (z_const Bytef *)text;
    stream.avail_in = sizeof text - 1;
    stream.next_out = squeezed;
    stream.avail_out = ROOM;
    must(deflate(&stream, Z_FINISH), Z_STREAM_END);
    must(deflateEnd(&stream), Z_OK);
    return (uInt)stream.total_out;
}

/* Inflates so many bytes, and gives the number of bytes that are back. */
static uInt expand(uInt size)
{
    z_stream stream = { .zalloc = take, .zfree = give };

    must(inflateInit2(&stream, WINDOW_BITS), Z_OK);
    stream.next_in = squeezed;
    stream.avail_in = size;
    stream.next_out = back;
    stream.avail_out = ROOM - 1;
    must(inflate(&stream, Z_FINISH), Z_STREAM_END);
    must(inflateEnd(&stream), Z_OK);
    return (uInt)stream.total_out;
}

static void print_bytes(const unsigned char *bytes, uInt size)
{
    static const char digits[] = "0123456789abcdef";

    for (uInt i = 0; i < size; i++) {
        console_byte(digits[bytes[i] >> 4]);
        console_byte(digits[bytes[i] & 15]);
        if (i % 36 == 35 || i + 1 == size)
            console_byte('\n');
    }
}

int main(void)
{
    uInt size = 0, whole;

    console_number(sizeof text - 1);
    console_text(" bytes\n");
    for (int level = 1; level <= 9; level++) {
        size = squeeze(level);
        console_text("level ");
        console_number((uint32_t)level);
        console_text(": ");
        console_number(size);
        console_text(" bytes\n");
    }
    print_bytes(squeezed, size);
    whole = expand(size);
    console_text((const char *)back);
    return whole == sizeof text - 1 && memcmp(text, back, whole) == 0 ? 0 : 1;
}
