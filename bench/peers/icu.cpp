// ICU: Normalizer2::normalizeUTF8, straight from UTF-8 to UTF-8; unorm2_normalize on UTF-16, ICU's
// own form; u_charName and u_charFromName; the root collator with numeric ordering. Its order is
// another than Pulphopper's, but the nearest call; it leaves ill-formed bytes and unpaired
// surrogates as they are.
#include <unicode/bytestream.h>
#include <unicode/normalizer2.h>
#include <unicode/stringpiece.h>
#include <unicode/uchar.h>
#include <unicode/ucol.h>
#include <unicode/unorm2.h>

extern "C" {
#include "../peer.h"

static const icu::Normalizer2 *nfc;
static const UNormalizer2 *nfc_of_units;
static UCollator *order;

static int start(void)
{
    UErrorCode error = U_ZERO_ERROR;
    nfc = icu::Normalizer2::getNFCInstance(error);
    nfc_of_units = unorm2_getNFCInstance(&error);
    order = ucol_open("", &error);
    ucol_setAttribute(order, UCOL_NUMERIC_COLLATION, UCOL_ON, &error);
    return U_FAILURE(error);
}

static long mend(const uint8_t *text, size_t length, uint8_t *out, size_t room)
{
    UErrorCode error = U_ZERO_ERROR;
    icu::CheckedArrayByteSink sink(reinterpret_cast<char *>(out), static_cast<int32_t>(room));
    icu::StringPiece piece(reinterpret_cast<const char *>(text), static_cast<int32_t>(length));
    nfc->normalizeUTF8(0, piece, sink, nullptr, error);
    return U_FAILURE(error) || sink.Overflowed() ? -1 : sink.NumberOfBytesAppended();
}

static long name(uint32_t code, uint8_t *out, size_t room)
{
    UErrorCode error = U_ZERO_ERROR;
    int32_t size = u_charName(static_cast<UChar32>(code), U_UNICODE_CHAR_NAME, reinterpret_cast<char *>(out), static_cast<int32_t>(room), &error);
    return U_FAILURE(error) ? -1 : size;
}

static long read(const uint8_t *name, size_t)
{
    UErrorCode error = U_ZERO_ERROR;
    UChar32 code = u_charFromName(U_UNICODE_CHAR_NAME, reinterpret_cast<const char *>(name), &error);
    return U_FAILURE(error) ? -1 : code;
}

static int rank(const uint8_t *first, size_t first_length, const uint8_t *second, size_t second_length)
{
    UErrorCode error = U_ZERO_ERROR;
    int answer = ucol_strcollUTF8(order, reinterpret_cast<const char *>(first), static_cast<int32_t>(first_length),
                                  reinterpret_cast<const char *>(second), static_cast<int32_t>(second_length), &error);
    return U_FAILURE(error) ? -2 : answer;
}

static long units(const uint16_t *text, size_t length, uint16_t *out, size_t room)
{
    UErrorCode error = U_ZERO_ERROR;
    int32_t size = unorm2_normalize(nfc_of_units, reinterpret_cast<const UChar *>(text), static_cast<int32_t>(length),
                                    reinterpret_cast<UChar *>(out), static_cast<int32_t>(room), &error);
    return U_FAILURE(error) ? -1 : size;
}

extern const struct peer peer = { start, mend, name, read, rank, nullptr, units };
}
