// icu FORM: standard input, of at most 16 MiB, to standard output by ICU's normalizeUTF8, all at once.
#include <cstdio>
#include <cstdlib>
#include <cstring>
#include <unicode/bytestream.h>
#include <unicode/normalizer2.h>
#include <unistd.h>

// Pages that are never touched cost nothing.
static const size_t LIMIT = 1 << 24;
// No character's form has more bytes than this many times its own.
static const size_t GROWTH = 12;

int main(int argc, char **argv) {
    if (argc != 2 || strlen(argv[1]) < 3)
        return 2;
    UErrorCode error = U_ZERO_ERROR;
    const icu::Normalizer2 *normalizer =
        icu::Normalizer2::getInstance(nullptr, argv[1][2] == 'k' ? "nfkc" : "nfc",
                                      strchr(argv[1], 'd') ? UNORM2_DECOMPOSE : UNORM2_COMPOSE, error);
    char *input = (char *)malloc(LIMIT);
    size_t length = 0;
    for (ssize_t got; (got = read(0, input + length, LIMIT - length)) > 0;)
        length += got;
    char *output = (char *)malloc(GROWTH * length + 1);
    icu::CheckedArrayByteSink sink(output, (int32_t)(GROWTH * length));
    normalizer->normalizeUTF8(0, icu::StringPiece(input, (int32_t)length), sink, nullptr, error);
    size_t made = sink.NumberOfBytesWritten();
    return U_FAILURE(error) || sink.Overflowed() || fwrite(output, 1, made, stdout) != made || fflush(stdout) != 0;
}
