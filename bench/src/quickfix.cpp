// QuickFIX's own parse of a message, with its tests of length and checksum on; for the bench.
#include <quickfix/Message.h>
#include <string>

extern "C" {
void *quickfix_text(const char *bytes, size_t length) { return new std::string(bytes, length); }

void quickfix_free(void *text) { delete static_cast<std::string *>(text); }

// 1 if the message is parsed and has an 11.
int quickfix_parse(const void *text) {
    try {
        FIX::Message message;
        message.setString(*static_cast<const std::string *>(text), true);
        return message.isSetField(11);
    } catch (const std::exception &) {
        return 0;
    }
}
}
