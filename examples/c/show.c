/* cc examples/c/show.c crates/hub_c/out/libhub_c.a -o show && ./show < examples/two-commands.journal */
#include <stdio.h>
#include "mellfryd.h"

int main(void) {
    static uint8_t journal[65537], text[2048];
    size_t length = fread(journal, 1, sizeof journal, stdin);
    length = mellfryd_show(journal, length, text, sizeof text);
    fwrite(text, 1, length <= sizeof text ? length : 0, stdout);
    return text[0] == 'f';
}
